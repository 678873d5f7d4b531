#include "work.hpp"

#include "upbit.h"

#include <algorithm>

Work::Work(Kind column_kind, const Shape &index_shape) : kind(column_kind), shape(index_shape) {
    Generator generator(20240517u + shape.values);
    column = column_of(kind, shape.rows, shape.values, generator);
    updated_column = column;
    first_updates = updates_of(updated_column, update_count, generator);
    std::vector<uint8_t> later = updated_column;
    measured_updates = updates_of(later, update_count, generator);
    deleted_rows = distinct_rows(shape.rows, update_count, generator);
    read_rows = distinct_rows(shape.rows, 4096, generator);
    short_column.assign(column.begin(), column.end() - insert_room);
    std::vector<uint8_t> short_later = short_column;
    short_updates = updates_of(short_later, update_count, generator);
    for (size_t i = 0; i < update_count; ++i) inserted_values.push_back(column[generator.below(shape.rows)]);
    for (size_t slot = 0; slot < pack_slots; ++slot) {
        packed_rows[slot].resize(column.size());
        const auto value = static_cast<uint8_t>(slot * shape.values / pack_slots);
        std::transform(column.begin(), column.end(), packed_rows[slot].begin(), [value](uint8_t byte) { return byte == value; });
    }
}

namespace {

// The sum of what a call answers for each element.
template <class List, class Call> uint64_t sum_over(const List &list, Call call) {
    uint64_t sum = 0;
    for (const auto &element : list) sum += call(element);
    return sum;
}

// The same for each number below a limit.
template <class Call> uint64_t sum_below(size_t limit, Call call) {
    uint64_t sum = 0;
    for (size_t i = 0; i < limit; ++i) sum += call(i);
    return sum;
}

uint64_t last_byte(const std::vector<uint8_t> &bytes) { return bytes.back(); }

uint64_t run_updates(Engine &engine, const Work &work) {
    return sum_over(work.measured_updates, [&](Update update) { return engine.update(update.row, update.value); });
}

uint64_t run_inserts(Engine &engine, const Work &work) {
    return sum_over(work.inserted_values, [&](uint8_t value) { return engine.insert(value); });
}

uint64_t run_deletes(Engine &engine, const Work &work) {
    return sum_over(work.deleted_rows, [&](uint32_t row) { return engine.remove(row); });
}

uint64_t run_values(Engine &engine, const Work &work) {
    return sum_over(work.read_rows, [&](uint32_t row) { return engine.value(row); });
}

uint64_t run_queries(Engine &engine, const Work &work) {
    return sum_below(work.shape.values, [&](size_t value) { return engine.query(static_cast<uint8_t>(value)); });
}

uint64_t run_merges(Engine &engine, const Work &work) {
    return sum_below(work.shape.values, [&](size_t value) { return engine.merge(static_cast<uint8_t>(value)); });
}

uint64_t run_load(Engine &engine, const Work &work) {
    engine.load(work.column, work.shape);
    return 1;
}

uint64_t run_dump(Engine &engine, const Work &) { return last_byte(engine.dump()); }

uint64_t run_audit(Engine &engine, const Work &) { return engine.audit() + 1; }

uint64_t run_packs(Engine &engine, const Work &work) {
    return sum_below(pack_slots, [&](size_t slot) { return engine.pack(slot, work.packed_rows[slot]); });
}

uint64_t run_unpacks(Engine &engine, const Work &) {
    return sum_below(pack_slots, [&](size_t slot) { return last_byte(engine.unpack(slot)); });
}

} // namespace

Batch batch_of(Operation operation, const Work &work) {
    const auto batch = [&work](uint64_t (*run)(Engine &, const Work &), size_t calls, bool changes) {
        return Batch{[run, &work](Engine &engine) { return run(engine, work); }, calls, changes};
    };
    switch (operation) {
    case Operation::load: return batch(run_load, 1, false);
    case Operation::update: return batch(run_updates, work.measured_updates.size(), true);
    case Operation::insert: return batch(run_inserts, work.inserted_values.size(), true);
    case Operation::remove: return batch(run_deletes, work.deleted_rows.size(), true);
    case Operation::value: return batch(run_values, work.read_rows.size(), false);
    case Operation::query:
    case Operation::query_updated: return batch(run_queries, work.shape.values, false);
    case Operation::merge: return batch(run_merges, work.shape.values, true);
    case Operation::dump: return batch(run_dump, 1, false);
    case Operation::audit: return batch(run_audit, 1, false);
    case Operation::pack: return batch(run_packs, pack_slots, false);
    case Operation::unpack: break;
    }
    return batch(run_unpacks, pack_slots, false);
}

void bring_into_state(Engine &engine, Operation operation, const Work &work) {
    const bool inserting = operation == Operation::insert;
    const bool fresh = operation == Operation::load || operation == Operation::query;
    engine.load(inserting ? work.short_column : work.column, work.shape);
    if (!fresh) {
        for (const Update &update : inserting ? work.short_updates : work.first_updates) engine.update(update.row, update.value);
    }
    engine.keep();
    if (operation == Operation::unpack) {
        for (size_t slot = 0; slot < pack_slots; ++slot) engine.pack(slot, work.packed_rows[slot]);
    }
}
