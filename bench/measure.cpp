#include "measure.hpp"

#include <algorithm>
#include <ctime>
#include <limits>

namespace {

constexpr size_t rounds = 7;
constexpr double round_nanoseconds = 5e6;
// Batches that change nothing are repeated until a reading of the clock does not count.
constexpr double reading_nanoseconds = 2e5;

// What all calls answered, kept where the compiler cannot do without it.
volatile uint64_t answers_sum = 0;

// The processor time of this thread: what else the machine does is not in it.
double now() {
    timespec time;
    clock_gettime(CLOCK_THREAD_CPUTIME_ID, &time);
    return static_cast<double>(time.tv_sec) * 1e9 + static_cast<double>(time.tv_nsec);
}

double time_of(const Batch &batch, Engine &engine, size_t repeats) {
    if (batch.changes) engine.put_back();
    const double began = now();
    uint64_t answers = 0;
    for (size_t i = 0; i < repeats; ++i) answers += batch.run(engine);
    const double ended = now();
    answers_sum = answers_sum + answers;
    return ended - began;
}

// One round of an engine: batches until enough time is measured; nanoseconds a call.
double time_of_round(const Batch &batch, Engine &engine, size_t repeats) {
    double sum = 0;
    size_t batches = 0;
    for (; sum < round_nanoseconds; batches += repeats) sum += time_of(batch, engine, repeats);
    return sum / static_cast<double>(batches * batch.calls);
}

// An engine that takes part in a cell, in its state.
struct Runner {
    Runner(Engine &runner_engine, Operation operation, const Work &work, const Batch &batch) : engine(runner_engine) {
        bring_into_state(engine, operation, work);
        const double once = time_of(batch, engine, 1);
        if (!batch.changes) repeats += static_cast<size_t>(reading_nanoseconds / std::max(once, 1.0));
    }

    Engine &engine;
    size_t repeats = 1;
    double best = std::numeric_limits<double>::infinity();
};

} // namespace

std::vector<Cell> measure(Operation operation, const Work &work, const std::vector<Engine *> &engines) {
    const Batch batch = batch_of(operation, work);
    std::vector<Runner> runners;
    for (Engine *engine : engines) {
        if (engine->has(operation)) runners.emplace_back(*engine, operation, work, batch);
    }
    for (size_t round = 0; round < rounds; ++round) {
        for (Runner &runner : runners) runner.best = std::min(runner.best, time_of_round(batch, runner.engine, runner.repeats));
    }
    std::vector<Cell> cells;
    for (const Runner &runner : runners) cells.push_back({operation, work.kind, work.shape, runner.engine.name(), runner.best});
    return cells;
}

void check_columns(const Work &work, const std::vector<Engine *> &engines) {
    for (Engine *engine : engines) {
        bring_into_state(*engine, Operation::load, work);
        demand(engine->dump() == work.column, "an engine's column is not the one loaded");
        bring_into_state(*engine, Operation::dump, work);
        demand(engine->dump() == work.updated_column, "an engine's column is not the one after the updates");
        if (!engine->has(Operation::unpack)) continue;
        bring_into_state(*engine, Operation::unpack, work);
        for (size_t slot = 0; slot < pack_slots; ++slot) {
            demand(engine->unpack(slot) == work.packed_rows[slot], "an engine does not unpack what it packed");
        }
    }
}

Opened count_opened(const Work &work, Engine &proved) {
    bring_into_state(proved, Operation::value, work);
    uint64_t sum = 0;
    uint64_t largest = 0;
    for (const uint32_t row : work.read_rows) {
        const uint64_t opened = proved.value(row) >> 8;
        sum += opened;
        largest = std::max(largest, opened);
    }
    const Shape &shape = work.shape;
    const uint64_t bound = uint64_t{shape.values} * (shape.spacing + 2 * shape.threshold + 1);
    return {work.kind, shape, static_cast<double>(sum) / static_cast<double>(work.read_rows.size()), largest, bound};
}
