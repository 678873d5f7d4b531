#include "compare.hpp"

#include "calls.hpp"
#include "columns.hpp"
#include "engine.hpp"

#include <algorithm>
#include <cstring>

namespace {

// How much of a side's memory is lent to a call.
struct Lent {
    size_t words, fences, list, bytes;
};

// One side: its calls, an index, and an output of words and one of bytes.
struct Side {
    const Calls &calls;
    upbit_header header{};
    std::vector<uint32_t> words{}, list{};
    std::vector<upbit_fence> fences{};
    std::vector<uint8_t> bytes{};

    upbit_changed load(const std::vector<uint8_t> &column, const Shape &shape) {
        return take(calls.load(words.data(), words.size(), fences.data(), fences.size(), column.data(), column.size(), shape.rows,
                               shape.values, shape.threshold, shape.spacing));
    }

    upbit_changed insert(const Lent &lent, uint32_t value) {
        return take(calls.insert(words.data(), lent.words, fences.data(), lent.fences, header, value));
    }

    upbit_changed update(const Lent &lent, uint32_t row, uint32_t value) {
        return take(calls.update(words.data(), lent.words, fences.data(), lent.fences, header, row, value));
    }

    upbit_changed remove(const Lent &lent, uint32_t row) {
        return take(calls.remove(words.data(), lent.words, fences.data(), lent.fences, header, row));
    }

    upbit_changed merge(const Lent &lent, uint32_t value) {
        return take(calls.merge(words.data(), lent.words, fences.data(), lent.fences, header, value));
    }

    upbit_row value(const Lent &lent, uint32_t row) const {
        return calls.value(words.data(), lent.words, fences.data(), lent.fences, header, row);
    }

    upbit_answer query(const Lent &lent, uint32_t value) {
        return calls.query(words.data(), lent.words, fences.data(), lent.fences, list.data(), lent.list, header, value);
    }

    upbit_answer dump(const Lent &lent) {
        return calls.dump(words.data(), lent.words, fences.data(), lent.fences, bytes.data(), lent.bytes, header);
    }

    upbit_answer audit(const Lent &lent) const {
        return calls.audit(words.data(), lent.words, fences.data(), lent.fences, header);
    }

    upbit_answer pack(const Lent &lent, const std::vector<uint8_t> &rows) {
        return calls.pack(rows.data(), rows.size(), list.data(), lent.list);
    }

    upbit_answer unpack(const Lent &lent, size_t length, size_t rows) {
        return calls.unpack(list.data(), length, bytes.data(), lent.bytes, rows);
    }

private:
    // The header of the last accepted call stays the valid one.
    upbit_changed take(const upbit_changed &changed) {
        if (changed.answer.number == UPBIT_OK) header = changed.header;
        return changed;
    }
};

bool same(const upbit_header &left, const upbit_header &right) { return std::memcmp(&left, &right, sizeof left) == 0; }

bool same(const upbit_answer &left, const upbit_answer &right) {
    return left.number == right.number && left.count == right.count;
}

bool same(const upbit_changed &left, const upbit_changed &right) {
    return same(left.header, right.header) && same(left.answer, right.answer);
}

bool same(const upbit_row &left, const upbit_row &right) {
    return left.number == right.number && left.live == right.live && left.value == right.value && left.opened == right.opened;
}

bool same(const std::vector<upbit_fence> &left, const std::vector<upbit_fence> &right) {
    return std::equal(left.begin(), left.end(), right.begin(),
                      [](upbit_fence one, upbit_fence other) { return one.place == other.place && one.first == other.first; });
}

void demand_same_memory(const Side &left, const Side &right) {
    demand(same(left.header, right.header), "proved and yardstick leave different headers");
    demand(left.words == right.words, "proved and yardstick leave different words");
    demand(same(left.fences, right.fences), "proved and yardstick leave different fences");
    demand(left.list == right.list, "proved and yardstick write different lists");
    demand(left.bytes == right.bytes, "proved and yardstick write different bytes");
}

// One history: the same calls on both sides.
class History {
    template <class Call> auto both(Call call) {
        const auto left = call(proved);
        const auto right = call(yardstick);
        demand(same(left, right), "proved and yardstick answer differently");
        demand_same_memory(proved, yardstick);
        ++made;
        return left;
    }

public:
    History(const Shape &index_shape, uint64_t seed) : shape(index_shape), generator(seed) {
        const upbit_room room = proved_calls.room_for(shape.rows, shape.values, shape.threshold, shape.spacing);
        for (Side *side : {&proved, &yardstick}) {
            side->words.assign(room.words + 3, 0xDEADBEEFu);
            side->fences.assign(room.fences + 2, {7, 9});
            side->list.assign(UPBIT_GROUPS(shape.rows) + 2, 0xABADCAFEu);
            side->bytes.assign(shape.rows + 5, 170);
        }
    }

    // Loads a column, of which about one row in eight is deleted where `with_deleted`.
    void load(std::vector<uint8_t> column, bool with_deleted) {
        for (uint8_t &byte : column) byte = with_deleted && generator.below(8) == 0 ? 255 : byte;
        both([&](Side &side) { return side.load(column, shape); });
    }

    // Random calls; where `damaging`, a word, a fence or a number of the header is changed from time to time.
    void play(size_t calls, bool damaging) {
        for (size_t i = 0; i < calls; ++i) {
            const upbit_header own = proved.header;
            const bool strange = damaging && generator.below(32) == 0;
            if (strange) change_header();
            if (damaging && generator.below(16) == 0) damage();
            one_call();
            if (strange) proved.header = yardstick.header = own;
        }
        const Lent all = {proved.words.size(), proved.fences.size(), 0, 0};
        both([&](Side &side) { return side.audit(all); });
    }

    // Pack and Unpack of some rows; sometimes the list is damaged or cut before it is unpacked.
    void lists(const std::vector<uint8_t> &rows) {
        const Lent lent = some_lent();
        const upbit_answer packed = both([&](Side &side) { return side.pack(lent, rows); });
        const size_t length = generator.below(4) == 0 ? some_below(proved.list.size() + 1) : packed.count;
        if (generator.below(4) == 0) damage_list();
        both([&](Side &side) { return side.unpack(lent, length, rows.size()); });
    }

    size_t calls_made() const { return made; }

private:
    uint32_t some_below(size_t limit) { return generator.below(static_cast<uint32_t>(limit)); }

    // Mostly all of it, sometimes less.
    size_t usually(size_t all) { return generator.below(32) == 0 ? some_below(all + 1) : all; }

    Lent some_lent() {
        return {usually(proved.words.size()), usually(proved.fences.size()), usually(proved.list.size()), usually(proved.bytes.size())};
    }

    void one_call() {
        const uint32_t value = some_below(shape.values + (generator.below(32) == 0));
        const uint32_t row = some_below(std::max(proved.header.issued, 1u) + (generator.below(32) == 0));
        const Lent lent = some_lent();
        switch (generator.below(12)) {
        case 0: both([&](Side &side) { return side.query(lent, value); }); break;
        case 1: both([&](Side &side) { return side.dump(lent); }); break;
        case 2: both([&](Side &side) { return side.audit(lent); }); break;
        case 3: both([&](Side &side) { return side.value(lent, row); }); break;
        case 4: both([&](Side &side) { return side.merge(lent, value); }); break;
        case 5: both([&](Side &side) { return side.remove(lent, row); }); break;
        case 6:
        case 7: both([&](Side &side) { return side.insert(lent, value); }); break;
        default: both([&](Side &side) { return side.update(lent, row, value); });
        }
    }

    // Changes a number of the header, on both sides alike.
    void change_header() {
        uint32_t upbit_header::*const numbers[] = {&upbit_header::rows, &upbit_header::issued, &upbit_header::values,
                                                   &upbit_header::threshold, &upbit_header::spacing};
        const auto number = numbers[generator.below(5)];
        const uint32_t bit = generator.below(18);
        for (Side *side : {&proved, &yardstick}) side->header.*number ^= 1u << bit;
    }

    // Changes a word, a fence or a list, on both sides alike.
    void damage() {
        const uint32_t place = some_below(proved.words.size());
        const uint32_t fence = some_below(proved.fences.size() - 1);
        const uint32_t bit = generator.below(2) == 0 ? generator.below(32) : generator.below(3);
        const uint32_t value = generator.below(shape.values);
        const uint32_t what = generator.below(5);
        for (Side *side : {&proved, &yardstick}) {
            switch (what) {
            case 0: side->fences[fence].place ^= 1u << bit; break;
            case 1: side->fences[fence].first ^= 1u << bit; break;
            case 2: side->fences[fence + 1] = side->fences[fence]; break;
            case 3: side->words[place] ^= 1u << bit; break;
            default: split_fill(*side, value, place);
            }
        }
    }

    // Cuts a fill of a value list in two, from some place on: the list has the same groups and is not canonical.
    void split_fill(Side &side, uint32_t value, size_t place) const {
        const size_t groups = UPBIT_GROUPS(shape.rows);
        const size_t block = value * UPBIT_WORDS(shape.rows, 1, shape.threshold);
        uint32_t &length = side.words[block];
        if (length >= groups) return;
        const auto list = side.words.begin() + static_cast<std::ptrdiff_t>(block + 2);
        const auto found = std::find_if(list + static_cast<std::ptrdiff_t>(place % (length + 1)), list + length,
                                        [](uint32_t word) { return word >= 0x80000000u && (word & 0x3FFFFFFFu) > 1; });
        if (found == list + length) return;
        std::copy_backward(found, list + length, list + length + 1);
        found[0] = (found[0] & 0xC0000000u) + 1;
        --found[1];
        ++length;
    }

    void damage_list() {
        const uint32_t place = some_below(proved.list.size());
        const uint32_t bit = generator.below(32);
        for (Side *side : {&proved, &yardstick}) side->list[place] ^= 1u << bit;
    }

    Shape shape;
    Generator generator;
    Side proved{proved_calls}, yardstick{yardstick_calls};
    size_t made = 0;
};

// Small indexes, whose limits and corners come up often; each second one is damaged from time to time.
size_t compare_small(uint64_t seed) {
    Generator generator(seed);
    const Shape shape = {1 + generator.below(400), 1 + generator.below(6), 1 + generator.below(40), 1 + generator.below(12)};
    const Kind kind = kinds[seed % kinds.size()];
    History history(shape, seed);
    history.load(column_of(kind, generator.below(shape.rows + 2), shape.values + (generator.below(16) == 0), generator), seed % 5 == 0);
    history.play(40, seed % 2 == 0);
    history.lists(column_of(kind, generator.below(shape.rows + 1), 2 + (generator.below(16) == 0), generator));
    return history.calls_made();
}

// Full sizes: the columns that are measured, with room for the inserts.
size_t compare_full(Kind kind, const Shape &shape) {
    Generator generator(shape.values);
    size_t made = 0;
    for (const bool damaging : {false, true}) {
        History history(shape, shape.values + shape.threshold);
        history.load(column_of(kind, shape.rows - 4096, shape.values, generator), damaging);
        history.play(1000, damaging);
        history.lists(column_of(kind, shape.rows, 2, generator));
        made += history.calls_made();
    }
    return made;
}

} // namespace

size_t compare_all() {
    size_t made = 0;
    for (uint64_t seed = 0; seed < 3000; ++seed) made += compare_small(seed);
    for (const Kind kind : kinds) {
        made += compare_full(kind, {UPBIT_MAX_ROWS, 4, 16, 64});
        made += compare_full(kind, {UPBIT_MAX_ROWS - 11, 16, 255, 16});
        made += compare_full(kind, {UPBIT_MAX_ROWS, 64, 16, 256});
    }
    return made;
}
