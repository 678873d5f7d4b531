// The two engines behind include/upbit.h: the proved library and the yardstick, by the same class over either's calls.
#include "calls.hpp"
#include "engine.hpp"

#include <utility>

namespace {

class IndexEngine : public Engine {
public:
    IndexEngine(std::string engine_name, const Calls &engine_calls) : called(std::move(engine_name)), calls(engine_calls) {
        query_out.resize(UPBIT_GROUPS(UPBIT_MAX_ROWS));
        unpacked.resize(UPBIT_MAX_ROWS);
        for (std::vector<uint32_t> &list : packed) list.resize(UPBIT_GROUPS(UPBIT_MAX_ROWS));
    }

    std::string name() const override { return called; }
    bool has(Operation) const override { return true; }
    bool has_threshold_and_spacing() const override { return true; }

    void load(const std::vector<uint8_t> &column, const Shape &shape) override {
        const upbit_room room = calls.room_for(shape.rows, shape.values, shape.threshold, shape.spacing);
        words.resize(room.words);
        fences.resize(room.fences);
        take(calls.load(words.data(), words.size(), fences.data(), fences.size(), column.data(), column.size(), shape.rows,
                        shape.values, shape.threshold, shape.spacing));
        rows_out.resize(column.size());
    }

    void keep() override {
        kept_header = header;
        kept_words = words;
        kept_fences = fences;
    }

    void put_back() override {
        header = kept_header;
        words = kept_words;
        fences = kept_fences;
    }

    uint64_t update(uint32_t row, uint8_t value) override {
        return take(calls.update(words.data(), words.size(), fences.data(), fences.size(), header, row, value));
    }

    uint64_t insert(uint8_t value) override {
        return take(calls.insert(words.data(), words.size(), fences.data(), fences.size(), header, value));
    }

    uint64_t remove(uint32_t row) override {
        return take(calls.remove(words.data(), words.size(), fences.data(), fences.size(), header, row));
    }

    uint64_t merge(uint8_t value) override {
        return take(calls.merge(words.data(), words.size(), fences.data(), fences.size(), header, value));
    }

    uint64_t value(uint32_t row) override {
        const upbit_row found = calls.value(words.data(), words.size(), fences.data(), fences.size(), header, row);
        demand(found.number == UPBIT_OK, "an index refused a call");
        return found.opened << 8 | found.value;
    }

    uint64_t query(uint8_t value) override {
        return take(calls.query(words.data(), words.size(), fences.data(), fences.size(), query_out.data(), query_out.size(),
                                header, value)) +
               query_out[0];
    }

    uint64_t audit() override { return take(calls.audit(words.data(), words.size(), fences.data(), fences.size(), header)); }

    const std::vector<uint8_t> &dump() override {
        rows_out.resize(header.issued);
        take(calls.dump(words.data(), words.size(), fences.data(), fences.size(), rows_out.data(), rows_out.size(), header));
        return rows_out;
    }

    uint64_t pack(size_t slot, const std::vector<uint8_t> &rows) override {
        return packed_length[slot] = take(calls.pack(rows.data(), rows.size(), packed[slot].data(), packed[slot].size()));
    }

    const std::vector<uint8_t> &unpack(size_t slot) override {
        take(calls.unpack(packed[slot].data(), packed_length[slot], unpacked.data(), unpacked.size(), unpacked.size()));
        return unpacked;
    }

    size_t bytes() const override { return words.size() * sizeof words[0] + fences.size() * sizeof fences[0]; }

private:
    size_t take(const upbit_answer &answer) const {
        demand(answer.number == UPBIT_OK, "an index refused a call");
        return answer.count;
    }

    size_t take(const upbit_changed &changed) {
        header = changed.header;
        return take(changed.answer);
    }

    std::string called;
    const Calls &calls;
    upbit_header header{}, kept_header{};
    std::vector<uint32_t> words, kept_words, query_out;
    std::vector<upbit_fence> fences, kept_fences;
    std::array<std::vector<uint32_t>, pack_slots> packed;
    std::array<size_t, pack_slots> packed_length{};
    std::vector<uint8_t> rows_out, unpacked;
};

} // namespace

std::unique_ptr<Engine> make_proved() { return std::make_unique<IndexEngine>("proved", proved_calls); }

std::unique_ptr<Engine> make_yardstick() { return std::make_unique<IndexEngine>("yardstick", yardstick_calls); }
