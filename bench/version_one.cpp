// Version one: a canonical list a value, with no updates apart and no fences. Each change decodes, edits and encodes the
// whole list of every value that it touches.
#include "engine.hpp"
#include "lists.hpp"

#include <algorithm>

using namespace lists;

namespace {

class VersionOne : public Engine {
public:
    std::string name() const override { return "version one"; }

    bool has(Operation operation) const override {
        return operation != Operation::merge && operation != Operation::audit && operation != Operation::pack &&
               operation != Operation::unpack;
    }

    bool has_threshold_and_spacing() const override { return false; }

    void load(const std::vector<uint8_t> &column, const Shape &shape) override {
        groups = groups_for(shape.rows);
        issued = static_cast<uint32_t>(column.size());
        index.assign(shape.values, {});
        for (uint32_t value = 0; value < shape.values; ++value) {
            decoded.fill(0);
            for (uint32_t row = 0; row < issued; ++row) {
                decoded[row / rows_of_group] |= column[row] == value ? mask_of(row) : 0;
            }
            encode(value);
        }
    }

    void keep() override {
        kept = index;
        kept_issued = issued;
    }

    void put_back() override {
        index = kept;
        issued = kept_issued;
    }

    uint64_t update(uint32_t row, uint8_t value) override {
        const uint32_t old = holder(row);
        if (old == value) return 0;
        flip(row, old);
        flip(row, value);
        return old;
    }

    uint64_t insert(uint8_t value) override {
        flip(issued, value);
        return issued++;
    }

    uint64_t remove(uint32_t row) override {
        const uint32_t old = holder(row);
        flip(row, old);
        return old;
    }

    uint64_t value(uint32_t row) override { return holder(row); }

    uint64_t query(uint8_t value) override {
        result = index[value];
        return result.size();
    }

    const std::vector<uint8_t> &dump() override {
        bytes_out.assign(issued, 255);
        for (size_t value = 0; value < index.size(); ++value) mark(static_cast<uint8_t>(value));
        return bytes_out;
    }

    size_t bytes() const override {
        size_t sum = 0;
        for (const std::vector<uint32_t> &list : index) sum += list.size() * sizeof list[0];
        return sum;
    }

private:
    void decode(size_t value) {
        decoded.fill(0);
        turn_over(index[value].data(), index[value].size(), decoded.data());
    }

    void encode(size_t value) {
        std::vector<uint32_t> &list = index[value];
        list.resize(groups);
        Writer writer(list.data());
        for (uint32_t group = 0; group < groups; ++group) writer.group(decoded[group]);
        list.resize(writer.length());
    }

    void flip(uint32_t row, size_t value) {
        decode(value);
        decoded[row / rows_of_group] ^= mask_of(row);
        encode(value);
    }

    bool holds(const std::vector<uint32_t> &list, uint32_t row) const {
        uint32_t skip = row / rows_of_group;
        size_t place = 0;
        for (; span_of(list[place]) <= skip; ++place) skip -= span_of(list[place]);
        return (group_in(list[place]) & mask_of(row)) != 0;
    }

    // The value of a row, or 255.
    uint32_t holder(uint32_t row) const {
        const auto found = std::find_if(index.begin(), index.end(), [&](const auto &list) { return holds(list, row); });
        return found == index.end() ? 255 : static_cast<uint32_t>(found - index.begin());
    }

    void mark(uint8_t value) {
        decode(value);
        for (uint32_t group = 0; group < groups; ++group) {
            for (uint32_t bits = decoded[group]; bits != 0; bits &= bits - 1) {
                bytes_out[size_t{group} * rows_of_group + rows_of_group - 1 - __builtin_ctz(bits)] = value;
            }
        }
    }

    uint32_t groups = 0, issued = 0, kept_issued = 0;
    std::vector<std::vector<uint32_t>> index, kept;
    std::array<uint32_t, most_groups> decoded{};
    std::vector<uint32_t> result;
    std::vector<uint8_t> bytes_out;
};

} // namespace

std::unique_ptr<Engine> make_version_one() { return std::make_unique<VersionOne>(); }
