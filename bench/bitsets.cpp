// Uncompressed bitsets: one bit a row and value.
#include "engine.hpp"

#include <algorithm>

namespace {

using Bits = std::vector<uint64_t>;

Bits bits_where(const std::vector<uint8_t> &bytes, uint8_t value, size_t rows) {
    Bits bits((rows + 63) / 64);
    for (size_t row = 0; row < bytes.size(); ++row) bits[row / 64] |= uint64_t{bytes[row] == value} << (row % 64);
    return bits;
}

class Bitsets : public Engine {
public:
    std::string name() const override { return "bitsets"; }
    bool has(Operation operation) const override { return operation != Operation::merge && operation != Operation::audit; }
    bool has_threshold_and_spacing() const override { return false; }

    void load(const std::vector<uint8_t> &column, const Shape &shape) override {
        issued = static_cast<uint32_t>(column.size());
        index.clear();
        for (uint32_t value = 0; value < shape.values; ++value) {
            index.push_back(bits_where(column, static_cast<uint8_t>(value), shape.rows));
        }
    }

    void keep() override {
        kept = index;
        kept_issued = issued;
    }

    void put_back() override {
        index = kept;
        issued = kept_issued;
    }

    uint64_t update(uint32_t row, uint8_t value) override {
        const uint32_t old = holder(row);
        flip(row, old);
        flip(row, value);
        return old;
    }

    uint64_t insert(uint8_t value) override {
        flip(issued, value);
        return issued++;
    }

    uint64_t remove(uint32_t row) override {
        const uint32_t old = holder(row);
        flip(row, old);
        return old;
    }

    uint64_t value(uint32_t row) override { return holder(row); }

    uint64_t query(uint8_t value) override {
        result = index[value];
        return result[0];
    }

    const std::vector<uint8_t> &dump() override {
        bytes_out.assign(issued, 255);
        for (size_t value = 0; value < index.size(); ++value) mark(index[value], static_cast<uint8_t>(value));
        return bytes_out;
    }

    uint64_t pack(size_t slot, const std::vector<uint8_t> &rows) override {
        packed[slot] = bits_where(rows, 1, rows.size());
        packed_rows = rows.size();
        return packed[slot][0];
    }

    const std::vector<uint8_t> &unpack(size_t slot) override {
        bytes_out.assign(packed_rows, 0);
        mark(packed[slot], 1);
        return bytes_out;
    }

    size_t bytes() const override { return index.size() * index[0].size() * sizeof index[0][0]; }

private:
    void flip(uint32_t row, size_t value) { index[value][row / 64] ^= uint64_t{1} << (row % 64); }

    // The value of a row, or 255.
    uint32_t holder(uint32_t row) const {
        const auto holds = [row](const Bits &bits) { return (bits[row / 64] >> (row % 64) & 1) != 0; };
        const auto found = std::find_if(index.begin(), index.end(), holds);
        return found == index.end() ? 255 : static_cast<uint32_t>(found - index.begin());
    }

    void mark(const Bits &bits, uint8_t value) {
        for (size_t place = 0; place < bits.size(); ++place) {
            for (uint64_t left = bits[place]; left != 0; left &= left - 1) bytes_out[place * 64 + __builtin_ctzll(left)] = value;
        }
    }

    uint32_t issued = 0, kept_issued = 0;
    std::vector<Bits> index, kept;
    std::array<Bits, pack_slots> packed;
    size_t packed_rows = 0;
    Bits result;
    std::vector<uint8_t> bytes_out;
};

} // namespace

std::unique_ptr<Engine> make_bitsets() { return std::make_unique<Bitsets>(); }
