// CRoaring by its C interface: one bitmap a value, with runs where they are shorter after a load or a pack.
#include "engine.hpp"

#include <algorithm>
#include <roaring/roaring.h>

namespace {

struct Free {
    void operator()(roaring_bitmap_t *bitmap) const { roaring_bitmap_free(bitmap); }
};

using Bitmap = std::unique_ptr<roaring_bitmap_t, Free>;

Bitmap copy_of(const Bitmap &bitmap) { return Bitmap(roaring_bitmap_copy(bitmap.get())); }

std::vector<Bitmap> copies_of(const std::vector<Bitmap> &bitmaps) {
    std::vector<Bitmap> copies(bitmaps.size());
    std::transform(bitmaps.begin(), bitmaps.end(), copies.begin(), copy_of);
    return copies;
}

class Roaring : public Engine {
public:
    std::string name() const override { return "roaring"; }
    bool has(Operation operation) const override { return operation != Operation::merge && operation != Operation::audit; }
    bool has_threshold_and_spacing() const override { return false; }

    // One pass over the column gathers the rows of each value, from which its bitmap is made.
    void load(const std::vector<uint8_t> &column, const Shape &shape) override {
        issued = static_cast<uint32_t>(column.size());
        std::vector<std::vector<uint32_t>> rows_of(shape.values);
        for (uint32_t row = 0; row < issued; ++row) rows_of[column[row]].push_back(row);
        index.resize(shape.values);
        std::transform(rows_of.begin(), rows_of.end(), index.begin(), [](const auto &rows) { return made_of(rows.data(), rows.size()); });
    }

    void keep() override {
        kept = copies_of(index);
        kept_issued = issued;
    }

    void put_back() override {
        index = copies_of(kept);
        issued = kept_issued;
    }

    uint64_t update(uint32_t row, uint8_t value) override {
        const uint32_t old = holder(row);
        roaring_bitmap_remove(index[old].get(), row);
        roaring_bitmap_add(index[value].get(), row);
        return old;
    }

    uint64_t insert(uint8_t value) override {
        roaring_bitmap_add(index[value].get(), issued);
        return issued++;
    }

    uint64_t remove(uint32_t row) override {
        const uint32_t old = holder(row);
        roaring_bitmap_remove(index[old].get(), row);
        return old;
    }

    uint64_t value(uint32_t row) override { return holder(row); }

    uint64_t query(uint8_t value) override {
        result = copy_of(index[value]);
        return roaring_bitmap_minimum(result.get());
    }

    const std::vector<uint8_t> &dump() override {
        bytes_out.assign(issued, 255);
        for (size_t value = 0; value < index.size(); ++value) mark(index[value], static_cast<uint8_t>(value));
        return bytes_out;
    }

    uint64_t pack(size_t slot, const std::vector<uint8_t> &rows) override {
        gathered.resize(rows.size());
        size_t count = 0;
        for (uint32_t row = 0; row < rows.size(); ++row) {
            gathered[count] = row;
            count += rows[row];
        }
        packed[slot] = made_of(gathered.data(), count);
        packed_rows = rows.size();
        return count;
    }

    const std::vector<uint8_t> &unpack(size_t slot) override {
        bytes_out.assign(packed_rows, 0);
        mark(packed[slot], 1);
        return bytes_out;
    }

    // Of the bitmaps as they are written out, which is about what they take in memory.
    size_t bytes() const override {
        size_t sum = 0;
        for (const Bitmap &bitmap : index) sum += roaring_bitmap_portable_size_in_bytes(bitmap.get());
        return sum;
    }

private:
    static Bitmap made_of(const uint32_t *rows, size_t count) {
        Bitmap bitmap(roaring_bitmap_of_ptr(count, rows));
        roaring_bitmap_run_optimize(bitmap.get());
        return bitmap;
    }

    // The value of a row, or 255.
    uint32_t holder(uint32_t row) const {
        const auto holds = [row](const Bitmap &bitmap) { return roaring_bitmap_contains(bitmap.get(), row); };
        const auto found = std::find_if(index.begin(), index.end(), holds);
        return found == index.end() ? 255 : static_cast<uint32_t>(found - index.begin());
    }

    void mark(const Bitmap &bitmap, uint8_t value) {
        const size_t count = roaring_bitmap_get_cardinality(bitmap.get());
        gathered.resize(std::max(count, gathered.size()));
        roaring_bitmap_to_uint32_array(bitmap.get(), gathered.data());
        for (size_t i = 0; i < count; ++i) bytes_out[gathered[i]] = value;
    }

    uint32_t issued = 0, kept_issued = 0;
    std::vector<Bitmap> index, kept;
    std::array<Bitmap, pack_slots> packed;
    size_t packed_rows = 0;
    Bitmap result;
    std::vector<uint32_t> gathered;
    std::vector<uint8_t> bytes_out;
};

} // namespace

std::unique_ptr<Engine> make_roaring() { return std::make_unique<Roaring>(); }
