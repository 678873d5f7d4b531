// The word code of document 01, "Words and groups", for the engines that are written in C++: literals, fills and the
// writer of canonical lists. Plain C++17: no intrinsics, the compiler vectorises what it can.
#pragma once

#include <cstddef>
#include <cstdint>
#include <cstring>

namespace lists {

constexpr uint32_t rows_of_group = 31;
constexpr uint32_t most_groups = 4096;
constexpr uint32_t all_ones = 0x7FFFFFFFu;
constexpr uint32_t fill_mark = 0x80000000u;
constexpr uint32_t fill_bit_mark = 0x40000000u;
constexpr uint32_t count_mask = 0x3FFFFFFFu;

inline uint32_t groups_for(size_t rows) { return static_cast<uint32_t>((rows + rows_of_group - 1) / rows_of_group); }

inline uint32_t mask_of(uint32_t row) { return fill_bit_mark >> (row % rows_of_group); }

inline bool is_fill(uint32_t word) { return word >= fill_mark; }

inline uint32_t fill_bit(uint32_t word) { return (word >> 30) & 1; }

inline uint32_t fill_word(uint32_t bit, uint32_t count) { return fill_mark | bit << 30 | count; }

// All ones where the word is a fill, else 0: so that loops over words have no branch.
inline uint32_t fill_lanes(uint32_t word) { return 0u - (word >> 31); }

inline uint32_t span_of(uint32_t word) { return (((word & count_mask) - 1) & fill_lanes(word)) + 1; }

// The group that stands in each group that the word covers.
inline uint32_t group_in(uint32_t word) { return is_fill(word) ? fill_bit(word) * all_ones : word; }

// Words that are looked at together where a loop would leave after any of them.
constexpr size_t stride = 8;

inline uint32_t span_of_stride(const uint32_t *words) {
    uint32_t span = 0;
    for (size_t i = 0; i < stride; ++i) span += span_of(words[i]);
    return span;
}

// Writes a canonical list. The last word is kept at hand, and a fill is lengthened in place.
class Writer {
public:
    explicit Writer(uint32_t *place) : out(place) {}

    size_t length() const { return written; }

    // `count` groups of one bit; `count` may be 0.
    void fill(uint32_t bit, uint32_t count) {
        if (count == 0) return;
        const uint32_t word = fill_word(bit, count);
        if (written != 0 && (last >> 30) == (word >> 30)) {
            last += count;
            out[written - 1] = last;
        } else {
            put(word);
        }
    }

    // A group, uniform or not.
    void group(uint32_t bits) { groups(bits, 1); }

    // `count` groups of the same bits; more than one only where they are uniform.
    void groups(uint32_t bits, uint32_t count) {
        if (bits == 0 || bits == all_ones) {
            fill(bits & 1, count);
        } else {
            put(bits);
        }
    }

    // A word of another canonical list.
    void word(uint32_t copied) {
        if (is_fill(copied)) {
            fill(fill_bit(copied), copied & count_mask);
        } else {
            put(copied);
        }
    }

    // Words of another canonical list which no fill of this one's end can join.
    void words(const uint32_t *copied, size_t count) {
        if (count == 0) return;
        std::memcpy(out + written, copied, count * sizeof *copied);
        written += count;
        last = copied[count - 1];
    }

private:
    void put(uint32_t next) {
        out[written++] = next;
        last = next;
    }

    uint32_t *out;
    size_t written = 0;
    uint32_t last = 0;
};

// How many words from the list's first on are literals, in whole strides.
inline size_t literal_strides(const uint32_t *list, size_t length) {
    size_t literals = 0;
    for (; literals + stride <= length; literals += stride) {
        uint32_t marks = 0;
        for (size_t i = 0; i < stride; ++i) marks |= list[literals + i];
        if (is_fill(marks)) break;
    }
    return literals;
}

// XORs the groups of a whole list into plain groups, one a word. Only fills of ones make a branch.
inline void turn_over(const uint32_t *list, size_t length, uint32_t *groups) {
    const size_t literals = literal_strides(list, length);
    for (size_t i = 0; i < literals; ++i) groups[i] ^= list[i];
    auto at = static_cast<uint32_t>(literals);
    for (size_t i = literals; i < length; ++i) {
        const uint32_t word = list[i];
        const uint32_t end = at + span_of(word);
        groups[at] ^= word & ~fill_lanes(word);
        if (word >= fill_word(1, 0)) {
            for (uint32_t group = at; group < end; ++group) groups[group] ^= all_ones;
        }
        at = end;
    }
}

} // namespace lists
