// The yardstick: document 01's rules once more, written by hand in C++17 for speed and proved by nobody. The same memory,
// the same answers and the same refusals as the functions of include/upbit.h; the benchmark compares all of them first.
#include "calls.hpp"
#include "lists.hpp"

#include <algorithm>
#include <array>
#include <cstring>

using namespace lists;

namespace {

// ---- Sizes of an index, and the block of one value. ----

struct Sizes {
    uint32_t rows, groups, threshold, spacing;
    size_t update_room, block, fences;
};

template <class Word> struct Block {
    Word *value_length, *update_length, *value, *update;
};

template <class Word> Block<Word> block_of(Word *words, const Sizes &sizes, uint32_t value) {
    Word *at = words + value * sizes.block;
    return {at, at + 1, at + 2, at + 2 + sizes.groups};
}

bool within(uint32_t number, uint32_t limit) { return number - 1 < limit; }

bool limits_hold(uint32_t rows, uint32_t values, uint32_t threshold, uint32_t spacing) {
    return within(rows, UPBIT_MAX_ROWS) && within(values, UPBIT_MAX_VALUES) && within(threshold, UPBIT_MAX_THRESHOLD) &&
           within(spacing, UPBIT_MAX_SPACING);
}

Sizes sizes_of(uint32_t rows, uint32_t threshold, uint32_t spacing) {
    const uint32_t groups = groups_for(rows);
    const size_t update_room = 2 * size_t{threshold} + 1;
    return {rows, groups, threshold, spacing, update_room, 2 + groups + update_room, (groups + spacing - 1) / spacing};
}

// BAD_HEADER and SMALL, which every call on an index begins with.
uint32_t entry(size_t words, size_t fences, const upbit_header &header, Sizes &sizes) {
    if (!limits_hold(header.rows, header.values, header.threshold, header.spacing) || header.issued > header.rows) {
        return UPBIT_BAD_HEADER;
    }
    sizes = sizes_of(header.rows, header.threshold, header.spacing);
    if (words < header.values * sizes.block || fences < header.values * sizes.fences) return UPBIT_SMALL;
    return UPBIT_OK;
}

upbit_changed changed(const upbit_header &header, uint32_t number) { return {header, {number, 0}}; }

// ---- The whole check. ----

// Bit 31 is set where a word breaks the canonical form: a literal that is uniform, a fill that counts no group or more
// than all, a fill of the bit of the fill before. No branch, so that the check of a list is vectorised.
uint32_t faults_of(uint32_t word, uint32_t before, uint32_t groups) {
    const uint32_t count = word & count_mask;
    const uint32_t literal = ((word - 1) | (word + 1)) & ~word;
    const uint32_t fill = ((count - 1) | (groups - count)) & word;
    const uint32_t repeated = word & before & ~((word ^ before) << 1);
    return literal | fill | repeated;
}

// Whether a list is the canonical one of `rows` rows.
bool is_whole(const uint32_t *list, size_t length, size_t rows) {
    const uint32_t groups = groups_for(rows);
    if (length > groups) return false;
    if (length == 0) return groups == 0;
    uint32_t faults = faults_of(list[0], 0, groups);
    uint32_t covered = span_of(list[0]);
    for (size_t i = 1; i < length; ++i) {
        faults |= faults_of(list[i], list[i - 1], groups);
        covered += span_of(list[i]);
    }
    if ((faults & fill_mark) != 0 || covered != groups) return false;
    const uint32_t unused = groups * rows_of_group - static_cast<uint32_t>(rows);
    return (group_in(list[length - 1]) & ((1u << unused) - 1)) == 0;
}

// The ones of a group, without an instruction for it, which plain x86-64 does not have.
uint32_t ones_in(uint32_t group) {
    group -= (group >> 1) & 0x55555555u;
    group = (group & 0x33333333u) + ((group >> 2) & 0x33333333u);
    group = (group + (group >> 4)) & 0x0F0F0F0Fu;
    group += group >> 8;
    return (group + (group >> 16)) & 63;
}

uint32_t ones_of(const uint32_t *list, size_t length) {
    uint32_t ones = 0;
    for (size_t i = 0; i < length; ++i) {
        const uint32_t of_fill = fill_bit(list[i]) * rows_of_group * (list[i] & count_mask);
        ones += is_fill(list[i]) ? of_fill : ones_in(list[i]);
    }
    return ones;
}

// Whether both lists of a value are whole; `ones` are then those of U.
bool are_whole(const Block<const uint32_t> &block, const Sizes &sizes, uint32_t &ones) {
    if (*block.value_length > sizes.groups || *block.update_length > sizes.update_room) return false;
    if (!is_whole(block.value, *block.value_length, sizes.rows)) return false;
    if (!is_whole(block.update, *block.update_length, sizes.rows)) return false;
    ones = ones_of(block.update, *block.update_length);
    return ones <= sizes.threshold;
}

Block<const uint32_t> read_only(const Block<uint32_t> &block) {
    return {block.value_length, block.update_length, block.value, block.update};
}

// ---- Reading one bit. ----

// Where a walk ended: the place of the word that covers the group sought, or `length` if it is damage.
size_t walk(const uint32_t *list, size_t length, uint32_t skip) {
    for (size_t i = 0; i < length; ++i) {
        const uint32_t span = span_of(list[i]);
        if (skip < span) return i;
        if (span == 0) return length;
        skip -= span;
    }
    return length;
}

// The group of a row in V xor U of one value; false if it is damage.
bool read_group(const Block<const uint32_t> &block, const Sizes &sizes, upbit_fence fence, uint32_t group, uint32_t &bits,
                size_t &opened) {
    const size_t length = *block.value_length;
    if (length > sizes.groups || *block.update_length > sizes.update_room) return false;
    if (fence.place >= length || fence.first > group) return false;
    const size_t most = std::min<size_t>(length - fence.place, sizes.spacing);
    const uint32_t *value = block.value + fence.place;
    const size_t in_value = walk(value, most, group - fence.first);
    const size_t in_update = walk(block.update, *block.update_length, group);
    if (in_value == most || in_update == *block.update_length) return false;
    bits = group_in(value[in_value]) ^ group_in(block.update[in_update]);
    opened += in_value + in_update + 2;
    return true;
}

// What the reads of a row in all values say.
struct Row {
    bool damaged = false;
    uint32_t holders = 0, value = 0;
    size_t opened = 0;
};

Row read_row(const uint32_t *words, const upbit_fence *fences, const upbit_header &header, const Sizes &sizes, uint32_t row) {
    const uint32_t group = row / rows_of_group;
    const uint32_t mask = mask_of(row);
    const upbit_fence *fence = fences + group / sizes.spacing;
    Row found;
    for (uint32_t value = 0; value < header.values; ++value, fence += sizes.fences) {
        uint32_t bits = 0;
        if (!read_group(block_of(words, sizes, value), sizes, *fence, group, bits, found.opened)) {
            found.damaged = true;
            return found;
        }
        if ((bits & mask) != 0) {
            ++found.holders;
            found.value = value;
        }
    }
    found.damaged = found.holders > 1;
    return found;
}

// ---- V xor U. ----

// Copies groups from a canonical list, whole words where it can.
class Source {
public:
    Source(const uint32_t *words, size_t words_length) : list(words), length(words_length) {}

    // The next `count` groups as they are.
    void copy(Writer &writer, uint32_t count) {
        const uint32_t begun = std::min(left, count);
        writer.fill(bit, begun);
        left -= begun;
        count -= begun;
        if (count == 0) return;
        if (span_of(list[place]) <= count) {
            count -= span_of(list[place]);
            writer.word(list[place++]);
            copy_words(writer, count);
        }
        if (count != 0) {
            open();
            writer.fill(bit, count);
            left -= count;
        }
    }

    // All groups that are left, as they are.
    void copy_rest(Writer &writer) {
        writer.fill(bit, left);
        if (place == length) return;
        writer.word(list[place++]);
        writer.words(list + place, length - place);
    }

    // The next `count` groups with `turned` XORed into each.
    void turn(Writer &writer, uint32_t turned, uint32_t count) {
        while (count != 0) {
            if (left == 0 && !is_fill(list[place])) {
                writer.group(list[place++] ^ turned);
                --count;
                continue;
            }
            if (left == 0) open();
            const uint32_t taken = std::min(left, count);
            writer.groups(bit * all_ones ^ turned, taken);
            left -= taken;
            count -= taken;
        }
    }

private:
    // Words that end within the next `count` groups; the word before them is written, so that no fill joins.
    void copy_words(Writer &writer, uint32_t &count) {
        const size_t from = place;
        while (place + stride <= length) {
            const uint32_t span = span_of_stride(list + place);
            if (span > count) break;
            count -= span;
            place += stride;
        }
        while (place < length && span_of(list[place]) <= count) count -= span_of(list[place++]);
        writer.words(list + from, place - from);
    }

    // Takes the next word, which is a fill, in hand.
    void open() {
        const uint32_t word = list[place++];
        bit = fill_bit(word);
        left = word & count_mask;
    }

    const uint32_t *list;
    size_t length;
    size_t place = 0;
    uint32_t bit = 0, left = 0;
};

// Writes V xor U of whole lists to a place with room for M words.
size_t write_current(const Block<const uint32_t> &block, uint32_t *out) {
    Source source(block.value, *block.value_length);
    Writer writer(out);
    const size_t length = *block.update_length;
    for (size_t i = 0; i < length; ++i) {
        const uint32_t word = block.update[i];
        const uint32_t turned = group_in(word);
        if (turned == 0 && i + 1 == length) {
            source.copy_rest(writer);
        } else if (turned == 0) {
            source.copy(writer, span_of(word));
        } else {
            source.turn(writer, turned, span_of(word));
        }
    }
    return writer.length();
}

// ---- Fences. ----

// From a word on to the word that covers the group.
void advance(const uint32_t *list, size_t length, uint32_t group, upbit_fence &at) {
    while (at.place + stride <= length) {
        const uint32_t next = at.first + span_of_stride(list + at.place);
        if (next > group) break;
        at = {static_cast<uint32_t>(at.place + stride), next};
    }
    while (at.first + span_of(list[at.place]) <= group) {
        at.first += span_of(list[at.place]);
        ++at.place;
    }
}

void renew_fences(const Block<const uint32_t> &block, const Sizes &sizes, upbit_fence *fences) {
    upbit_fence at = {0, 0};
    for (size_t j = 0; j < sizes.fences; ++j) {
        advance(block.value, *block.value_length, static_cast<uint32_t>(j) * sizes.spacing, at);
        fences[j] = at;
    }
}

bool fences_right(const Block<const uint32_t> &block, const Sizes &sizes, const upbit_fence *fences) {
    upbit_fence at = {0, 0};
    for (size_t j = 0; j < sizes.fences; ++j) {
        advance(block.value, *block.value_length, static_cast<uint32_t>(j) * sizes.spacing, at);
        if (at.place != fences[j].place || at.first != fences[j].first) return false;
    }
    return true;
}

// ---- Changes of one value, whose lists are whole. ----

void clear_update(const Block<uint32_t> &block, const Sizes &sizes) {
    *block.update_length = 1;
    std::fill_n(block.update, sizes.update_room, 0u);
    block.update[0] = fill_word(0, sizes.groups);
}

void merge_value(const Block<uint32_t> &block, const Sizes &sizes, upbit_fence *fences) {
    std::array<uint32_t, most_groups> list;
    const size_t length = write_current(read_only(block), list.data());
    *block.value_length = static_cast<uint32_t>(length);
    std::copy_n(list.data(), length, block.value);
    std::fill(block.value + length, block.value + sizes.groups, 0u);
    clear_update(block, sizes);
    renew_fences(read_only(block), sizes, fences);
}

// Where a group is in a whole list: the place of the word that covers it, and the word's first group.
upbit_fence find(const uint32_t *list, uint32_t group) {
    upbit_fence at = {0, 0};
    while (at.first + span_of(list[at.place]) <= group) {
        at.first += span_of(list[at.place]);
        ++at.place;
    }
    return at;
}

// Turns a row over in U, which has room for it: only the word of its group and its neighbours are written anew.
void turn_row(const Block<uint32_t> &block, const Sizes &sizes, uint32_t row) {
    const upbit_fence at = find(block.update, row / rows_of_group);
    const uint32_t word = block.update[at.place];
    const size_t length = *block.update_length;
    const size_t from = at.place == 0 ? 0 : at.place - 1;
    const size_t to = std::min<size_t>(at.place + 2, length);
    std::array<uint32_t, 5> made;
    Writer writer(made.data());
    if (from < at.place) writer.word(block.update[from]);
    const uint32_t ahead = row / rows_of_group - at.first;
    writer.fill(fill_bit(word), ahead);
    writer.group(group_in(word) ^ mask_of(row));
    writer.fill(fill_bit(word), span_of(word) - 1 - ahead);
    if (at.place + 1 < to) writer.word(block.update[at.place + 1]);
    const size_t grown = from + writer.length() + (length - to);
    std::memmove(block.update + from + writer.length(), block.update + to, (length - to) * sizeof word);
    std::copy_n(made.data(), writer.length(), block.update + from);
    std::fill(block.update + grown, block.update + sizes.update_room, 0u);
    *block.update_length = static_cast<uint32_t>(grown);
}

void flip(const Block<uint32_t> &block, const Sizes &sizes, upbit_fence *fences, uint32_t row, uint32_t ones) {
    if (ones == sizes.threshold) {
        const uint32_t word = block.update[find(block.update, row / rows_of_group).place];
        if ((group_in(word) & mask_of(row)) == 0) merge_value(block, sizes, fences);
    }
    turn_row(block, sizes, row);
}

// ---- Eight rows at a time. ----

uint64_t eight_bytes(const uint8_t *bytes) {
    uint64_t eight;
    std::memcpy(&eight, bytes, sizeof eight);
    return eight;
}

// Eight bytes of 0 or 1 as eight bits, the first byte at the highest: one multiplication brings them together.
uint32_t bits_of_bytes(const uint8_t *bytes) { return static_cast<uint32_t>(eight_bytes(bytes) * 0x8040201008040201u >> 56); }

// The other way round, of the eight lowest bits.
uint64_t bytes_of_bits(uint32_t bits) {
    const uint64_t picked = (bits & 255) * 0x0101010101010101u & 0x0102040810204080u;
    return ((picked + 0x7F7F7F7F7F7F7F7Fu) >> 7) & 0x0101010101010101u;
}

void put_bits(uint8_t *bytes, uint32_t bits) {
    const uint64_t rows = bytes_of_bits(bits);
    std::memcpy(bytes, &rows, sizeof rows);
}

// ---- Load. ----

// Whether each byte is below d or is 255; all are looked at, so that the loop is vectorised.
bool column_valid(const uint8_t *column, size_t length, uint32_t values) {
    uint8_t largest = 0;
    for (size_t i = 0; i < length; ++i) largest = std::max(largest, static_cast<uint8_t>(column[i] + 1));
    return largest <= values;
}

// The value lists of all values while they grow: one pass over the column for all of them.
class Loading {
public:
    Loading(uint32_t *words, const Sizes &sizes, uint32_t values) {
        for (uint32_t value = 0; value < values; ++value) grown[value].list = block_of(words, sizes, value).value;
    }

    // The rows of one group, at most 31.
    void group(const uint8_t *column, size_t rows, uint32_t place) {
        if (rows == rows_of_group && is_one_value(column)) {
            if (column[0] != UPBIT_DELETED) append(column[0], place, all_ones);
            return;
        }
        uint64_t present = 0;
        for (size_t i = 0; i < rows; ++i) {
            bits[column[i]] |= fill_bit_mark >> i;
            present |= uint64_t{column[i] != UPBIT_DELETED} << (column[i] & 63);
        }
        for (; present != 0; present &= present - 1) {
            const auto value = static_cast<uint32_t>(__builtin_ctzll(present));
            append(value, place, bits[value]);
            bits[value] = 0;
        }
    }

    // The groups behind the last one of the value; answers the length of its list.
    size_t finish(uint32_t value, uint32_t groups) {
        Grown &of = grown[value];
        if (of.covered != groups) zeros(of, groups);
        return of.length;
    }

private:
    struct Grown {
        uint32_t *list = nullptr;
        uint32_t length = 0, covered = 0;
    };

    static bool is_one_value(const uint8_t *column) {
        const uint64_t same = column[0] * 0x0101010101010101u;
        return ((eight_bytes(column) ^ same) | (eight_bytes(column + 8) ^ same) | (eight_bytes(column + 16) ^ same) |
                (eight_bytes(column + 23) ^ same)) == 0;
    }

    // Groups without a row of the value up to a place. A word is written in any case, and counted only if there are some.
    static void zeros(Grown &of, uint32_t place) {
        of.list[of.length] = fill_word(0, place - of.covered);
        of.length += of.covered != place;
    }

    void append(uint32_t value, uint32_t place, uint32_t of_group) {
        Grown &of = grown[value];
        zeros(of, place);
        of.covered = place + 1;
        if (of_group != all_ones) {
            of.list[of.length++] = of_group;
        } else if (of.length != 0 && of.list[of.length - 1] > fill_word(1, 0)) {
            ++of.list[of.length - 1];
        } else {
            of.list[of.length++] = fill_word(1, 1);
        }
    }

    std::array<Grown, UPBIT_MAX_VALUES> grown;
    std::array<uint32_t, 256> bits{};
};

void load_lists(uint32_t *words, const uint8_t *column, size_t length, const Sizes &sizes, uint32_t values) {
    Loading loading(words, sizes, values);
    for (size_t at = 0; at < length; at += rows_of_group) {
        loading.group(column + at, std::min<size_t>(rows_of_group, length - at), static_cast<uint32_t>(at / rows_of_group));
    }
    for (uint32_t value = 0; value < values; ++value) {
        const Block<uint32_t> block = block_of(words, sizes, value);
        const size_t list_length = loading.finish(value, sizes.groups);
        *block.value_length = static_cast<uint32_t>(list_length);
        std::fill(block.value + list_length, block.value + sizes.groups, 0u);
    }
}

// ---- Dump. ----

// Dump's rows: value by value, the groups of V that are not all zero are listed, U is turned over in them, and their rows
// are marked. A row's byte is its value and 1, or 0 while no value has it.
class Dumping {
public:
    Dumping(const Sizes &index_sizes, uint32_t rows_issued)
        : sizes(index_sizes), issued(rows_issued), groups(groups_for(rows_issued)) {
        std::memset(bytes.data(), 0, groups * padded);
    }

    // Marks the rows of a value; false if a read is broken or a row is in another value already.
    bool value(const Block<const uint32_t> &block, const upbit_fence *fences, uint32_t of) {
        if (groups == 0) return true;
        if (*block.value_length > sizes.groups || *block.update_length > sizes.update_room) return false;
        listed = 0;
        for (uint32_t from = 0; from < groups; from += sizes.spacing, ++fences) {
            if (!list_value(block, *fences, from)) return false;
        }
        if (!turn_over_update(block)) return false;
        list_update(block);
        return mark_listed(static_cast<uint8_t>(of + 1));
    }

    void write(uint8_t *out) {
        for (size_t i = 0; i < groups * padded; ++i) bytes[i] = static_cast<uint8_t>(bytes[i] - 1);
        if (groups == 0) return;
        const size_t last = groups - 1;
        for (size_t group = 0; group < last; ++group) {
            std::memcpy(out + group * rows_of_group, bytes.data() + group * padded, rows_of_group);
        }
        std::memcpy(out + last * rows_of_group, bytes.data() + last * padded, issued - last * rows_of_group);
    }

private:
    // A group's rows have 32 bytes, so that eight rows never share a word of memory with other eight.
    static constexpr size_t padded = 32;

    // The groups that one fence serves; only fills of ones make a branch.
    bool list_value(const Block<const uint32_t> &block, upbit_fence fence, uint32_t from) {
        if (fence.place >= *block.value_length || fence.first > from) return false;
        const uint32_t to = std::min(from + sizes.spacing, groups);
        const size_t most = std::min<size_t>(fence.place + size_t{sizes.spacing}, *block.value_length);
        uint32_t at = fence.first;
        for (size_t place = fence.place; at < to; ++place) {
            if (place == most) return false;
            const uint32_t word = block.value[place];
            const uint32_t span = span_of(word);
            if (span == 0) return false;
            place_of[listed] = at;
            bits_of[listed] = word;
            listed += !is_fill(word) & (at >= from);
            if (word >= fill_word(1, 0)) list_ones(std::max(at, from), std::min(at + span, to));
            at += span;
        }
        return true;
    }

    void list_ones(uint32_t from, uint32_t to) {
        for (uint32_t group = from; group < to; ++group, ++listed) {
            place_of[listed] = group;
            bits_of[listed] = all_ones;
        }
    }

    // The groups of U, into plain groups that are all zero before.
    bool turn_over_update(const Block<const uint32_t> &block) {
        uint32_t at = 0;
        for (size_t place = 0; at < groups; ++place) {
            if (place == *block.update_length) return false;
            const uint32_t span = span_of(block.update[place]);
            if (span == 0) return false;
            const uint32_t bits = group_in(block.update[place]);
            const uint32_t end = bits == 0 ? at : std::min(at + span, groups);
            for (uint32_t group = at; group < end; ++group) update[group] = bits;
            at += span;
        }
        for (size_t i = 0; i < listed; ++i) {
            bits_of[i] ^= update[place_of[i]];
            update[place_of[i]] = 0;
        }
        return true;
    }

    // The groups of U that are not in V's list; the plain groups are all zero behind it.
    void list_update(const Block<const uint32_t> &block) {
        uint32_t at = 0;
        for (size_t place = 0; at < groups; ++place) {
            const uint32_t span = span_of(block.update[place]);
            const uint32_t end = group_in(block.update[place]) == 0 ? at : std::min(at + span, groups);
            for (uint32_t group = at; group < end; ++group) {
                place_of[listed] = group;
                bits_of[listed] = update[group];
                listed += update[group] != 0;
                update[group] = 0;
            }
            at += span;
        }
    }

    // Gives the mark to the rows of all groups listed: one by one where they are few, else eight at a time.
    bool mark_listed(uint8_t mark) {
        uint32_t twice = 0;
        uint32_t ones = 0;
        const uint32_t issued_of_last = ~0u << (groups * rows_of_group - issued);
        for (size_t i = 0; i < listed; ++i) {
            bits_of[i] &= place_of[i] == groups - 1 ? issued_of_last : ~0u;
            ones += ones_in(bits_of[i]);
            twice |= taken[place_of[i]] & bits_of[i];
            taken[place_of[i]] |= bits_of[i];
        }
        if (twice != 0) return false;
        if (2 * ones < 3 * listed) {
            for (size_t i = 0; i < listed; ++i) mark_few(place_of[i], bits_of[i], mark);
        } else {
            for (size_t i = 0; i < listed; ++i) mark_many(place_of[i], bits_of[i], mark);
        }
        return true;
    }

    void mark_few(uint32_t group, uint32_t bits, uint8_t mark) {
        uint8_t *last = bytes.data() + group * padded + rows_of_group - 1;
        for (; bits != 0; bits &= bits - 1) *(last - __builtin_ctz(bits)) = mark;
    }

    void mark_many(uint32_t group, uint32_t bits, uint8_t mark) {
        uint8_t *rows = bytes.data() + group * padded;
        const auto mark_eight = [&](size_t at, uint32_t eight) {
            const uint64_t marked = eight_bytes(rows + at) | bytes_of_bits(eight) * mark;
            std::memcpy(rows + at, &marked, sizeof marked);
        };
        mark_eight(0, bits >> 23);
        mark_eight(8, bits >> 15);
        mark_eight(16, bits >> 7);
        mark_eight(24, bits << 1);
    }

    const Sizes &sizes;
    const uint32_t issued, groups;
    size_t listed = 0;
    // One more than there are groups, since a place is written before it is known to count.
    std::array<uint32_t, most_groups + 1> place_of, bits_of;
    std::array<uint32_t, most_groups> update{}, taken{};
    std::array<uint8_t, most_groups * padded> bytes;
};

// ---- Audit. ----

bool all_zero(const uint32_t *words, size_t count) {
    uint32_t gathered = 0;
    for (size_t i = 0; i < count; ++i) gathered |= words[i];
    return gathered == 0;
}

// Whether a whole list has no 1 at the row or above: its last two words decide.
bool clear_from(const uint32_t *list, size_t length, uint32_t groups, uint32_t row) {
    uint32_t end = groups;
    for (size_t i = length; i-- != 0;) {
        const uint32_t group = group_in(list[i]);
        if (group != 0) return end * rows_of_group <= row + static_cast<uint32_t>(__builtin_ctz(group));
        end -= span_of(list[i]);
    }
    return true;
}

bool sound_lists(const Block<const uint32_t> &block, const Sizes &sizes, uint32_t issued) {
    uint32_t ones = 0;
    if (!are_whole(block, sizes, ones)) return false;
    const size_t value_length = *block.value_length;
    const size_t update_length = *block.update_length;
    return clear_from(block.value, value_length, sizes.groups, issued) &&
           clear_from(block.update, update_length, sizes.groups, issued) &&
           all_zero(block.value + value_length, sizes.groups - value_length) &&
           all_zero(block.update + update_length, sizes.update_room - update_length);
}

// Whether no row of the value is taken already; its rows are then taken too.
bool take_rows(const Block<const uint32_t> &block, const Sizes &sizes, uint32_t *taken) {
    std::array<uint32_t, most_groups> current;
    std::fill_n(current.data(), sizes.groups, 0u);
    turn_over(block.value, *block.value_length, current.data());
    turn_over(block.update, *block.update_length, current.data());
    uint32_t twice = 0;
    for (size_t group = 0; group < sizes.groups; ++group) {
        twice |= taken[group] & current[group];
        taken[group] |= current[group];
    }
    return twice == 0;
}

// ---- Pack and Unpack. ----

// 31 rows; the last eight overlap the eight before by a row.
uint32_t full_group(const uint8_t *rows) {
    return bits_of_bytes(rows) << 23 | bits_of_bytes(rows + 8) << 15 | bits_of_bytes(rows + 16) << 7 | bits_of_bytes(rows + 23);
}

void put_full_group(uint8_t *rows, uint32_t group) {
    put_bits(rows, group >> 23);
    put_bits(rows + 8, group >> 15);
    put_bits(rows + 16, group >> 7);
    put_bits(rows + 23, group);
}

uint32_t short_group(const uint8_t *rows, size_t count) {
    uint32_t group = 0;
    for (size_t i = 0; i < count; ++i) group |= rows[i] * (fill_bit_mark >> i);
    return group;
}

bool all_bits(const uint8_t *rows, size_t length) {
    uint8_t gathered = 0;
    for (size_t i = 0; i < length; ++i) gathered |= rows[i];
    return gathered < 2;
}

size_t write_packed(const uint8_t *rows, size_t length, uint32_t *out) {
    Writer writer(out);
    const size_t whole = length / rows_of_group * rows_of_group;
    for (size_t at = 0; at < whole; at += rows_of_group) writer.group(full_group(rows + at));
    if (whole != length) writer.group(short_group(rows + whole, length - whole));
    return writer.length();
}

void write_rows(const uint32_t *list, size_t list_length, uint8_t *out, size_t length) {
    size_t at = 0;
    for (size_t i = 0; i < list_length; ++i) {
        const uint32_t word = list[i];
        const size_t count = std::min<size_t>(length - at, size_t{span_of(word)} * rows_of_group);
        if (is_fill(word)) {
            std::memset(out + at, static_cast<int>(fill_bit(word)), count);
        } else if (count == rows_of_group) {
            put_full_group(out + at, word);
        } else {
            for (uint32_t row = 0; row < count; ++row) out[at + row] = (word & mask_of(row)) != 0;
        }
        at += count;
    }
}

} // namespace

// ---- The calls. ----

namespace yardstick {

upbit_room room_for(uint32_t rows, uint32_t values, uint32_t threshold, uint32_t spacing) {
    if (!limits_hold(rows, values, threshold, spacing)) return {UPBIT_BAD_HEADER, 0, 0};
    const Sizes sizes = sizes_of(rows, threshold, spacing);
    return {UPBIT_OK, values * sizes.block, values * sizes.fences};
}

upbit_changed load(uint32_t *words, size_t words_length, upbit_fence *fences, size_t fences_length, const uint8_t *column,
                   size_t column_length, uint32_t rows, uint32_t values, uint32_t threshold, uint32_t spacing) {
    const upbit_header none = {0, 0, 0, 0, 0};
    const upbit_header empty = {rows, 0, values, threshold, spacing};
    Sizes sizes;
    const uint32_t refusal = entry(words_length, fences_length, empty, sizes);
    if (refusal != UPBIT_OK) return changed(none, refusal);
    if (!column_valid(column, column_length, values)) return changed(none, UPBIT_BAD_VALUE);
    if (column_length > rows) return changed(none, UPBIT_FULL);
    load_lists(words, column, column_length, sizes, values);
    for (uint32_t value = 0; value < values; ++value) {
        const Block<uint32_t> block = block_of(words, sizes, value);
        clear_update(block, sizes);
        renew_fences(read_only(block), sizes, fences + value * sizes.fences);
    }
    return changed({rows, static_cast<uint32_t>(column_length), values, threshold, spacing}, UPBIT_OK);
}

upbit_changed insert(uint32_t *words, size_t words_length, upbit_fence *fences, size_t fences_length, upbit_header header,
                     uint32_t value) {
    Sizes sizes;
    const uint32_t refusal = entry(words_length, fences_length, header, sizes);
    if (refusal != UPBIT_OK) return changed(header, refusal);
    if (value >= header.values) return changed(header, UPBIT_BAD_VALUE);
    if (header.issued == header.rows) return changed(header, UPBIT_FULL);
    const Row found = read_row(words, fences, header, sizes, header.issued);
    if (found.damaged || found.holders != 0) return changed(header, UPBIT_DAMAGED);
    const Block<uint32_t> block = block_of(words, sizes, value);
    uint32_t ones = 0;
    if (!are_whole(read_only(block), sizes, ones)) return changed(header, UPBIT_DAMAGED);
    const uint32_t row = header.issued++;
    flip(block, sizes, fences + value * sizes.fences, row, ones);
    return {header, {UPBIT_OK, row}};
}

upbit_changed update(uint32_t *words, size_t words_length, upbit_fence *fences, size_t fences_length, upbit_header header,
                     uint32_t row, uint32_t value) {
    Sizes sizes;
    const uint32_t refusal = entry(words_length, fences_length, header, sizes);
    if (refusal != UPBIT_OK) return changed(header, refusal);
    if (value >= header.values) return changed(header, UPBIT_BAD_VALUE);
    if (row >= header.issued) return changed(header, UPBIT_NO_ROW);
    const Row found = read_row(words, fences, header, sizes, row);
    if (found.damaged) return changed(header, UPBIT_DAMAGED);
    if (found.holders == 0) return changed(header, UPBIT_GONE);
    if (found.value == value) return changed(header, UPBIT_OK);
    const Block<uint32_t> before = block_of(words, sizes, found.value);
    const Block<uint32_t> after = block_of(words, sizes, value);
    uint32_t ones_before = 0;
    uint32_t ones_after = 0;
    if (!are_whole(read_only(before), sizes, ones_before) || !are_whole(read_only(after), sizes, ones_after)) {
        return changed(header, UPBIT_DAMAGED);
    }
    flip(before, sizes, fences + found.value * sizes.fences, row, ones_before);
    flip(after, sizes, fences + value * sizes.fences, row, ones_after);
    return changed(header, UPBIT_OK);
}

upbit_changed remove(uint32_t *words, size_t words_length, upbit_fence *fences, size_t fences_length, upbit_header header,
                     uint32_t row) {
    Sizes sizes;
    const uint32_t refusal = entry(words_length, fences_length, header, sizes);
    if (refusal != UPBIT_OK) return changed(header, refusal);
    if (row >= header.issued) return changed(header, UPBIT_NO_ROW);
    const Row found = read_row(words, fences, header, sizes, row);
    if (found.damaged) return changed(header, UPBIT_DAMAGED);
    if (found.holders == 0) return changed(header, UPBIT_GONE);
    const Block<uint32_t> block = block_of(words, sizes, found.value);
    uint32_t ones = 0;
    if (!are_whole(read_only(block), sizes, ones)) return changed(header, UPBIT_DAMAGED);
    flip(block, sizes, fences + found.value * sizes.fences, row, ones);
    return changed(header, UPBIT_OK);
}

upbit_changed merge(uint32_t *words, size_t words_length, upbit_fence *fences, size_t fences_length, upbit_header header,
                    uint32_t value) {
    Sizes sizes;
    const uint32_t refusal = entry(words_length, fences_length, header, sizes);
    if (refusal != UPBIT_OK) return changed(header, refusal);
    if (value >= header.values) return changed(header, UPBIT_BAD_VALUE);
    const Block<uint32_t> block = block_of(words, sizes, value);
    uint32_t ones = 0;
    if (!are_whole(read_only(block), sizes, ones)) return changed(header, UPBIT_DAMAGED);
    merge_value(block, sizes, fences + value * sizes.fences);
    return changed(header, UPBIT_OK);
}

upbit_row value(const uint32_t *words, size_t words_length, const upbit_fence *fences, size_t fences_length, upbit_header header,
                uint32_t row) {
    Sizes sizes;
    const uint32_t refusal = entry(words_length, fences_length, header, sizes);
    if (refusal != UPBIT_OK) return {refusal, 0, 0, 0};
    if (row >= header.issued) return {UPBIT_NO_ROW, 0, 0, 0};
    const Row found = read_row(words, fences, header, sizes, row);
    if (found.damaged) return {UPBIT_DAMAGED, 0, 0, 0};
    if (found.holders == 0) return {UPBIT_OK, 0, UPBIT_DELETED, found.opened};
    return {UPBIT_OK, 1, found.value, found.opened};
}

upbit_answer query(const uint32_t *words, size_t words_length, const upbit_fence *, size_t fences_length, uint32_t *out,
                   size_t out_length, upbit_header header, uint32_t value) {
    Sizes sizes;
    const uint32_t refusal = entry(words_length, fences_length, header, sizes);
    if (refusal != UPBIT_OK) return {refusal, 0};
    if (value >= header.values) return {UPBIT_BAD_VALUE, 0};
    const Block<const uint32_t> block = block_of(words, sizes, value);
    uint32_t ones = 0;
    if (!are_whole(block, sizes, ones)) return {UPBIT_DAMAGED, 0};
    if (out_length >= sizes.groups) return {UPBIT_OK, write_current(block, out)};
    std::array<uint32_t, most_groups> list;
    const size_t length = write_current(block, list.data());
    if (out_length < length) return {UPBIT_OUT_SMALL, 0};
    std::copy_n(list.data(), length, out);
    return {UPBIT_OK, length};
}

upbit_answer dump(const uint32_t *words, size_t words_length, const upbit_fence *fences, size_t fences_length, uint8_t *out,
                  size_t out_length, upbit_header header) {
    Sizes sizes;
    const uint32_t refusal = entry(words_length, fences_length, header, sizes);
    if (refusal != UPBIT_OK) return {refusal, 0};
    Dumping dumping(sizes, header.issued);
    for (uint32_t value = 0; value < header.values; ++value) {
        if (!dumping.value(block_of(words, sizes, value), fences + value * sizes.fences, value)) return {UPBIT_DAMAGED, 0};
    }
    if (out_length < header.issued) return {UPBIT_OUT_SMALL, 0};
    dumping.write(out);
    return {UPBIT_OK, header.issued};
}

upbit_answer audit(const uint32_t *words, size_t words_length, const upbit_fence *fences, size_t fences_length,
                   upbit_header header) {
    Sizes sizes;
    const uint32_t refusal = entry(words_length, fences_length, header, sizes);
    if (refusal != UPBIT_OK) return {refusal, 0};
    std::array<uint32_t, most_groups> taken{};
    for (uint32_t value = 0; value < header.values; ++value) {
        const Block<const uint32_t> block = block_of(words, sizes, value);
        if (!sound_lists(block, sizes, header.issued) || !take_rows(block, sizes, taken.data()) ||
            !fences_right(block, sizes, fences + value * sizes.fences)) {
            return {UPBIT_DAMAGED, 0};
        }
    }
    return {UPBIT_OK, 0};
}

upbit_answer pack(const uint8_t *rows, size_t rows_length, uint32_t *out, size_t out_length) {
    if (!all_bits(rows, rows_length)) return {UPBIT_BAD_VALUE, 0};
    if (rows_length > UPBIT_MAX_ROWS) return {UPBIT_FULL, 0};
    if (out_length >= groups_for(rows_length)) return {UPBIT_OK, write_packed(rows, rows_length, out)};
    std::array<uint32_t, most_groups> list;
    const size_t length = write_packed(rows, rows_length, list.data());
    if (out_length < length) return {UPBIT_OUT_SMALL, 0};
    std::copy_n(list.data(), length, out);
    return {UPBIT_OK, length};
}

upbit_answer unpack(const uint32_t *list, size_t list_length, uint8_t *out, size_t out_length, size_t length) {
    if (length > UPBIT_MAX_ROWS) return {UPBIT_FULL, 0};
    if (out_length < length) return {UPBIT_OUT_SMALL, 0};
    if (!is_whole(list, list_length, length)) return {UPBIT_BAD_LIST, 0};
    write_rows(list, list_length, out, length);
    return {UPBIT_OK, length};
}

} // namespace yardstick

const Calls yardstick_calls = {
    yardstick::room_for, yardstick::load,  yardstick::insert, yardstick::update, yardstick::remove, yardstick::merge,
    yardstick::value,    yardstick::query, yardstick::dump,   yardstick::audit,  yardstick::pack,   yardstick::unpack,
};
