// What the calls are given: numbers, words, columns and lengths, sound ones most often.
#pragma once

#include <algorithm>
#include <vector>

#include "input.hpp"
#include "lent.hpp"
#include "upbit.h"

// The longest column, rows or list that is lent; a little more than the most rows.
constexpr uint32_t longest = UPBIT_MAX_ROWS + 100;

inline Closed any_side(Input &input) {
    return input.chance(50) ? Closed::before : Closed::behind;
}

// A header with no row issued: R, d, T and G.
inline upbit_header any_shape(Input &input) {
    upbit_header shape = {1 + input.below(250), 0, 1 + input.below(5), 1 + input.below(6), 1 + input.below(6)};
    switch (input.below(100)) {
    case 0:
        return {1 + input.below(UPBIT_MAX_ROWS), 0, 1 + input.below(3), 1 + input.below(255), 1 + input.below(256)};
    case 1:
        shape.rows = input.near(UPBIT_MAX_ROWS + 1);
        break;
    case 2:
        shape.values = input.near(UPBIT_MAX_VALUES + 1);
        break;
    case 3:
        shape.threshold = input.near(UPBIT_MAX_THRESHOLD + 1);
        break;
    case 4:
        shape.spacing = input.near(UPBIT_MAX_SPACING + 1);
        break;
    }
    return shape;
}

inline upbit_header any_header(Input &input, upbit_header shape) {
    shape.issued = input.near(shape.rows + 1);
    if (input.chance(90))
        return shape;
    return {input.near(shape.rows + 1), input.near(shape.rows + 1), input.near(UPBIT_MAX_VALUES + 1),
            input.near(UPBIT_MAX_THRESHOLD + 1), input.near(UPBIT_MAX_SPACING + 1)};
}

// A word as it may stand in a list, or as the length of one, or any.
inline uint32_t any_word(Input &input) {
    switch (input.below(8)) {
    case 0:
        return input.word();
    case 1:
        return input.below(8);
    case 2:
        return 0x80000000 | input.below(8);
    case 3:
        return 0xC0000000 | input.below(8);
    case 4:
        return 0;
    default:
        return input.word() & 0x7FFFFFFF;
    }
}

// How many elements to lend where so many are needed: just so many, more, or sometimes fewer.
inline size_t any_length(Input &input, size_t needed) {
    if (input.chance(3))
        return needed - std::min<size_t>(needed, 1 + input.below(3));
    if (input.chance(2))
        return input.below(200);
    return needed + (input.chance(40) ? 0 : input.below(20));
}

// Runs of bytes below a bound, and of 255 where that is asked for; now and then a byte that is neither.
inline std::vector<uint8_t> any_bytes(Input &input, uint32_t length, uint32_t bound, bool with_deleted) {
    std::vector<uint8_t> bytes;
    while (bytes.size() < length) {
        const bool deleted = with_deleted && input.chance(15);
        const uint32_t byte = deleted ? UPBIT_DELETED : input.below(bound);
        const size_t end = bytes.size() + 1 + input.below(input.chance(50) ? 4 : 100);
        bytes.resize(std::min<size_t>(end, length), static_cast<uint8_t>(byte));
    }
    if (length > 0 && input.chance(4))
        bytes[input.below(length)] = input.byte();
    return bytes;
}
