// What is known of an index without reading it: the plain column, and the canonical list of rows, by document 01's words.
#pragma once

#include <cstdint>
#include <vector>

#include "upbit.h"

// The canonical list of rows, a byte 0 or 1 each.
inline std::vector<uint32_t> packed(const std::vector<uint8_t> &rows) {
    std::vector<uint32_t> list;
    for (size_t first = 0; first < rows.size(); first += 31) {
        uint32_t group = 0;
        for (size_t row = first; row < rows.size() && row < first + 31; row++)
            group |= uint32_t{rows[row]} << (30 - (row - first));
        const bool mixed = group != 0 && group != 0x7FFFFFFF;
        const uint32_t fill = group == 0 ? 0x80000000 : 0xC0000000;
        if (mixed)
            list.push_back(group);
        else if (!list.empty() && list.back() >> 30 == fill >> 30)
            list.back()++;
        else
            list.push_back(fill | 1);
    }
    return list;
}

// The bytes made from a load and the later calls alone, and how they refuse.
struct PlainColumn {
    std::vector<uint8_t> bytes;
    uint32_t rows;
    uint32_t values;

    uint32_t refuses_value(uint32_t value) const {
        return value < values ? UPBIT_OK : UPBIT_BAD_VALUE;
    }

    uint32_t refuses_row(uint32_t row) const {
        return row < bytes.size() ? UPBIT_OK : UPBIT_NO_ROW;
    }

    uint32_t refuses_insert(uint32_t value) const {
        if (refuses_value(value) != UPBIT_OK)
            return UPBIT_BAD_VALUE;
        return bytes.size() < rows ? UPBIT_OK : UPBIT_FULL;
    }

    uint32_t refuses_delete(uint32_t row) const {
        if (refuses_row(row) != UPBIT_OK)
            return UPBIT_NO_ROW;
        return bytes[row] == UPBIT_DELETED ? UPBIT_GONE : UPBIT_OK;
    }

    uint32_t refuses_update(uint32_t row, uint32_t value) const {
        return refuses_value(value) != UPBIT_OK ? refuses_value(value) : refuses_delete(row);
    }

    // The rows of a value below d, up to the capacity.
    std::vector<uint8_t> rows_of(uint32_t value) const {
        std::vector<uint8_t> found(rows, 0);
        for (size_t row = 0; row < bytes.size(); row++)
            found[row] = bytes[row] == value;
        return found;
    }
};
