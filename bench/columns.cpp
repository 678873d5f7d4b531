#include "columns.hpp"

#include <algorithm>
#include <cmath>
#include <numeric>
#include <utility>

std::string name_of(Kind kind) {
    switch (kind) {
    case Kind::uniform: return "uniform";
    case Kind::zipf: return "zipf 1.2";
    case Kind::clustered: break;
    }
    return "clustered";
}

namespace {

// The sums of the shares of the values, as numbers below 2 to the 32.
std::vector<uint32_t> zipf_limits(uint32_t values) {
    std::vector<double> sums(values);
    double sum = 0;
    for (uint32_t value = 0; value < values; ++value) sums[value] = sum += std::pow(value + 1.0, -1.2);
    std::vector<uint32_t> limits(values);
    const auto limit_of = [sum](double part) { return static_cast<uint32_t>(part / sum * 4294967295.0); };
    std::transform(sums.begin(), sums.end(), limits.begin(), limit_of);
    return limits;
}

std::vector<uint8_t> zipf_column(uint32_t rows, uint32_t values, Generator &generator) {
    const std::vector<uint32_t> limits = zipf_limits(values);
    std::vector<uint8_t> column(rows);
    for (uint8_t &byte : column) {
        const auto drawn = static_cast<uint32_t>(generator.next() >> 32);
        const auto found = std::lower_bound(limits.begin(), limits.end() - 1, drawn);
        byte = static_cast<uint8_t>(found - limits.begin());
    }
    return column;
}

std::vector<uint8_t> clustered_column(uint32_t rows, uint32_t values, Generator &generator) {
    std::vector<uint8_t> column;
    while (column.size() < rows) {
        const size_t run = std::min<size_t>(100 + generator.below(600), rows - column.size());
        column.insert(column.end(), run, static_cast<uint8_t>(generator.below(values)));
    }
    return column;
}

std::vector<uint8_t> uniform_column(uint32_t rows, uint32_t values, Generator &generator) {
    std::vector<uint8_t> column(rows);
    for (uint8_t &byte : column) byte = static_cast<uint8_t>(generator.below(values));
    return column;
}

} // namespace

std::vector<uint8_t> column_of(Kind kind, uint32_t rows, uint32_t values, Generator &generator) {
    switch (kind) {
    case Kind::uniform: return uniform_column(rows, values, generator);
    case Kind::zipf: return zipf_column(rows, values, generator);
    case Kind::clustered: break;
    }
    return clustered_column(rows, values, generator);
}

std::vector<Update> updates_of(std::vector<uint8_t> &column, size_t count, Generator &generator) {
    const auto rows = static_cast<uint32_t>(column.size());
    std::vector<Update> updates;
    while (updates.size() < count) {
        const uint32_t row = generator.below(rows);
        const uint8_t value = column[generator.below(rows)];
        if (value == column[row]) continue;
        column[row] = value;
        updates.push_back({row, value});
    }
    return updates;
}

std::vector<uint32_t> distinct_rows(uint32_t rows, size_t count, Generator &generator) {
    std::vector<uint32_t> all(rows);
    std::iota(all.begin(), all.end(), 0u);
    for (uint32_t i = 0; i < count; ++i) std::swap(all[i], all[i + generator.below(rows - i)]);
    all.resize(count);
    return all;
}
