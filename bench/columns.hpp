// The columns and the streams of calls that are measured, from a fixed seed.
#pragma once

#include <array>
#include <cstddef>
#include <cstdint>
#include <string>
#include <vector>

// A small generator of pseudo-random numbers (SplitMix64: a counter and a mixing of its bits).
class Generator {
public:
    explicit Generator(uint64_t seed) : state(seed) {}

    uint64_t next() {
        state += 0x9E3779B97F4A7C15u;
        uint64_t mixed = state;
        mixed = (mixed ^ (mixed >> 30)) * 0xBF58476D1CE4E5B9u;
        mixed = (mixed ^ (mixed >> 27)) * 0x94D049BB133111EBu;
        return mixed ^ (mixed >> 31);
    }

    // A number below a limit of at most 32 bits.
    uint32_t below(uint32_t limit) { return static_cast<uint32_t>(((next() >> 32) * limit) >> 32); }

private:
    uint64_t state;
};

enum class Kind { uniform, zipf, clustered };

constexpr std::array<Kind, 3> kinds = {Kind::uniform, Kind::zipf, Kind::clustered};

std::string name_of(Kind kind);

// `rows` values below `values`: each alike; the k-th with a share in proportion to k to the -1.2; or each alike in runs of
// 100 to 699 rows.
std::vector<uint8_t> column_of(Kind kind, uint32_t rows, uint32_t values, Generator &generator);

struct Update {
    uint32_t row;
    uint8_t value;
};

// Updates of random rows, each to a value that the row has not, drawn from the values of random rows; `column` is kept up.
std::vector<Update> updates_of(std::vector<uint8_t> &column, size_t count, Generator &generator);

// Random rows below `rows`, none of them twice.
std::vector<uint32_t> distinct_rows(uint32_t rows, size_t count, Generator &generator);
