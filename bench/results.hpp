// All that one run measured: the tables, the goals, and the file from which the chart and the document are made.
#pragma once

#include "measure.hpp"

struct Results {
    std::vector<Cell> cells;
    std::vector<Memory> memory;
    std::vector<Opened> opened;
};

// The shape at which the goals are set, with d in its place.
constexpr uint32_t goal_threshold = 16;
constexpr uint32_t goal_spacing = 64;

void print_tables(const Results &results);

// Says of each goal whether it was met, and by how much not.
void print_goals(const Results &results);

// A line for each cell, tab-separated.
void write_results(const Results &results, const char *path);
