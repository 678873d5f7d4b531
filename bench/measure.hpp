// Times the engines side by side.
#pragma once

#include "work.hpp"

// One cell of the results: nanoseconds a call.
struct Cell {
    Operation operation;
    Kind kind;
    Shape shape;
    std::string engine;
    double nanoseconds;
};

// The words that Value opened for the rows read, beside the bound d x (G + 2T + 1).
struct Opened {
    Kind kind;
    Shape shape;
    double mean;
    uint64_t largest, bound;
};

struct Memory {
    Kind kind;
    Shape shape;
    std::string engine;
    size_t bytes;
};

using Engines = std::vector<std::unique_ptr<Engine>>;

// Times one operation on each of the engines that have it.
std::vector<Cell> measure(Operation operation, const Work &work, const std::vector<Engine *> &engines);

// Ends the program with a message where an engine's column is not the plain one after the load and after the updates.
void check_columns(const Work &work, const std::vector<Engine *> &engines);

Opened count_opened(const Work &work, Engine &proved);
