// What is measured: for each operation a batch of calls, the same for every engine.
#pragma once

#include "columns.hpp"
#include "engine.hpp"

#include <functional>

constexpr size_t update_count = 1000;
// Rows that are left free in the index for the measured inserts.
constexpr uint32_t insert_room = 4096;

// A column and the streams of calls upon it.
struct Work {
    Work(Kind column_kind, const Shape &index_shape);

    Kind kind;
    Shape shape;
    // The column as it is loaded, and with the first updates done.
    std::vector<uint8_t> column, updated_column;
    // The updates that come before most measurements, and the stream that is measured.
    std::vector<Update> first_updates, measured_updates;
    std::vector<uint32_t> read_rows, deleted_rows;
    // Inserts have a column of their own, with room behind it.
    std::vector<uint8_t> short_column;
    std::vector<Update> short_updates;
    std::vector<uint8_t> inserted_values;
    // Rows of four of the values, a byte 0 or 1 each.
    std::array<std::vector<uint8_t>, pack_slots> packed_rows;
};

// Some calls of one operation: the calls, how many they are, and whether they change the index, which is then put back
// before each batch.
struct Batch {
    std::function<uint64_t(Engine &)> run;
    size_t calls;
    bool changes;
};

Batch batch_of(Operation operation, const Work &work);

// Brings an engine into the state in which the operation is measured, and has the engine keep it.
void bring_into_state(Engine &engine, Operation operation, const Work &work);
