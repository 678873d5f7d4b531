// What the benchmark asks of an engine: an index over one column of bytes, by whatever means.
#pragma once

#include <array>
#include <cstddef>
#include <cstdint>
#include <memory>
#include <string>
#include <vector>

enum class Operation { load, update, insert, remove, value, query, query_updated, merge, dump, audit, pack, unpack };

constexpr std::array<Operation, 12> operations = {
    Operation::load,          Operation::update, Operation::insert, Operation::remove, Operation::value, Operation::query,
    Operation::query_updated, Operation::merge,  Operation::dump,   Operation::audit,  Operation::pack,  Operation::unpack,
};

std::string name_of(Operation operation);

// The numbers of an index; an engine without updates apart or fences has no use for the last two.
struct Shape {
    uint32_t rows, values, threshold, spacing;
};

// Lists that an engine packs and keeps for unpacking.
constexpr size_t pack_slots = 4;

class Engine {
public:
    virtual ~Engine() = default;

    virtual std::string name() const = 0;
    virtual bool has(Operation operation) const = 0;
    virtual bool has_threshold_and_spacing() const = 0;

    virtual void load(const std::vector<uint8_t> &column, const Shape &shape) = 0;
    // Remembers the index as it stands, and puts it back.
    virtual void keep() = 0;
    virtual void put_back() = 0;

    // Each answers a number that depends on the result, so that no call can be left out.
    virtual uint64_t update(uint32_t row, uint8_t value) = 0;
    virtual uint64_t insert(uint8_t value) = 0;
    virtual uint64_t remove(uint32_t row) = 0;
    // The row's value; for an engine that counts them, the words opened too.
    virtual uint64_t value(uint32_t row) = 0;
    // The rows of a value, in the engine's own packed form, apart from the index.
    virtual uint64_t query(uint8_t value) = 0;
    // The column, a byte a row.
    virtual const std::vector<uint8_t> &dump() = 0;

    // Operations that not every engine has; to ask one for what `has` denies ends the program.
    virtual uint64_t merge(uint8_t value);
    virtual uint64_t audit();
    // Rows, a byte 0 or 1 each, to the packed form in a slot, and back.
    virtual uint64_t pack(size_t slot, const std::vector<uint8_t> &rows);
    virtual const std::vector<uint8_t> &unpack(size_t slot);

    // Memory of the index as it stands.
    virtual size_t bytes() const = 0;
};

std::unique_ptr<Engine> make_proved();
std::unique_ptr<Engine> make_yardstick();
std::unique_ptr<Engine> make_version_one();
std::unique_ptr<Engine> make_bitsets();
std::unique_ptr<Engine> make_roaring();

// Ends the program with a message where something that must hold does not.
[[noreturn]] void stop(const char *message);
void demand(bool holds, const char *message);
