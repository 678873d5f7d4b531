// Numbers taken from the bytes of one fuzz input and, when those run out, from a generator that all of them seed. So a
// short input too leads to a whole sequence of calls, and the same input always to the same one. Each byte is combined with
// one of a fixed sequence: libFuzzer likes zeros, which would else always make the same choice.
#pragma once

#include <cstddef>
#include <cstdint>

class Input {
  public:
    Input(const uint8_t *bytes, size_t length) : bytes(bytes), left(length) {
        for (size_t place = 0; place < length; place++)
            hash = (hash ^ bytes[place]) * 0x100000001b3;
    }

    uint8_t byte() {
        const uint8_t number = generated();
        if (left == 0)
            return number;
        left--;
        if (left == 0)
            state = hash | 1;
        return *bytes++ ^ number;
    }

    uint32_t word() {
        uint32_t number = 0;
        for (int part = 0; part < 4; part++)
            number = number << 8 | byte();
        return number;
    }

    // A number below a bound that is at least 1.
    uint32_t below(uint32_t bound) {
        return (bound <= 256 ? byte() : word()) % bound;
    }

    bool chance(uint32_t percent) {
        return below(100) < percent;
    }

    // Most often a number below the limit, else one next to it or any.
    uint32_t near(uint32_t limit) {
        if (limit > 0 && chance(85))
            return below(limit);
        if (chance(70))
            return limit - 1 + below(3);
        return word();
    }

  private:
    const uint8_t *bytes;
    size_t left;
    uint64_t hash = 0xcbf29ce484222325;
    uint64_t state = 0x9e3779b97f4a7c15;

    uint8_t generated() {
        state ^= state >> 12;
        state ^= state << 25;
        state ^= state >> 27;
        return static_cast<uint8_t>(state * 0x2545f4914f6cdd1d >> 56);
    }
};
