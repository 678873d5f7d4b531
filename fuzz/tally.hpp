// How often each call gave each number, over the whole run.
#pragma once

#include <cstdint>
#include <cstdio>
#include <cstdlib>

#include "upbit.h"

enum class Call { room_for, load, insert, update, remove, merge, value, query, dump, audit, pack, unpack };

class Tally {
  public:
    void add(Call call, uint32_t number) { seen[static_cast<int>(call)][number]++; }

    static Tally &of_run() {
        static Tally tally;
        return tally;
    }

  private:
    static constexpr int calls = 12;
    static constexpr int numbers = UPBIT_BAD_LIST + 1;
    unsigned long long seen[calls][numbers] = {};

    Tally() { std::atexit(print); }

    static void print() {
        static const char *const names[calls] = {"room_for", "load",  "insert", "update", "delete", "merge",
                                                 "value",    "query", "dump",   "audit",  "pack",   "unpack"};
        std::printf("%-9s", "number");
        for (int number = 0; number < numbers; number++)
            std::printf("%10d", number);
        for (int place = 0; place < calls * numbers; place++) {
            if (place % numbers == 0)
                std::printf("\n%-9s", names[place / numbers]);
            std::printf("%10llu", of_run().seen[place / numbers][place % numbers]);
        }
        std::printf("\n");
    }
};
