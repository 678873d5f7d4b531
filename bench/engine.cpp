#include "engine.hpp"

#include <cstdio>
#include <cstdlib>

std::string name_of(Operation operation) {
    static const std::array<const char *, operations.size()> names = {
        "load", "update", "insert", "delete", "value", "query", "query after 1,000 updates", "merge", "dump", "audit", "pack", "unpack",
    };
    return names[static_cast<size_t>(operation)];
}

void stop(const char *message) {
    std::fprintf(stderr, "bench: %s\n", message);
    std::exit(1);
}

void demand(bool holds, const char *message) {
    if (!holds) stop(message);
}

uint64_t Engine::merge(uint8_t) { stop("this engine has no merge"); }

uint64_t Engine::audit() { stop("this engine has no audit"); }

uint64_t Engine::pack(size_t, const std::vector<uint8_t> &) { stop("this engine has no pack"); }

const std::vector<uint8_t> &Engine::unpack(size_t) { stop("this engine has no unpack"); }
