// Memory lent to a call, such that going outside of it is noticed.
#pragma once

#include <sanitizer/asan_interface.h>
#include <sys/mman.h>
#include <unistd.h>

#include <algorithm>
#include <cstdint>
#include <cstdio>
#include <cstdlib>
#include <cstring>
#include <vector>

#include "upbit.h"

// Stops the run, and names the rule, where a rule does not hold.
inline void require(bool holds, const char *rule) {
    if (holds)
        return;
    std::fprintf(stderr, "BROKEN RULE: %s\n", rule);
    std::abort();
}

inline bool operator==(const upbit_fence &left, const upbit_fence &right) {
    return left.place == right.place && left.first == right.first;
}

// On which side of lent memory the page lies that may not be touched.
enum class Closed { before, behind };

// So many elements and not a byte more. On one side of them lies a page that faults when it is read or written; on the other
// a guard, whose bytes are compared after each call and which is poisoned for AddressSanitizer in between. The library is
// not instrumented, so AddressSanitizer sees only what the target and the C functions that the library calls do.
template <typename Element> class Lent {
  public:
    Lent(size_t length, Closed closed) : length(length) {
        const size_t page = static_cast<size_t>(sysconf(_SC_PAGESIZE));
        const size_t size = length * sizeof(Element);
        const size_t open = (size + guard_size + page - 1) / page * page;
        mapped_size = open + 2 * page;
        void *map = mmap(nullptr, mapped_size, PROT_NONE, MAP_PRIVATE | MAP_ANONYMOUS, -1, 0);
        require(map != MAP_FAILED, "the target itself: mmap");
        mapped = static_cast<uint8_t *>(map);
        uint8_t *first = mapped + page;
        require(mprotect(first, open, PROT_READ | PROT_WRITE) == 0, "the target itself: mprotect");
        uint8_t *start = closed == Closed::before ? first : first + open - size;
        guard = closed == Closed::before ? start + size : start - guard_size;
        elements = reinterpret_cast<Element *>(start);
        std::memset(guard, guard_byte, guard_size);
        __asan_poison_memory_region(guard, guard_size);
    }

    ~Lent() {
        __asan_unpoison_memory_region(mapped, mapped_size);
        munmap(mapped, mapped_size);
    }

    Lent(const Lent &) = delete;
    Lent &operator=(const Lent &) = delete;

    Element *data() { return elements; }
    size_t size() const { return length; }
    Element &operator[](size_t place) { return elements[place]; }

    std::vector<Element> copy() const { return std::vector<Element>(elements, elements + length); }

    // That the guard is as it was made, and so are the elements from a place on.
    void require_same(const std::vector<Element> &before, size_t from, const char *rule) const {
        __asan_unpoison_memory_region(guard, guard_size);
        const bool whole = std::all_of(guard, guard + guard_size, [](uint8_t byte) { return byte == guard_byte; });
        __asan_poison_memory_region(guard, guard_size);
        require(whole, "nothing is written outside the memory lent");
        require(std::equal(before.begin() + static_cast<ptrdiff_t>(from), before.end(), elements + from), rule);
    }

  private:
    static constexpr size_t guard_size = 256;
    static constexpr uint8_t guard_byte = 0xA5;

    size_t length;
    size_t mapped_size;
    uint8_t *mapped;
    uint8_t *guard;
    Element *elements;
};
