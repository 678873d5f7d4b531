// One operation of one engine, for counting its instructions: `one ENGINE OPERATION COLUMN VALUES`.
#include "upbit.h"
#include "work.hpp"

#include <algorithm>
#include <cstdio>
#include <cstdlib>
#include <cstring>

// The part that is counted; callgrind finds it by this name.
extern "C" __attribute__((noinline)) uint64_t counted_calls(const Batch &batch, Engine &engine) { return batch.run(engine); }

namespace {

template <class List> auto named(const List &list, const char *name) {
    const auto found = std::find_if(list.begin(), list.end(), [name](auto one) { return name_of(one) == name; });
    demand(found != list.end(), "no such operation or column");
    return *found;
}

} // namespace

int main(int count, char **arguments) {
    demand(count == 5, "usage: one proved|yardstick OPERATION COLUMN VALUES");
    const auto engine = std::strcmp(arguments[1], "proved") == 0 ? make_proved() : make_yardstick();
    const Operation operation = named(operations, arguments[2]);
    const auto values = static_cast<uint32_t>(std::strtoul(arguments[4], nullptr, 10));
    const Work work(named(kinds, arguments[3]), {UPBIT_MAX_ROWS, values, 16, 64});
    const Batch batch = batch_of(operation, work);
    bring_into_state(*engine, operation, work);
    const uint64_t answers = counted_calls(batch, *engine);
    std::printf("%zu calls, answers %lu\n", batch.calls, answers);
    return 0;
}
