// The benchmark: `bench RESULTS` measures everything, `bench RESULTS quick` the part with T = 16 and G = 64 alone.
#include "compare.hpp"
#include "results.hpp"
#include "upbit.h"

#include <cstdio>
#include <cstring>

namespace {

constexpr std::array<uint32_t, 3> values_measured = {4, 16, 64};

// Engines without T and G, and operations without them, are measured beside the shape of the goals alone.
void measure_shape(const Work &work, const Engines &engines, Results &results) {
    const bool all = work.shape.threshold == goal_threshold && work.shape.spacing == goal_spacing;
    std::vector<Engine *> taking_part;
    for (const auto &engine : engines) {
        if (all || engine->has_threshold_and_spacing()) taking_part.push_back(engine.get());
    }
    check_columns(work, taking_part);
    for (const Operation operation : operations) {
        if (!all && (operation == Operation::pack || operation == Operation::unpack)) continue;
        const std::vector<Cell> cells = measure(operation, work, taking_part);
        results.cells.insert(results.cells.end(), cells.begin(), cells.end());
    }
    for (Engine *engine : taking_part) {
        bring_into_state(*engine, Operation::dump, work);
        results.memory.push_back({work.kind, work.shape, engine->name(), engine->bytes()});
    }
    results.opened.push_back(count_opened(work, *engines.front()));
}

void measure_column(Kind kind, uint32_t values, bool quick, const Engines &engines, Results &results) {
    for (const uint32_t threshold : {16u, 255u}) {
        for (const uint32_t spacing : {16u, 64u, 256u}) {
            if (quick && (threshold != goal_threshold || spacing != goal_spacing)) continue;
            measure_shape(Work(kind, {UPBIT_MAX_ROWS, values, threshold, spacing}), engines, results);
            std::fprintf(stderr, "measured: %s, d %u, T %u, G %u\n", name_of(kind).c_str(), values, threshold, spacing);
        }
    }
}

} // namespace

int main(int count, char **arguments) {
    const bool quick = count == 3 && std::strcmp(arguments[2], "quick") == 0;
    demand(count == 2 || quick, "usage: bench RESULTS [quick]");
    std::printf("%zu calls of random histories: proved and yardstick agree in answers, headers, words, fences and outputs\n\n",
                compare_all());
    Engines engines;
    for (const auto make : {make_proved, make_yardstick, make_version_one, make_bitsets, make_roaring}) engines.push_back(make());
    Results results;
    for (const Kind kind : kinds) {
        for (const uint32_t values : values_measured) measure_column(kind, values, quick, engines, results);
    }
    print_tables(results);
    print_goals(results);
    write_results(results, arguments[1]);
    return 0;
}
