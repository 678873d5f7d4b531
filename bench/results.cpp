#include "results.hpp"

#include <algorithm>
#include <cmath>
#include <cstdio>

namespace {

constexpr std::array<const char *, 5> engine_names = {"proved", "yardstick", "version one", "bitsets", "roaring"};

// A goal: the most that the proved index may take, in multiples of the yardstick's time; and the same for a back end that
// does not vectorise.
struct Goal {
    Operation operation;
    double most, most_unvectorised;
};

constexpr std::array<Goal, 12> goals = {{
    {Operation::value, 1.2, 1.2},
    {Operation::update, 1.3, 2.0},
    {Operation::insert, 1.3, 2.0},
    {Operation::remove, 1.3, 2.0},
    {Operation::query, 1.3, 2.3},
    {Operation::query_updated, 1.3, 2.3},
    {Operation::merge, 1.5, 2.0},
    {Operation::audit, 1.5, 2.0},
    {Operation::load, 1.5, 1.5},
    {Operation::dump, 1.5, 1.5},
    {Operation::pack, 1.5, 3.5},
    {Operation::unpack, 1.3, 1.5},
}};

bool is_goal_shape(const Shape &shape) { return shape.threshold == goal_threshold && shape.spacing == goal_spacing; }

bool same_place(const Cell &left, const Cell &right) {
    return left.operation == right.operation && left.kind == right.kind && left.shape.values == right.shape.values &&
           left.shape.threshold == right.shape.threshold && left.shape.spacing == right.shape.spacing;
}

std::string place_of(const Cell &cell) { return name_of(cell.kind) + ", d " + std::to_string(cell.shape.values); }

// How often one engine's time another's takes, for one cell each.
struct Ratio {
    std::string place;
    double times;
};

std::vector<Ratio> ratios_of(const Results &results, Operation operation, const std::string &engine, const std::string &other) {
    std::vector<Ratio> ratios;
    for (const Cell &cell : results.cells) {
        if (cell.operation != operation || cell.engine != engine || !is_goal_shape(cell.shape)) continue;
        const auto against = std::find_if(results.cells.begin(), results.cells.end(),
                                          [&](const Cell &found) { return same_place(found, cell) && found.engine == other; });
        ratios.push_back({place_of(cell), cell.nanoseconds / against->nanoseconds});
    }
    return ratios;
}

double geometric_mean(const std::vector<Ratio> &ratios) {
    double sum = 0;
    for (const Ratio &ratio : ratios) sum += std::log(ratio.times);
    return std::exp(sum / static_cast<double>(ratios.size()));
}

Ratio largest_of(const std::vector<Ratio> &ratios) {
    return *std::max_element(ratios.begin(), ratios.end(), [](const Ratio &left, const Ratio &right) { return left.times < right.times; });
}

std::string verdict(double measured, double most) {
    if (measured <= most) return "met";
    char text[64];
    std::snprintf(text, sizeof text, "MISSED by %.0f %%", (measured / most - 1) * 100);
    return text;
}

void print_goal(const Results &results, const Goal &goal) {
    const std::vector<Ratio> ratios = ratios_of(results, goal.operation, "proved", "yardstick");
    const double mean = geometric_mean(ratios);
    const Ratio largest = largest_of(ratios);
    std::printf("goal: %-26s mean %5.2f of the yardstick, goal %.1f: %s; unvectorised goal %.1f: %s\n", name_of(goal.operation).c_str(),
                mean, goal.most, verdict(mean, goal.most).c_str(), goal.most_unvectorised, verdict(mean, goal.most_unvectorised).c_str());
    std::printf("goal: %-26s no cell above %.1f: %s; the largest is %.2f (%s)\n", "", 2 * goal.most,
                verdict(largest.times, 2 * goal.most).c_str(), largest.times, largest.place.c_str());
}

void print_table_head() {
    std::printf("%-26s %-10s %3s %4s %4s", "operation, ns a call", "column", "d", "T", "G");
    for (const char *engine : engine_names) std::printf(" %12s", engine);
    std::printf(" %10s\n", "ratio");
}

void print_row(const Results &results, const Cell &proved) {
    std::printf("%-26s %-10s %3u %4u %4u", name_of(proved.operation).c_str(), name_of(proved.kind).c_str(), proved.shape.values,
                proved.shape.threshold, proved.shape.spacing);
    double yardstick = 0;
    for (const char *engine : engine_names) {
        const auto found = std::find_if(results.cells.begin(), results.cells.end(),
                                        [&](const Cell &cell) { return same_place(cell, proved) && cell.engine == engine; });
        if (found == results.cells.end()) {
            std::printf(" %12s", "-");
            continue;
        }
        std::printf(" %12.1f", found->nanoseconds);
        if (found->engine == "yardstick") yardstick = found->nanoseconds;
    }
    std::printf(" %10.2f\n", proved.nanoseconds / yardstick);
}

} // namespace

void print_tables(const Results &results) {
    print_table_head();
    for (const Cell &cell : results.cells) {
        if (cell.engine == "proved") print_row(results, cell);
    }
    std::printf("\nmemory in bytes\n");
    for (const Memory &memory : results.memory) {
        std::printf("%-12s %-10s d %2u T %3u G %3u %10zu\n", memory.engine.c_str(), name_of(memory.kind).c_str(), memory.shape.values,
                    memory.shape.threshold, memory.shape.spacing, memory.bytes);
    }
    std::printf("\nwords opened by value\n");
    for (const Opened &opened : results.opened) {
        std::printf("%-10s d %2u T %3u G %3u: mean %.1f, largest %lu, bound %lu\n", name_of(opened.kind).c_str(), opened.shape.values,
                    opened.shape.threshold, opened.shape.spacing, opened.mean, opened.largest, opened.bound);
    }
    std::printf("\n");
}

void print_goals(const Results &results) {
    for (const Goal &goal : goals) print_goal(results, goal);
    const Ratio slowest = largest_of(ratios_of(results, Operation::update, "proved", "version one"));
    std::printf("goal: update at least 3 times faster than version one on every column: %s; the least is %.1f times (%s)\n",
                verdict(slowest.times, 1 / 3.0).c_str(), 1 / slowest.times, slowest.place.c_str());
    for (const Operation operation : {Operation::load, Operation::pack, Operation::unpack}) {
        const double mean = geometric_mean(ratios_of(results, operation, "proved", "roaring"));
        std::printf("goal: %s faster than CRoaring in the mean: %s; it takes %.2f of its time\n", name_of(operation).c_str(),
                    verdict(mean, 1).c_str(), mean);
    }
}

void write_results(const Results &results, const char *path) {
    FILE *file = std::fopen(path, "w");
    demand(file != nullptr, "the file of results cannot be written");
    for (const Cell &cell : results.cells) {
        std::fprintf(file, "time\t%s\t%s\t%u\t%u\t%u\t%s\t%.1f\n", name_of(cell.operation).c_str(), name_of(cell.kind).c_str(),
                     cell.shape.values, cell.shape.threshold, cell.shape.spacing, cell.engine.c_str(), cell.nanoseconds);
    }
    for (const Memory &memory : results.memory) {
        std::fprintf(file, "memory\t%s\t%u\t%u\t%u\t%s\t%zu\n", name_of(memory.kind).c_str(), memory.shape.values,
                     memory.shape.threshold, memory.shape.spacing, memory.engine.c_str(), memory.bytes);
    }
    for (const Opened &opened : results.opened) {
        std::fprintf(file, "opened\t%s\t%u\t%u\t%u\t%.1f\t%lu\t%lu\n", name_of(opened.kind).c_str(), opened.shape.values,
                     opened.shape.threshold, opened.shape.spacing, opened.mean, opened.largest, opened.bound);
    }
    demand(std::fclose(file) == 0, "the file of results cannot be written");
}
