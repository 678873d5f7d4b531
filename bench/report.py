"""Writes docs/bench.svg and the measured part of docs/BENCH.md from the results of one run.

report.py BUILD DOCS FLAGS: BUILD has results.tsv and printed.txt, DOCS has BENCH.md with the two markers.
"""

import collections
import datetime
import math
import pathlib
import re
import subprocess
import sys

BEGIN = "<!-- measured: begin -->"
END = "<!-- measured: end -->"
ENGINES = ["proved", "yardstick", "version one", "bitsets", "roaring"]
COLOURS = ["#1b6ca8", "#8ab6d6", "#c9a227", "#9a9a9a", "#b0413e"]

Time = collections.namedtuple("Time", "operation column values threshold spacing engine nanoseconds")


def read_times(lines):
    """The measured times, in the order of the run."""
    return [Time(*fields[1:7], float(fields[7])) for fields in lines if fields[0] == "time"]


def geometric_mean(numbers):
    return math.exp(sum(map(math.log, numbers)) / len(numbers))


def at_goal_shape(times):
    return [time for time in times if time.threshold == "16" and time.spacing == "64"]


def means(times):
    """For each operation and engine the geometric mean over the columns and d, at T = 16 and G = 64."""
    cells = collections.defaultdict(list)
    for time in at_goal_shape(times):
        cells[time.operation, time.engine].append(time.nanoseconds)
    return {key: geometric_mean(numbers) for key, numbers in cells.items()}


def human(nanoseconds):
    for unit, size in (("ms", 1e6), ("µs", 1e3)):
        if nanoseconds >= size:
            return f"{nanoseconds / size:.3g} {unit}"
    return f"{nanoseconds:.3g} ns"


def table(head, rows):
    lines = [head, ["---"] * len(head)] + rows
    return "\n".join("| " + " | ".join(map(str, line)) + " |" for line in lines)


def mean_table(times):
    mean = means(times)
    rows = []
    for operation in dict.fromkeys(time.operation for time in times):
        row = [operation]
        row += [human(mean[operation, engine]) if (operation, engine) in mean else "has none" for engine in ENGINES]
        row.append(f"{mean[operation, 'proved'] / mean[operation, 'yardstick']:.2f}")
        rows.append(row)
    return table(["operation"] + ENGINES + ["proved / yardstick"], rows)


def cell_table(times):
    """All cells of the two engines with T and G, the ratio alone: a row for each (T, G, d, column)."""
    operations = list(dict.fromkeys(time.operation for time in times))
    cells = collections.defaultdict(dict)
    for time in times:
        place = (time.threshold, time.spacing, time.values, time.column)
        cells[place][time.operation, time.engine] = time.nanoseconds
    rows = []
    for place, found in sorted(cells.items(), key=lambda item: [*map(int, item[0][:3]), item[0][3]]):
        ratios = [
            f"{found[operation, 'proved'] / found[operation, 'yardstick']:.2f}" if (operation, "proved") in found else ""
            for operation in operations
        ]
        rows.append([*place, *ratios])
    return table(["T", "G", "d", "column"] + operations, rows)


def memory_table(lines):
    found = collections.defaultdict(dict)
    for _, column, values, threshold, spacing, engine, size in (line for line in lines if line[0] == "memory"):
        found[column, values, threshold, spacing][engine] = f"{int(size):,}"
    rows = [[*place, *(sizes.get(engine, "") for engine in ENGINES)] for place, sizes in found.items()]
    return table(["column", "d", "T", "G"] + ENGINES, rows)


def opened_table(lines):
    return table(["column", "d", "T", "G", "mean", "largest", "bound"], [line[1:] for line in lines if line[0] == "opened"])


def first_line(*command):
    return subprocess.run(command, capture_output=True, text=True, check=True).stdout.splitlines()[0]


def machine(flags):
    cpu = pathlib.Path("/proc/cpuinfo").read_text()
    model = re.search(r"model name\s*: (.*)", cpu).group(1)
    header = pathlib.Path("/usr/include/roaring/roaring_version.h").read_text()
    roaring = ".".join(re.findall(r"ROARING_VERSION_\w+ = (\d+)", header))
    return "\n".join(
        [
            f"- Date: {datetime.date.today().isoformat()}",
            f"- Machine: {model}, {cpu.count('processor' + chr(9))} cores",
            f"- Engines in C++: {first_line('g++', '--version')}, `{flags}`",
            f"- Proved: {first_line('rt', 'version')}",
            f"- CRoaring {roaring} of Debian's libroaring-dev",
        ]
    )


def chart(times):
    """A bar for each operation and engine: the geometric mean in multiples of the proved index, on a logarithmic scale."""
    mean = means(times)
    operations = list(dict.fromkeys(time.operation for time in times))
    low, high, left, width, row = 0.0001, 100.0, 190, 640, 78

    def across(ratio):
        clamped = min(max(ratio, low), high)
        return left + width * math.log(clamped / low) / math.log(high / low)

    parts = []
    for tick in (0.0001, 0.001, 0.01, 0.1, 1, 10, 100):
        parts.append(f'<line x1="{across(tick):.1f}" y1="40" x2="{across(tick):.1f}" y2="{50 + row * len(operations)}" stroke="#ddd"/>')
        parts.append(f'<text x="{across(tick):.1f}" y="34" text-anchor="middle">{tick:g}</text>')
    for place, operation in enumerate(operations):
        top = 50 + row * place
        parts.append(f'<text x="{left - 10}" y="{top + 36}" text-anchor="end">{operation}</text>')
        for slot, engine in enumerate(ENGINES):
            if (operation, engine) in mean:
                parts += bar(across, mean[operation, engine] / mean[operation, "proved"], mean[operation, engine], top + 14 * slot, slot)
    for slot, engine in enumerate(ENGINES):
        parts.append(f'<rect x="{20 + 130 * slot}" y="6" width="10" height="10" fill="{COLOURS[slot]}"/>')
        parts.append(f'<text x="{35 + 130 * slot}" y="15">{engine}</text>')
    height = 70 + row * len(operations)
    return (
        f'<svg xmlns="http://www.w3.org/2000/svg" width="{left + width + 110}" height="{height}" '
        'font-family="sans-serif" font-size="12">'
        f'<rect width="100%" height="100%" fill="white"/>{"".join(parts)}'
        f'<text x="{left}" y="{height - 6}">time a call in multiples of the proved index: '
        "geometric mean over columns and d, T = 16, G = 64</text></svg>\n"
    )


def bar(across, ratio, nanoseconds, top, slot):
    start, end = sorted((across(1), across(ratio)))
    return [
        f'<rect x="{start:.1f}" y="{top}" width="{max(end - start, 2):.1f}" height="12" fill="{COLOURS[slot]}"/>',
        f'<text x="{end + 4:.1f}" y="{top + 10}" font-size="10">{human(nanoseconds)}</text>',
    ]


def measured_part(lines, times, printed, flags):
    goals = [line for line in printed.splitlines() if line.startswith("goal:")]
    return "\n\n".join(
        [
            machine(flags),
            "Geometric means over the columns and d, at T = 16 and G = 64:",
            mean_table(times),
            "Goals:",
            "```\n" + "\n".join(goals) + "\n```",
            "Proved in multiples of the yardstick, every cell:",
            cell_table(times),
            "Memory in bytes after 1,000 updates:",
            memory_table(lines),
            "Words that Value opened, over 4,096 random rows after 1,000 updates:",
            opened_table(lines),
        ]
    )


def main():
    build, docs, flags = pathlib.Path(sys.argv[1]), pathlib.Path(sys.argv[2]), sys.argv[3]
    lines = [line.split("\t") for line in (build / "results.tsv").read_text().splitlines()]
    times = read_times(lines)
    document = docs / "BENCH.md"
    before, rest = document.read_text().split(BEGIN)
    after = rest.split(END)[1]
    part = measured_part(lines, times, (build / "printed.txt").read_text(), flags)
    document.write_text(f"{before}{BEGIN}\n{part}\n{END}{after}")
    (docs / "bench.svg").write_text(chart(times))


main()
