#!/usr/bin/env bash
# Instructions a call of one operation, proved and yardstick, at T = 16 and G = 64, counted by valgrind's callgrind: the
# counts are the same at each run. Then the functions that take the most of them.
#     bench/callgrind.sh OPERATION [COLUMN [VALUES]]
# OPERATION as the benchmark's table names it; COLUMN uniform (else "zipf 1.2", clustered); VALUES 16.
cd "$(dirname "$0")/.." || exit 2
[ $# -ge 1 ] || { sed -n '2,5p' bench/callgrind.sh >&2 && exit 2; }
# shellcheck source=bench/build.sh
source bench/build.sh
need valgrind valgrind

for engine in proved yardstick; do
    counts=$build/callgrind.$engine
    said=$(valgrind --tool=callgrind --callgrind-out-file="$counts" --toggle-collect=counted_calls \
        "$build/one" "$engine" "$1" "${2:-uniform}" "${3:-16}" 2>"$counts.log")
    calls=${said%% *}
    sum=$(sed -n 's/^.*Collected : \([0-9]*\).*$/\1/p' "$counts.log")
    echo "$engine: $((sum / calls)) instructions a call ($calls calls of $1)"
    callgrind_annotate --auto=no "$counts" | grep -E '^ *[0-9,]+ \( *[0-9.]+%\) ' | grep -v 'PROGRAM TOTALS' | sed -n '1,10p'
done
