#!/usr/bin/env bash
# The benchmark, one command: bench/run.sh measures everything and writes docs/bench.svg and the measured part of
# docs/BENCH.md; `bench/run.sh quick` measures T = 16, G = 64 alone, prints, and leaves docs/ as it is.
cd "$(dirname "$0")/.." || exit 2
case "${1:-}" in '' | quick) ;; *) echo "usage: bench/run.sh [quick]" >&2 && exit 2 ;; esac
# shellcheck source=bench/build.sh
source bench/build.sh

began=$(date +%s)
"$build/bench" "$build/results.tsv" ${1:+"$1"} | tee "$build/printed.txt"
echo "the run took $(($(date +%s) - began)) s"
if [ "${1:-}" = quick ]; then
    exit
fi
python3 bench/report.py "$build" docs "${flags[*]}"
