#!/usr/bin/env bash
# Makes target/bin/desk and target/bin/print, the console and the printing program: `rt run` proves and builds each where
# something has changed, and runs it once, on an empty input; and it is copied. What rt says is printed where it fails.
set -eu
cd "$(dirname "$0")/.."

mkdir -p target/bin
for program in desk print; do
    log=$PWD/target/bin/$program.log
    (cd "crates/$program" && rt run </dev/null >"$log" 2>&1) || { cat "$log" && exit 1; }
    cp "crates/$program/out/$program" "target/bin/$program"
done
