#!/usr/bin/env bash
# Builds the second program, runs its own tests (document 01's numbers, and that each wrong console is
# noticed), then compares it with target/bin/desk and target/bin/print: two fixed seeds and a fresh one,
# which is printed. Options are given to each comparison, as `--self` or `--jobs 1`.
set -eu
cd "$(dirname "$0")/../.."

bash tools/programs.sh
cargo=(--release --offline --quiet --manifest-path tests/second/Cargo.toml --target-dir target/second)
cargo build "${cargo[@]}"
cargo test "${cargo[@]}"

for seed in 1 2 "$(date +%s%N)"; do
    target/second/release/second --seed "$seed" --histories 1000 --frames 250 "$@"
done
