#!/usr/bin/env bash
# The generator of walks writes proofs that the checker accepts and sees where a committed walk is not its own; and
# the library of the steps of walks, and any walks that are committed here, are what it writes.
cd "$(dirname "$0")/.." || exit 2
bash tools/walkgen/test.sh || exit 1
for crate in mir_walks $(find crates -name walk.txt | cut -d/ -f2 | sort -u); do
    python3 tools/walkgen check "crates/$crate" || exit 1
done
