#!/usr/bin/env bash
# What must be believed stands apart: which definitions of specs/ the calls and the theorems reach, and how many lines that is.
# docs/PROMISES.md has the number, README.md the way to every file, and inner definitions stand in specs/Inner.antt.
cd "$(dirname "$0")/.." || exit 2
python3 tests/believed.py
