#!/usr/bin/env bash
# The independent second program (tests/second, in Rust, written from document 01 alone) has its own tests, and then
# compares the console and the printing program with its model: random histories and frames.
exec bash "$(dirname "$0")/second/run.sh"
