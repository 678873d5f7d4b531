#!/usr/bin/env bash
# Prints the path of the static library of the upbit_* functions: UPBIT_LIB if it is set, else target/staticlib/libupbit.a
# of the repository, which is made if it is not there: `rt lib` proves and builds it, and it is copied.
set -eu
cd "$(dirname "$0")/.."

library=${UPBIT_LIB:-$PWD/target/staticlib/libupbit.a}
if [ -z "${UPBIT_LIB:-}" ] && [ ! -f "$library" ]; then
    (cd crates/upbit && rt lib) >&2
    mkdir -p "${library%/*}"
    cp crates/upbit/out/libupbit.a "$library"
fi
if [ ! -f "$library" ]; then
    echo "there is no static library at $library" >&2
    exit 1
fi
realpath "$library"
