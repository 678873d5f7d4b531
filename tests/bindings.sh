#!/usr/bin/env bash
# The Rust crate of bindings/rust: its unit tests, its tests through the static library, and the examples of its
# documentation. The last line counts them.
set -eu
cd "$(dirname "$0")/.."

UPBIT_LIB=$(bash tools/staticlib.sh)
export UPBIT_LIB
mkdir -p target/bindings
log=target/bindings/test.log
status=0
cargo test --offline --locked --manifest-path bindings/rust/Cargo.toml --target-dir target/bindings >"$log" 2>&1 || status=$?
if [ "$status" -ne 0 ]; then
    cat "$log"
    echo "bindings/rust: FAILED"
    exit "$status"
fi
awk '/^test result: ok/ { passed += $4 } END { print "bindings/rust: " passed " tests passed"; exit passed == 0 }' "$log"
