#!/usr/bin/env bash
# Fuzzes the static library: fuzz/run.sh [COUNT], a million inputs where no count is given. It is outside the gate. The last
# line says what was seen. An input that breaks a rule is kept in target/fuzz and named in the output.
set -eu
cd "$(dirname "$0")/.."

count=${1:-1000000}
command -v clang++ >/dev/null || { apt-get update -q && apt-get install -y -q clang libclang-rt-dev; } >&2

library=$(bash tools/staticlib.sh)
built=target/fuzz
mkdir -p "$built"
clang++ -std=c++17 -Wall -Wextra -Werror -pedantic -g -O2 -fsanitize=fuzzer,address,undefined -fno-sanitize-recover=all \
    -fno-sanitize-coverage=trace-cmp -Iinclude fuzz/target.cpp fuzz/subject.cpp "$library" -o "$built/target"

began=$(date +%s)
status=0
"$built/target" -runs="$count" -timeout=5 -max_len=512 -len_control=0 -verbosity=0 -print_final_stats=1 \
    -artifact_prefix="$built/" || status=$?
took=$(($(date +%s) - began))

echo "Coverage says nothing of the library, which is not instrumented: libFuzzer sees the target alone."
if [ "$status" -ne 0 ]; then
    echo "fuzz: a rule was BROKEN, a call did not end or the target failed (see above), after $took s"
    exit "$status"
fi
echo "fuzz: $count inputs in $took s; no rule broken, no fault, no input above 5 s"
