#!/usr/bin/env bash
# The C side: examples/c/loans.c prints what is expected and tests/c/numbers.c finds no fault, both under the sanitizers of
# gcc and, where valgrind is installed, under valgrind too; and include/upbit.h is a C++ header.
set -eu
cd "$(dirname "$0")/.."

for compiler in gcc g++; do
    command -v "$compiler" >/dev/null || { apt-get update -q && apt-get install -y -q "$compiler"; } >&2
done

library=$(bash tools/staticlib.sh)
built=target/c
mkdir -p "$built"
strict=(-Wall -Wextra -Werror -pedantic -Iinclude)

# Builds a program twice: with the sanitizers, and for valgrind.
build() { # NAME SOURCE
    gcc -std=c11 "${strict[@]}" -g -fsanitize=address,undefined -fno-sanitize-recover=all "$2" "$library" -o "$built/$1.sanitized"
    gcc -std=c11 "${strict[@]}" -g "$2" "$library" -o "$built/$1.plain"
}

# Runs both programs under a command, and compares what the example prints.
run() { # BUILD COMMAND..
    local kind=$1
    shift
    "$@" "$built/loans.$kind" >"$built/loans.output"
    diff examples/c/loans.expected "$built/loans.output"
    "$@" "$built/numbers.$kind"
}

g++ -std=c++17 "${strict[@]}" -fsyntax-only -x c++ include/upbit.h
build loans examples/c/loans.c
build numbers tests/c/numbers.c
run sanitized env
checked_by="gcc's address and undefined sanitizers"
if command -v valgrind >/dev/null; then
    run plain valgrind --quiet --error-exitcode=9 --leak-check=full
    checked_by="$checked_by and valgrind"
fi
echo "loans.c, numbers.c and the header as C++: as expected, no finding by $checked_by"
