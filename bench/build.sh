# Sourced by run.sh and callgrind.sh, from the repository's root: what is missing is installed, the library and the two
# programs are built in target/bench.
# shellcheck shell=bash
set -euo pipefail

# The flags of all engines: no -march, so that they may use what every x86-64 has, as the proved library does.
flags=(-std=c++17 -O3 -g -Wall -Wextra -pedantic)

need() { # COMMAND-OR-FILE PACKAGE
    command -v "$1" >/dev/null || [ -e "$1" ] || { apt-get update -q && apt-get install -y -q "$2"; } >&2
}

need g++ g++
need python3 python3
need /usr/include/roaring/roaring.h libroaring-dev

library=$(bash tools/staticlib.sh)
build=target/bench
mkdir -p "$build"
shared=()
for source in bench/*.cpp; do
    name=$(basename "$source" .cpp)
    g++ "${flags[@]}" -Iinclude -c "$source" -o "$build/$name.o"
    case $name in main | one) ;; *) shared+=("$build/$name.o") ;; esac
done
g++ "$build/main.o" "${shared[@]}" "$library" -lroaring -o "$build/bench"
g++ "$build/one.o" "${shared[@]}" "$library" -lroaring -o "$build/one"
