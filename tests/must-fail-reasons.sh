#!/usr/bin/env bash
# Each must-fail edit is refused because a fact no longer holds: not because it does not parse, and not because
# the proof file no longer fits the code's shape (a goal, a field or a place to rewrite that is not there). Reads what
# `rt ci` said of each edit, in the file where .ci/run keeps it, or in the one that is named.
set -u
cd "$(dirname "$0")/.." || exit 2
log=${1:-target/rt-ci.log}
bad=0
edits=0
for edit in crates/*/must-fail/*.edit; do
    [ -e "$edit" ] || continue
    edits=$((edits + 1))
    crate=$(basename "$(dirname "$(dirname "$edit")")")
    said=$(grep -F "must-fail $crate/$(basename "$edit"): " "$log" 2>/dev/null | tail -n 1)
    case $said in
    '') echo "$edit: was not tried ($log says nothing of it)"; bad=1 ;;
    *'has no `'* | *'has no field'* | *'not in scope'* | *'no occurrence of'* | *'error['*) echo "$edit: refused for its shape: ${said:0:300}"; bad=1 ;;
    *': refused, as it must be: '*) ;;
    *) echo "$edit: not refused for a fact: ${said:0:300}"; bad=1 ;;
    esac
done
echo "$edits must-fail edits read"
[ "$edits" -gt 0 ] && [ "$bad" -eq 0 ]
