#!/usr/bin/env bash
# Tests walkgen: writes the walks of the small crate in test/, has them proved, sees that a walk with a wrong term is
# refused, and that `walkgen check` tells walks that are as generated from those that are not. Needs rt and python3;
# takes about two minutes.
set -u
here=$(cd "$(dirname "$0")" && pwd)
folder=$(mktemp -d)
trap 'rm -rf "$folder"' EXIT
cd "$folder" || exit 1
proofs=crates/shelf/proofs
library=crates/mir_walks/proofs

fail() {
    echo "walkgen: $*"
    exit 1
}

walkgen() {
    python3 "$here" "$@" >said 2>&1
}

# Proves shelf and the library below it.
proved() {
    (cd crates/shelf && rt check) >log 2>&1
}

# `walkgen check` of a crate, over the MIR that a check of shelf wrote.
compared() { # CRATE
    if [ "$1" = crates/mir_walks ]; then
        walkgen check "$1"
    else
        walkgen check "$1" --generated generated
    fi
}

# Whether `walkgen check` of the crate of FILE finds one difference, in FILE.
told() { # FILE
    compared "${1%%/proofs/*}"
    [ $? -eq 1 ] || fail "a change of $1 is not told"
    if [ "$(wc -l <said)" -ne 1 ] || ! grep -q "^$1:" said; then
        fail "a change of $1 is told as: $(cat said)"
    fi
}

# Changes FILE by a command of sed, sees that this is told, and puts the file back.
changed() { # FILE COMMAND
    cp "$1" kept
    sed -i "$2" "$1"
    ! cmp -s "$1" kept || fail "$2 changes nothing in $1"
    told "$1"
    mv kept "$1"
}

# The files that are read, without what rt keeps in out/.
files() {
    find crates -name out -prune -o -type f -print0 | sort -z | xargs -0 sha256sum
}

# The crate, with its files by the names that they have in a crate, and the one for the library.
mkdir -p crates/shelf crates/mir_walks/src
{
    echo "// The steps of walks."
    echo "#![tactic(auto)]"
} >crates/mir_walks/src/lib.rt
cp -r "$here"/test/* crates/shelf
find crates -name '*.*.txt' | while IFS= read -r file; do mv "$file" "${file%.txt}"; done
printf 'mir_walks:\nshelf: mir_walks\n' >crates.txt

# The walks are written and proved, and stand in the layout of rt fmt.
walkgen lib crates/mir_walks || fail "lib: $(cat said)"
walkgen thin crates/shelf mark_at at || fail "thin read: $(cat said)"
walkgen thin crates/shelf put_mark put || fail "thin write: $(cat said)"
walkgen walk crates/shelf || fail "walk: $(cat said)"
[ ! -s said ] || fail "walk: $(cat said)"
walkgen lib crates/mir_walks || fail "lib: $(cat said)"
proved || fail "not proved: $(grep -v note: log | cut -c1-300 | head -n 20)"
grep -q '^logic=proved functions=7 ' log || fail "not proved: $(tail -n 5 log)"
files >before
for crate in crates/*/; do (cd "$crate" && rt fmt) >log 2>&1 || fail "rt fmt: $(cat log)"; done
files >after
cmp -s before after || fail "not in the layout of rt fmt: $(diff before after)"

# It is the walk that is proved: with a wrong term for its last step it is refused.
walk=$proofs/marks/clear/walk.txt
cp "$walk" kept
sed -i 's/^exit.1 .*/exit.1     = inv/' "$walk"
walkgen walk crates/shelf clear || fail "walk: $(cat said)"
! proved || fail "a walk with a wrong term is proved"
grep -q '^\./proofs/marks/clear/Proof\.antt:.*: error: `walk`' log || fail "a wrong term is refused as: $(head -n 20 log)"
grep -q '^fn shelf::marks::clear: not proved$' log || fail "a wrong term is refused as: $(head -n 20 log)"
mv kept "$walk"
walkgen walk crates/shelf clear || fail "walk: $(cat said)"
[ ! -s said ] || fail "walk: $(cat said)"
files | cmp -s before - || fail "a walk that is written again differs"

# They are as generated; a changed line is told, of a walk, a thin function or the library, and a file that is not there.
walkgen check crates/shelf || fail "check: $(cat said)"
[ "$(cat said)" = "5 walks as generated" ] || fail "check says: $(cat said)"
(cd crates/shelf && rt check --generated ../../generated) >log 2>&1
compared crates/shelf || fail "check: $(cat said)"
[ "$(cat said)" = "5 walks as generated" ] || fail "check of what rt wrote says: $(cat said)"
compared crates/mir_walks || fail "check of the library: $(cat said)"
changed "$proofs/marks/clear/Proof.antt" '2s/nothing/something/'
changed "$proofs/marks/put_mark/Proof.antt" '2s/nothing/something/'
changed "$library/Calls.antt" '2s/$/ more/'
changed "$library/Front.antt" '2s/$/ more/'
changed "$library/Lib.antt" '/pub mod Flow/d'
rm "$proofs/restart/Proof.antt"
told "$proofs/restart/Proof.antt"

# A shape of calls that the library is to keep is wanted, though no walk has it.
echo calls_mut_mut >crates/mir_walks/shapes.txt
told "$library/Calls.antt"

echo "walkgen: 5 walks written, proved, and told from changed ones"
