#!/usr/bin/env bash
# docs/PROMISES.md cites what is there: each `crate/path.antt:name` or `crate/path.rt:name` names a file that has
# the name, each `crate/must-fail/x.edit` a file; and every must-fail edit is cited.
set -u
cd "$(dirname "$0")/.." || exit 2
bad=0
cited=0
while IFS= read -r citation; do
    cited=$((cited + 1))
    file=crates/${citation%%:*}
    if [ ! -f "$file" ]; then
        echo "docs/PROMISES.md cites $citation: no such file"
        bad=1
    elif [ "$citation" != "${citation#*:}" ] && ! grep -qwF -- "${citation#*:}" "$file"; then
        echo "docs/PROMISES.md cites $citation: the file has no such name"
        bad=1
    fi
done < <(grep -oE '`[a-z_]+/(src|specs|proofs|must-fail)/[A-Za-z0-9_/]+\.(antt|rt|edit)(:[A-Za-z0-9_-]+)?`' docs/PROMISES.md | tr -d '`')
for edit in crates/*/must-fail/*.edit; do
    if ! grep -qF "${edit#crates/}" docs/PROMISES.md; then
        echo "docs/PROMISES.md does not cite $edit"
        bad=1
    fi
done
echo "$cited citations read"
[ "$cited" -gt 0 ] && [ "$bad" -eq 0 ]
