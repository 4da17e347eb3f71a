#!/bin/sh
# Each edit of mixed-units/ puts a quantity where another is expected, in a copy of the crates. The compiler has to refuse the types in
# the file that was edited; a must-fail edit of a crate can't show this, because it never reaches the prover. The file is read with the
# program `cases`, which stands on every crate that these edits name.
set -u
cd "$(dirname "$0")/.." || exit 1
. tests/tools.sh
need_rt
need awk mawk
passed=0 failed=0
copy=$(mktemp -d) || exit 1
trap 'rm -rf "$copy"' EXIT
# out/ has what was proved; to read types nothing of it is needed
tar -cf - --exclude='crates/*/out' crates crates.txt | tar -xf - -C "$copy" || exit 1

for edit in tests/mixed-units/*.edit; do
    crate=$(sed -n 's/^crate: //p' "$edit")
    file=crates/$crate/$(sed -n 's/^file: //p' "$edit")
    OLD=$(sed -n 's/^old: //p' "$edit") NEW=$(sed -n 's/^new: //p' "$edit") awk '
        { at = index($0, ENVIRON["OLD"]) }
        at { hits++; $0 = substr($0, 1, at - 1) ENVIRON["NEW"] substr($0, at + length(ENVIRON["OLD"])) }
        { print }
        END { exit hits != 1 }' "$file" >"$copy/$file"
    found=$?
    said=$(cd "$copy/crates/cases" && rt try 2>&1 | grep -F "/$file:" | grep -F 'error[mismatched-types]')
    cp "$file" "$copy/$file"
    if [ "$found" -eq 0 ] && [ -n "$said" ]; then
        passed=$((passed + 1))
        echo "$(basename "$edit" .edit): $(printf '%s\n' "$said" | sed -n 's/.*error\[mismatched-types\]: //p' | head -n 1)"
    else
        failed=$((failed + 1))
        echo "$edit: not refused, or its old line is not there exactly once"
    fi
done
echo "$passed passed, $failed failed"
[ "$failed" -eq 0 ] && [ "$passed" -gt 0 ]
