#!/bin/sh
# Proves every crate from nothing, one after another, and writes docs/STATS.md: how much each crate holds and how long its check takes.
set -u
cd "$(dirname "$0")/.." || exit 1
. tests/tools.sh
need_rt
need awk mawk

log=$(mktemp) && rows=$(mktemp) || exit 1
trap 'rm -f "$log" "$rows"' EXIT

# lines FOLDER: its lines that are neither empty nor a comment alone; 0 where the crate has no such folder
lines() { find "$1" -type f -exec cat {} + 2>/dev/null | grep -cvE '^[[:space:]]*(//.*|--.*)?$'; }

# functions CRATE, seconds CRATE: what the log has of a crate between its head and the next: how many functions were proved, and how long
# after the head before it this one was written, which is when the crate was done
functions() {
    sed -n "/^[0-9]* == $1\$/,/^[0-9]* == /s/^[0-9]* logic=proved functions=\([0-9]*\) .*/\1/p" "$log"
}

seconds() {
    awk -v head="== $1" '{ at = $1; sub(/^[0-9]* /, "") }
        NR == 1 { before = at }
        $0 == head { print at - before }
        /^== / { before = at }' "$log"
}

edits() { find "crates/$1/must-fail" -name '*.edit' 2>/dev/null | wc -l; }

# timed COMMAND..: what the command writes, each line with the second that it came in, and its exit status at the end
timed() {
    { echo begun; "$@" 2>&1; echo "exit status $?"; } | while IFS= read -r line; do echo "$(date +%s) $line"; done
}

crates=$(crate_names)
say "proving" $crates "from nothing, one after another"
timed rt all verdict --jobs 1 >"$log"
if ! grep -q '^[0-9]* exit status 0$' "$log"; then
    sed 's/^[0-9]* //' "$log"
    say "not everything is proved, so nothing is written"
    exit 1
fi

for crate in $crates; do
    echo "$crate $(lines "crates/$crate/src") $(lines "crates/$crate/specs") $(lines "crates/$crate/proofs")" \
        "$(functions "$crate") $(seconds "$crate") $(edits "$crate")"
done >"$rows"
if ! awk 'NF != 7 { bad = 1 } END { exit bad }' "$rows"; then
    cat "$rows"
    say "a figure is missing, so nothing is written"
    exit 1
fi

{
    echo "# What each crate holds"
    echo
    echo "Written by \`make stats\`: $(rt version), on $(uname -m), crates checked one after another."
    echo "Lines are those that are neither empty nor a comment alone; contracts stand in the code, and count as code. Seconds are those of"
    echo "one check from nothing, by one process. Edits are the must-fail edits, each of which costs the gate one more check."
    echo
    echo "| crate | code | specs | proofs | functions | check, s | edits |"
    echo "|---|---:|---:|---:|---:|---:|---:|"
    awk '{ row($1, $2, $3, $4, $5, $6, $7); for (k = 2; k <= 7; k++) sum[k] += $k }
         END { row("all", sum[2], sum[3], sum[4], sum[5], sum[6], sum[7]) }
         function row(name, code, specs, proofs, functions, seconds, edits) {
             print "| " name " | " code " | " specs " | " proofs " | " functions " | " seconds " | " edits " |"
         }' "$rows"
} >docs/STATS.md
cat docs/STATS.md
say "written to docs/STATS.md"
