#!/bin/sh
# The whole gate: layout, proofs with their must-fail edits and programs, then the tests. Every part closes with a line
# 'N passed, M failed'; the gate's own last line is their sum, and its exit status is 0 only where nothing failed.
set -u
cd "$(dirname "$0")/.." || exit 1
. tests/tools.sh

passed=0 failed=0
log=$(mktemp) || exit 1
trap 'rm -f "$log"' EXIT

# part TITLE COMMAND..: runs the command, shows what it writes, and adds the counts of the last line that has some. A part that exits with
# another status than 0, or counts nothing, has failed whatever it counted.
part() {
    say "$1"
    shift
    { "$@" 2>&1; echo "exit status $?"; } | tee "$log" | sed '/^exit status [0-9]*$/d'
    status=$(sed -n 's/^exit status //p' "$log" | tail -n 1)
    counts=$(sed -n 's/^\([0-9][0-9]*\) passed, \([0-9][0-9]*\) failed$/\1 \2/p' "$log" | tail -n 1)
    good=${counts% *} bad=${counts#* }
    passed=$((passed + ${good:-0})) failed=$((failed + ${bad:-0}))
    if [ "$status" != 0 ] || [ -z "$counts" ]; then
        [ "${bad:-0}" -gt 0 ] || failed=$((failed + 1))
        say "this part failed (exit status $status)"
    fi
}

# bad_edits: how many must-fail edits rt ci could not try. It passes all the same, though they show nothing.
bad_edits() {
    sed -n -e 's/^rt: ok.*, \([0-9][0-9]*\) bad.*/\1/p' \
        -e 's/^rt: note: bad must-fail edits, as told above: \([0-9][0-9]*\).*/\1/p' "$log" | tail -n 1
}

need_rt
need awk mawk
say "$(rt version) on $(uname -m)"
part "every file laid out, every crate proved, every must-fail edit refused, every program's output compared" rt ci
bad=$(bad_edits)
if [ "${bad:-0}" -gt 0 ]; then
    failed=$((failed + bad))
    say "this part failed: of its must-fail edits $bad are bad, and show nothing"
fi
part "every public function states its result and asks nothing of its caller" sh tests/contracts.sh
part "a quantity in the place of another is refused" sh tests/mixed_units.sh
part "the library answers a caller in C, and touches no byte that it should not" sh tests/c_interface.sh

echo "$passed passed, $failed failed"
[ "$failed" -eq 0 ] && [ "$passed" -gt 0 ]
