#!/bin/sh
# Proves the crates, then runs the programs among them.
set -u
cd "$(dirname "$0")/.." || exit 1
. tests/tools.sh
need_rt

say "proving" $(crate_names)
say "the planner takes about two minutes, the others up to one; what is unchanged is not proved again"
log=$(mktemp) || exit 1
trap 'rm -f "$log"' EXIT
{ rt all check 2>&1; echo "exit status $?"; } | tee "$log" | sed -n '/^== summary$/d; s/^== /checked /p; / crates ok$/p'
if ! grep -q '^exit status 0$' "$log"; then
    say "not proved; what the check said:"
    cat "$log"
    exit 1
fi
for program in crates/*/src/main.rt; do
    name=${program#crates/} name=${name%%/*}
    say "running $name"
    if ! (cd "crates/$name" && rt run 2>"$log"); then
        cat "$log"
        exit 1
    fi
done
