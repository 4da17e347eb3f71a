#!/bin/sh
# Calls the library from C: the README's example, the board cases, a second planner beside it, and damaged jobs. Then the same tests have to
# find the faults of a spoiled library, and where the machine can they are watched by valgrind.
set -u
cd "$(dirname "$0")/.." || exit 1
. tests/tools.sh
need_rt
need_cc
passed=0 failed=0
room=$(mktemp -d) || exit 1
trap 'rm -rf "$room"' EXIT
if ! make_library; then
    echo "0 passed, 1 failed"
    exit 1
fi

# The tests' own arithmetic is watched too: what C leaves undefined ends the program.
watch="-fsanitize=undefined -fsanitize-undefined-trap-on-error"

pass() { passed=$((passed + 1)); }

# fail WORD..: counts a failure, and says of what
fail() {
    failed=$((failed + 1))
    say "failed: $*"
}

# parts NAME: the files of a test
parts() {
    echo "tests/$1.c tests/held.c"
    [ "$1" != hostile ] || echo bench/plain.c
}

# counted NAME LEVEL: builds and runs a test at a level of optimization, shows what it says, and adds its counts. A program that is not
# built, counts nothing or ends with another status than its counts say has failed.
counted() {
    program=$room/$1$2 said=$room/said
    : >"$said"
    built "$program" "$2" $watch $(parts "$1") && "$program" >"$said"
    status=$?
    counts=$(sed -n '$s/^\([0-9][0-9]*\) passed, \([0-9][0-9]*\) failed$/\1 \2/p' "$said")
    good=${counts% *} bad=${counts#* }
    sed '/^[0-9]* passed, [0-9]* failed$/d' "$said" | head -n 60
    echo "$1 at $2: ${good:-0} passed, ${bad:-0} failed (exit status $status)"
    passed=$((passed + ${good:-0})) failed=$((failed + ${bad:-0}))
    if [ -z "$counts" ] || { [ "$status" -ne 0 ] && [ "$bad" -eq 0 ]; }; then failed=$((failed + 1)); fi
}

# finds NAME JOBS FAULT..: with each fault the test, over so many random jobs, has to fail and to tell what is wrong
finds() {
    name=$1 jobs=$2 program=$room/$1-spoiled found=0
    shift 2
    built "$program" -O2 -Wl,--wrap=mizhgavul_plan $(parts "$name") tests/spoiled.c
    for SPOILED in "$@"; do
        export SPOILED
        if "$program" $jobs >"$room/said" || ! grep -q '^wrong: \|^memory was touched' "$room/said"; then
            fail "$name does not find the fault $SPOILED"
        else
            pass
            found=$((found + 1))
        fi
    done
    echo "$name found $found of $# faults"
}

# watched NAME JOBS: under valgrind, at the level that shows most
watched() {
    program=$room/$1-watched
    if built "$program" -O1 -g $(parts "$1") &&
        valgrind --quiet --error-exitcode=9 "$program" $2 >"$room/said" 2>&1; then
        pass
        echo "$1 ran under valgrind"
    else
        head -n 60 "$room/said"
        fail "$1 under valgrind"
    fi
}

say "the example"
if built "$room/first_plan" -O2 examples/first_plan.c && "$room/first_plan" >"$room/said" &&
    diff "$room/said" examples/first_plan.stdout; then
    pass
else
    fail "examples/first_plan.c prints what examples/first_plan.stdout has"
fi

say "answers, totals and bytes"
counted board_cases -O0
counted board_cases -O2
counted second_planner -O2
counted hostile -O2

say "faults of a spoiled library"
anywhere="total_higher equal_loads_exchanged inactive_level sorted_filling fewest_islands plan_byte_beyond level_byte_beyond
    byte_before_plan load_read_beyond frequency_read_before load_written refusal_total plan_first speed_before_order
    empty_list_refused empty_plan_refused"
damaged="islands_cut last_load_cut island_power_past"
finds board_cases "" $anywhere $damaged
finds second_planner 2000 $anywhere
finds hostile 2000 $anywhere $damaged

say "memory"
if { command -v valgrind || add valgrind; } >/dev/null 2>&1; then
    watched board_cases ""
    watched second_planner 500
    watched hostile 1000
else
    say "valgrind can't be had on this machine: closed pages around every list and buffer, and marked bytes, stand alone"
fi

echo "$passed passed, $failed failed"
[ "$failed" -eq 0 ] && [ "$passed" -gt 0 ]
