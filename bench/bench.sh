#!/bin/sh
# Builds the library and the two baselines, says with what, and runs bench.c: a table of times. Where valgrind can be had, a table of
# executed instructions follows, which are the same in every run.
set -u
cd "$(dirname "$0")/.." || exit 1
. tests/tools.sh
need_rt
need_cc
room=$(mktemp -d) || exit 1
trap 'rm -rf "$room"' EXIT

make_library || exit 1

# linked FILE FLAG..: the benchmark, with its own code and the baselines compiled by these flags
linked() {
    program=$1
    shift
    for file in plain algorithm3 bench; do
        $cc -std=c11 -Wall -Wextra -Werror "$@" -Iinclude -c "bench/$file.c" -o "$room/$file.o" || exit 1
    done
    $cc "$room/plain.o" "$room/algorithm3.o" "$room/bench.o" "$library" -o "$program" || exit 1
}

flags="-O3 -march=native"
linked "$room/bench" $flags
say "machine: $(uname -m), $(sed -n 's/^model name[^:]*: *//p' /proc/cpuinfo | sed -n 1p)"
say "planner: $(rt version), rt lib --cpu x86-64"
say "baselines: $($cc --version | sed -n 1p), $flags"
"$room/bench" || exit 1

if ! { command -v valgrind || add valgrind; } >/dev/null 2>&1; then
    say "valgrind can't be had on this machine, so no instructions are counted"
    exit 0
fi

# Two things are otherwise than where times are taken. valgrind may not know the newest instructions of the processor, so the baselines keep
# to those of every x86-64. And it counts `rep stosb` once for each byte, so the C library is told to clear memory by other means.
flags="-O3"
linked "$room/counted" $flags
tunables=glibc.cpu.x86_rep_stosb_threshold=1000000000
counter="valgrind --tool=cachegrind --cache-sim=no --cachegrind-out-file=/dev/null"

# executed ROW PLANNER TIMES: how many instructions the whole program executes; 0 where none are counted
executed() {
    GLIBC_TUNABLES=$tunables $counter "$room/counted" "$@" 2>&1 | sed -n 's/^.* I *refs: *//p' | tr -d , | grep '[0-9]' || echo 0
}

# a_plan ROW PLANNER: the instructions of one plan more, when the program's functions have been found
a_plan() { echo $(($(executed "$1" "$2" 2) - $(executed "$1" "$2" 1))); }

# over A B: A over B, rounded to two decimals
over() {
    hundredths=$((($1 * 200 + $2) / ($2 * 2)))
    printf '%d.%02d' $((hundredths / 100)) $((hundredths % 100))
}

# goal A B WORD..: says whether A is at most B, which is what the words say
goal() {
    met=missed
    [ "$1" -gt "$2" ] || met=met
    shift 2
    echo "goal $met: $*"
}

form='%-34s %12s %12s %14s %14s %20s\n'
echo
say "counted by $(valgrind --version); baselines: $flags"
printf "$form" "instructions a plan" planner "plain C" "Algorithm 3" planner/plain "Algorithm 3/planner"
"$room/counted" names >"$room/names" || exit 1
row=0 above=0
while read -r name; do
    row=$((row + 1))
    planner=$(a_plan $row planner) plain=$(a_plan $row plain) paper=$(a_plan $row algorithm3)
    if [ "$planner" -le 0 ] || [ "$plain" -le 0 ]; then
        say "this valgrind counts no instructions"
        exit 1
    fi
    printf "$form" "$name" "$planner" "$plain" "$paper" "$(over "$planner" "$plain")" "$(over "$paper" "$planner")"
    [ $((2 * planner)) -le $((3 * plain)) ] || above=$((above + 1))
    [ $row -ne 1 ] || full_planner=$planner full_plain=$plain full_paper=$paper
done <"$room/names"
goal $((2 * full_planner)) $((3 * full_plain)) "on the full 8 x 8 the planner takes at most 1.5 times the instructions of plain C"
goal $above 0 "so it does in every row"
[ $above -eq 0 ] || echo "             in $above of $row it does not"
goal $((20 * full_planner)) "$full_paper" "on the full 8 x 8 the planner takes at most a twentieth of the instructions of Algorithm 3"
