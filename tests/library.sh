#!/bin/sh
# Proves the library for callers in C, and writes it to where they look for it.
set -u
cd "$(dirname "$0")/.." || exit 1
. tests/tools.sh
need_rt

say "proving mizhgavul_c and the crates below it; what is unchanged is not proved again"
make_library || exit 1
say "written to $library"
