# make test     the whole gate; its last line is 'N passed, 0 failed'
# make run      proves the crates and runs the programs among them
# make library  proves the library for callers in C and writes target/staticlib/libmizhgavul.a
# make bench    times the library beside plain C and the paper's algorithm
# make stats    proves every crate alone and writes docs/STATS.md
.PHONY: test run library bench stats

test:
	@sh tests/gate.sh

run:
	@sh tests/run.sh

library:
	@sh tests/library.sh

bench:
	@sh bench/bench.sh

stats:
	@sh tests/stats.sh
