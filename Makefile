# make list     the sample book through the listing program
# make diff     the sample book and a later issue of it through the comparing program
# make test     every proof from nothing, every must-fail edit, every program, then the host-side tests
# make bench    the figures of docs/BENCHMARKS.md
# make fuzz     the library against the second implementation, a fresh seed, for FUZZ_SECONDS
# make library  the library for C, target/staticlib/libhodsplinter.a
# make hods     the command-line tool, host/target/release/hods, over the library for C
.PHONY: list diff test bench fuzz library hods

FUZZ_SECONDS ?= 600

list:
	@python3 tests/archive.py list >/dev/null
	@target/bin/list < samples/sample.chm

diff:
	@python3 tests/archive.py diff >/dev/null
	@target/bin/diff samples/sample.chm samples/later.chm

test:
	@tests/run

bench:
	@tests/bench

fuzz:
	@tests/host/differ --seed $$(od -An -N8 -tu8 /dev/urandom) --seconds $(FUZZ_SECONDS)

library:
	@python3 tests/archive.py hodsplinter

hods:
	@python3 tests/archive.py hodsplinter >/dev/null
	@cargo build --release --offline --locked --quiet --manifest-path host/Cargo.toml -p hods
	@echo host/target/release/hods
