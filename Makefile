# What is built beside the crates. Everything proved goes through rt; see README.md.
CFLAGS ?= -O2 -Wall -Wextra -std=c11
SOURCES := crates.txt $(wildcard crates/*/src/*.rt crates/*/src/*/*.rt crates/*/specs/*.antt crates/*/specs/*/*.antt)

.PHONY: programs staticlib host reference differential speed test clean

# the programs, as README.md calls them: target/bin/bench and target/bin/marks
programs:
	bash tools/program.sh bench help
	bash tools/program.sh marks

# the static library for C programs, with include/verdict.h
staticlib: target/staticlib/libverdict.a

# lib%.a is what rt lib makes of the crate %_c
target/staticlib/lib%.a: $(SOURCES)
	cd crates/$*_c && rt lib
	mkdir -p target/staticlib
	cp crates/$*_c/out/lib$*_c.a $@

# the C host of verdict
host: target/host/host

target/host/host: tests/host/host.c include/verdict.h target/staticlib/libverdict.a
	mkdir -p target/host
	$(CC) $(CFLAGS) -Iinclude tests/host/host.c target/staticlib/libverdict.a -o $@

# an independent implementation in Rust, and random cases through both
reference:
	cargo build --quiet --release --offline --manifest-path tools/reference/Cargo.toml --target-dir target/reference

RUN_SECONDS ?= 60
differential: reference
	bash tools/program.sh marks
	target/reference/release/reference compare target/bin/marks $(RUN_SECONDS)

# the proved library and the reference timed in one run
speed: target/staticlib/libverdict.a target/staticlib/libprobe.a
	STATICLIB=$(CURDIR)/target/staticlib cargo build --quiet --release --offline --manifest-path tools/speed/Cargo.toml --target-dir target/speed
	target/speed/release/speed

test:
	bash .ci/run

clean:
	rm -rf target
