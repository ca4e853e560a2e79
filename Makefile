# run: the programs on two envelopes that are kept here, another implementation's and the papers' 88 bytes, and on the papers' trace. test: the whole gate.
# lib: the static library and its header, into build/.
# bench: the library against the reference, by time. count: the same by instructions. bench-replay: the program against the same in plain Rust.
# soak: the library and the reference on random inputs until stopped.
# vectors: the papers' bench cases.
.PHONY: run test lib bench count bench-replay soak vectors host host-trace doc fmt

CARGO = cargo --offline --quiet
# What bench and count are compiled by: `measured` has the reference compiled as one whole, `release` crate by crate.
PROFILE = measured
CFLAGS = -std=c99 -Wall -Wextra -Werror -pedantic -O2
VECTORS := $(shell sed -n 's/^\(vectors_[a-z_]*\):.*/\1/p' crates.txt)
SOURCES := crates.txt include/gishwarem.h $(shell find crates -name out -prune -o \( -name "*.rt" -o -name "*.antt" \) -print)

run:
	@scripts/prove envinfo replay
	@crates/envinfo/out/envinfo < crates/vectors_envelopes_written/stdin
	@crates/envinfo/out/envinfo < crates/envinfo/stdin
	@crates/replay/out/replay crates/replay/data/table < crates/replay/stdin
	@echo "On files of your own: crates/envinfo/out/envinfo < FILE, crates/replay/out/replay TABLE < TRACE"

test:
	@scripts/gate

lib: build/libgishwarem.a
	@echo "build/libgishwarem.a and build/gishwarem.h"

build/libgishwarem.a: $(SOURCES)
	@scripts/prove gishwarem
	@mkdir -p build && cp crates/gishwarem/out/libgishwarem.a include/gishwarem.h build/

bench: lib
	@cd rust && $(CARGO) run --profile $(PROFILE) --bin bench

count: lib
	@cd rust && $(CARGO) build --profile $(PROFILE) --bin bench
	@scripts/count rust/target/$(PROFILE)/bench

bench-replay: lib
	@scripts/prove replay
	@PROFILE=$(PROFILE) scripts/bench-replay crates/replay/out/replay

soak: lib
	@cd rust && $(CARGO) run --release --bin soak

vectors:
	@scripts/prove $(VECTORS)
	@for program in $(VECTORS); do input=crates/$$program/stdin; test -f $$input || input=/dev/null; crates/$$program/out/$$program < $$input; done

# The example host on its kept files; and with the trace as well.
host: build/host
	@cd examples/data && ../../build/host envelope descriptor table cached fetched

host-trace: build/host
	@cd examples/data && ../../build/host envelope descriptor table cached fetched trace

build/host: examples/host.c include/gishwarem.h build/libgishwarem.a
	@$(CC) $(CFLAGS) -Iinclude examples/host.c build/libgishwarem.a -o $@

doc: lib
	@cd rust && $(CARGO) doc --no-deps -p gishwarem

fmt:
	@for crate in crates/*/; do (cd $$crate && rt fmt) || exit 1; done; cd rust && cargo fmt
