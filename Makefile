# `make example` runs the main job on the example that ships here; `make test` passes all tests.
# `make c-example` and `make rust-example` call the library from C and Rust, `make bench` measures it; all three for x86-64.
.PHONY: example test library c-example rust-example examples compilers bench
.DELETE_ON_ERROR:

CFLAGS = -std=c11 -D_POSIX_C_SOURCE=200809L -O2 -Wall -Wextra -Werror -Iinclude
RUSTC = rustc
TARGET = x86_64-unknown-linux-gnu
RUSTFLAGS = --edition 2021 --target $(TARGET) -C linker=$(CC) -C target-feature=+crt-static -O -D warnings
LIBRARY = target/staticlib/libtap.a

# another processor compiles for x86-64 too, and the kit's emulator runs what comes of it
ifneq ($(shell uname -m),x86_64)
ifeq ($(origin CC),default)
CC = x86_64-linux-gnu-gcc
endif
RUN = $(dir $(shell rt doc))../on/$(shell uname -m)/toolchain/bin/qemu-x86_64
endif

example:
	cd crates/tapsquirrel && rt run < stdin > /dev/null
	cd crates/tapsquirrel/data && $(RUN) ../out/tapsquirrel < ../stdin

test:
	.ci/run

# made anew only if a crate has changed since
library: $(LIBRARY)

$(LIBRARY): crates.txt $(shell find crates -name out -prune -o \( -name '*.rt' -o -name '*.antt' \) -print)
	cd crates/tap && rt lib
	mkdir -p $(@D)
	cp crates/tap/out/libtap.a $@

target/examples/c: examples/c/example.c include/tapsquirrel.h $(LIBRARY)
	mkdir -p $(@D)
	$(CC) $(CFLAGS) -static $< $(LIBRARY) -o $@

target/examples/rust: examples/rust/example.rs include/tapsquirrel.rs $(LIBRARY)
	mkdir -p $(@D)
	$(RUSTC) $(RUSTFLAGS) -L $(dir $(LIBRARY)) $< -o $@

target/examples/bench: bench/bench.c bench/plain.c bench/plain.h bench/rules.h include/tapsquirrel.h $(LIBRARY)
	mkdir -p $(@D)
	$(CC) $(CFLAGS) -static bench/bench.c bench/plain.c $(LIBRARY) -o $@

c-example: target/examples/c
	$(RUN) $<

rust-example: target/examples/rust
	$(RUN) $<

# both print what is stored
examples: target/examples/c.stdout target/examples/rust.stdout

target/examples/%.stdout: target/examples/% examples/stdout
	$(RUN) $< > $@
	diff $@ examples/stdout

# whether this machine can build them
compilers:
	$(CC) --version
	test -d "$$($(RUSTC) --target $(TARGET) --print target-libdir)"

bench: target/examples/bench
	$(if $(RUN),@echo "under an emulator: the times say nothing about the processor")
	$(RUN) $<
