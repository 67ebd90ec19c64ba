# The C library and what uses it.
#
#   make          build/libcgx.a, the command build/cgx and the example programs
#   make test     the tests in C; the last line is `N passed, M failed`
#   make test-cmd the tests of the command; likewise
#   make targets  the library for other machines, at -O2 and -Oz: build/armv7-O2/libcgx.a and so on; or one of them: aarch64,
#                 armv7, thumb (Cortex-M0), riscv32, wasm32 (also build/wasm32-O2/cgx.wasm)
#   make test-targets  whether they answer as x86-64 does, and the goals for their size; counts as `make test` does
#   make test-widths   whether longs are read in steps of at most 32 bits, by the sources; likewise; no part of
#                 the gate until Req 06 lands (docs/PORT.md)
#   make all-longs     whether each of the 2^32 longs is read as what it is; half a minute, and no part of the gate
#   make samples  the sample drawings and what `labels` prints of them, made anew under examples/
#   make clean
#
# The archive is proved and built by `rt lib`, only where a source is newer than it is. The same run of tools/targets/get-module leaves
# the LLVM module that it is made of, from which the other machines' archives are compiled.

CFLAGS ?= -O2
LDFLAGS ?= -Wl,--gc-sections
STRICT := -std=c99 -Wall -Wextra -Werror
SANITIZE := -g -fsanitize=address,undefined -fno-sanitize-recover=all

MODULE := build/cgx_c.bc
TARGETS := aarch64 armv7 thumb riscv32 wasm32
SOURCES := crates.txt $(shell find crates -name out -prune -o \( -name '*.rt' -o -name '*.antt' \) -print)
EXAMPLES := build/boxes build/labels build/samples
TESTS := build/test build/test-sanitized build/labels-sanitized build/vectors build/makers build/freestanding build/stack
SUITE := $(wildcard tests/c/*.c)
SUITE_HEADERS := $(wildcard tests/c/*.h) include/cgx.h

all: build/libcgx.a build/cgx $(EXAMPLES)

build/libcgx.a $(MODULE) &: $(SOURCES)
	tools/targets/get-module cgx_c build/libcgx.a $(MODULE)

build/%: examples/%.c include/cgx.h build/libcgx.a
	$(CC) $(STRICT) $(CFLAGS) $(CPPFLAGS) -Iinclude $< build/libcgx.a $(LDFLAGS) -o $@

# The command: every file of cmd/.
COMMAND := $(wildcard cmd/*.c)
COMMAND_HEADERS := $(wildcard cmd/*.h) include/cgx.h

build/cgx: $(COMMAND) $(COMMAND_HEADERS) build/libcgx.a
	$(CC) $(STRICT) $(CFLAGS) $(CPPFLAGS) -pthread -Iinclude $(COMMAND) build/libcgx.a $(LDFLAGS) -o $@

build/cgx-sanitized: $(COMMAND) $(COMMAND_HEADERS) build/libcgx.a
	$(CC) $(STRICT) $(SANITIZE) $(CPPFLAGS) -pthread -Iinclude $(COMMAND) build/libcgx.a -o $@

build/cmd-%: tests/cmd/%.c include/cgx.h build/libcgx.a
	$(CC) $(STRICT) $(CFLAGS) $(CPPFLAGS) -Iinclude $< build/libcgx.a $(LDFLAGS) -o $@

build/labels-sanitized: examples/labels.c include/cgx.h build/libcgx.a
	$(CC) $(STRICT) $(SANITIZE) $(CPPFLAGS) -Iinclude $< build/libcgx.a -o $@

build/test: $(SUITE) $(SUITE_HEADERS) build/libcgx.a
	$(CC) $(STRICT) $(CFLAGS) $(CPPFLAGS) -Iinclude $(SUITE) build/libcgx.a $(LDFLAGS) -o $@

build/test-sanitized: $(SUITE) $(SUITE_HEADERS) build/libcgx.a
	$(CC) $(STRICT) $(SANITIZE) $(CPPFLAGS) -Iinclude $(SUITE) build/libcgx.a -o $@

build/vectors: tests/c/programs/vectors.c include/cgx.h build/libcgx.a
	$(CC) $(STRICT) $(SANITIZE) $(CPPFLAGS) -Iinclude $< build/libcgx.a -o $@

build/makers: tests/c/programs/makers.c include/cgx.h build/libcgx.a
	$(CC) $(STRICT) $(CFLAGS) $(CPPFLAGS) -Iinclude $< build/libcgx.a $(LDFLAGS) -o $@

build/all_longs: tests/c/programs/all_longs.c include/cgx.h build/libcgx.a
	$(CC) $(STRICT) $(CFLAGS) $(CPPFLAGS) -Iinclude $< build/libcgx.a $(LDFLAGS) -o $@

# No C library and no start-up code: the archive is all that is linked.
build/freestanding: tests/c/programs/freestanding.c include/cgx.h build/libcgx.a
	$(CC) $(STRICT) $(CFLAGS) -ffreestanding -fno-stack-protector -nostdlib -static -Iinclude $< build/libcgx.a $(LDFLAGS) -o $@

build/stack: tests/c/programs/stack.c include/cgx.h build/libcgx.a
	$(CC) $(STRICT) $(CFLAGS) $(CPPFLAGS) -Iinclude $< build/libcgx.a $(LDFLAGS) -o $@

test: all $(TESTS)
	bash tests/c/run

test-cmd: build/cgx build/cgx-sanitized build/cmd-mixed build/cmd-files build/cmd-terminal
	bash tests/cmd/run

targets: $(TARGETS)

$(TARGETS): %: build/%-O2/libcgx.a build/%-Oz/libcgx.a

build/%-O2/libcgx.a: $(MODULE) tools/targets/build-target tools/targets/compile
	tools/targets/build-target $* -O2 $(MODULE) $(@D)

build/%-Oz/libcgx.a: $(MODULE) tools/targets/build-target tools/targets/compile
	tools/targets/build-target $* -Oz $(MODULE) $(@D)

# The checker by itself, for the least flash.
thumb: build/thumb-check/libcgx.a
build/thumb-check/libcgx.a: $(MODULE) tools/targets/build-target tools/targets/compile
	tools/targets/build-target thumb -Oz $(MODULE) $(@D) cgx_check

test-targets: targets build/libcgx.a
	bash tests/targets/run

test-widths:
	bash tests/widths/run

all-longs: build/all_longs
	build/all_longs

samples: $(EXAMPLES)
	mkdir -p examples/drawings
	build/samples examples/drawings
	for drawing in examples/drawings/*.cgx; do \
	    build/labels < $$drawing > examples/$$(basename $$drawing .cgx).expected 2>&1 || [ $$? -eq 1 ] || exit 1; \
	done

clean:
	rm -rf build

.PHONY: all test test-cmd targets $(TARGETS) test-targets test-widths all-longs samples clean
.DELETE_ON_ERROR:
