.PHONY: help library command run test try examples bench fuzz install uninstall clean

PREFIX = /usr/local
DESTDIR =

help:
	@echo 'make run        proves what changed, builds the command and walks through samples/'
	@echo 'make test       the gate, from nothing'
	@echo 'make command    target/blink'
	@echo 'make try        the command tried as a shop floor uses it, and the examples of the pages'
	@echo 'make library    target/staticlib/libblink_native.a and target/shared/libblink_native.so'
	@echo 'make install    command, libraries, header, pkg-config file and man page, below PREFIX=$(PREFIX)'
	@echo 'make uninstall  takes them away again'
	@echo 'make examples   the examples in C, Rust and Python, and the tests of the Rust wrapper'
	@echo 'make bench      timings, and the stack that the questions take'
	@echo 'make fuzz       random questions, compared with the second program'
	@echo 'make clean      removes what was built'

# What is proved and compiled. The header says which version it is.
SOURCES := crates.txt $(shell find crates -name '*.rt' -o -name '*.antt')
VERSION := $(shell sed -n 's/^\#define BLINK_VERSION_[A-Z]* \([0-9]\)/\1/p' include/blink_native.h | paste -sd.)

# THE LIBRARY

ARCHIVE = target/staticlib/libblink_native.a
SONAME = libblink_native.so.$(firstword $(subst ., ,$(VERSION)))
SHARED = target/shared/libblink_native.so.$(VERSION)

library: $(ARCHIVE) $(SHARED)

# A static library's crate leaves its archive beside its proofs.
target/staticlib/lib%.a: $(SOURCES)
	mkdir -p $(@D)
	cd crates/$* && rt lib
	cp crates/$*/out/lib$*.a $@

# The archive's code can stand anywhere in memory, so the same code is in both; only the names of the header are to be seen.
$(SHARED): $(ARCHIVE) include/blink_native.map
	mkdir -p $(@D)
	$(CC) -shared -o $@ -Wl,-soname,$(SONAME) -Wl,--version-script=include/blink_native.map -Wl,--whole-archive $(ARCHIVE) -Wl,--no-whole-archive
	ln -sf $(@F) $(@D)/$(SONAME)
	ln -sf $(SONAME) $(@D)/libblink_native.so

# THE COMMAND

command: target/blink

# The proved program. A few lines of C start it, which ignore a signal that the language has no word for.
PROGRAM = target/libexec/blink
LAUNCH = $(CC) -O2 -Wall -Wextra command/launch.c

$(PROGRAM): $(SOURCES)
	mkdir -p $(@D)
	cd crates/blink && rt run -- help > /dev/null
	cp crates/blink/out/blink $@

target/blink: command/launch.c $(PROGRAM)
	$(LAUNCH) -DPROGRAM='"$(CURDIR)/$(PROGRAM)"' -o $@

# Proves what changed since the last run, runs every program on its stored input, and walks through the samples.
BLINK = target/blink
REFUSED = ; test $$? = 1

run: command
	rt all check
	$(BLINK) check samples/blank.table
	$(BLINK) table samples/blank.table
	$(BLINK) check samples/blank.table samples/good.message samples/padded.message
	$(BLINK) show samples/blank.table samples/good.message
	$(BLINK) dump samples/blank.table samples/dusty.message $(REFUSED)
	$(BLINK) show samples/blank.table samples/good.message > target/shown.text
	$(BLINK) show samples/widths.table samples/good.message | cmp - target/shown.text
	$(BLINK) tape samples/blank.table samples/shift.tape $(REFUSED)
	$(BLINK) tape samples/blank.table samples/cut.tape $(REFUSED)
	$(BLINK) read samples/blank.table samples/good-no-note.message 1
	$(BLINK) read samples/blank.table samples/good-no-note.message 4 $(REFUSED)
	$(BLINK) check samples/blank.table samples/dusty.message $(REFUSED)
	$(BLINK) check samples/forgetful.table samples/good.message $(REFUSED)
	$(BLINK) check samples/stale.table samples/good.message $(REFUSED)
	$(BLINK) rewrite samples/widths.table samples/padded.message target/rewritten.message
	cmp target/rewritten.message samples/good.message
	$(BLINK) sheet samples/blank.table samples/padded.message target/padded.sheet
	$(BLINK) write samples/blank.table target/padded.sheet target/written.message
	$(BLINK) rewrite samples/blank.table samples/padded.message target/rewritten.message
	cmp target/written.message samples/good.message
	cmp target/rewritten.message samples/good.message
	rm -f target/customers.store
	$(BLINK) settings new target/customers.store 8
	$(BLINK) settings add target/customers.store 7 1 4 6 8
	$(BLINK) settings add target/customers.store 12 1
	$(BLINK) settings add target/customers.store 7 2 4
	$(BLINK) settings add target/customers.store 300 1 6
	$(BLINK) settings add target/customers.store 12 3 4 6
	cmp target/customers.store samples/customers.store
	$(BLINK) settings samples/customers.store
	$(BLINK) settings get samples/customers.store 7 1
	$(BLINK) check samples/blank.table samples/rubbish.message $(REFUSED)
	$(BLINK) check samples/blank.table samples/rubbish.message --settings samples/customers.store --customer 7 $(REFUSED)
	$(BLINK) check samples/blank.table samples/rubbish.message --settings samples/customers.store --customer 12
	$(BLINK) rewrite --settings samples/customers.store --customer 12 samples/blank.table samples/rubbish.message target/cleaned.message
	$(BLINK) check samples/blank.table target/cleaned.message
	cmp target/cleaned.message samples/good-no-note.message

# The gate, as it decides what lands.
test:
	.ci/run

# The command on full disks, closed descriptors, odd files and damaged inputs, and what the pages say that it prints. Not part of the gate.
try: command
	python3 tests/command.py
	python3 tests/readme.py

SAMPLES = samples/blank.table samples/good.message samples/dusty.message
UNDER = --under samples/customers.store 12 samples/blank.table samples/rubbish.message
TAPE = samples/blank.table samples/shift.tape
EXAMPLE = cargo run --offline --quiet --manifest-path bindings/rust/Cargo.toml --example

# The examples in C, Rust and Python, on the stored samples, and the Rust wrapper's tests. Not part of the gate.
examples: library target/examples/check target/examples/tape target/examples/ledger
	target/examples/check $(SAMPLES)
	target/examples/check $(UNDER)
	target/examples/tape $(TAPE)
	target/examples/ledger target/examples/c.ledger $(TAPE)
	$(EXAMPLE) check -- $(SAMPLES)
	$(EXAMPLE) check -- $(UNDER)
	$(EXAMPLE) tape -- $(TAPE)
	$(EXAMPLE) ledger -- target/examples/rust.ledger $(TAPE)
	cmp target/examples/rust.ledger target/examples/c.ledger
	cargo test --offline --quiet --manifest-path bindings/rust/Cargo.toml
	LD_LIBRARY_PATH=target/shared python3 examples/check.py $(SAMPLES)
	LD_LIBRARY_PATH=target/shared python3 examples/tape.py $(TAPE)
	LD_LIBRARY_PATH=target/shared python3 -B examples/ledger.py target/examples/python.ledger $(TAPE)
	cmp target/examples/python.ledger target/examples/c.ledger

target/examples/%: examples/%.c examples/tapes.h include/blink_native.h $(ARCHIVE)
	mkdir -p $(@D)
	$(CC) -std=c99 -Wall -Wextra -Wpedantic -Werror -Iinclude $< $(ARCHIVE) -o $@

# Timings beside the same loops in Rust, beside the second program and, where Debian's libflatbuffers-dev and
# flatbuffers-compiler are installed, beside FlatBuffers; then the stack. Not part of the gate.
TIMED = cargo run --release --offline --quiet --manifest-path bench/Cargo.toml --bin
FLAT = $(CXX) -std=c++17 -O3 -Wall -Wextra -iquote target/flatbuffers -Iinclude

bench: $(ARCHIVE) target/staticlib/libwire_bench.a target/staticlib/libtape_bench.a
	$(TIMED) leaves
	$(TIMED) questions
	$(TIMED) tape -- target/blanks.tape
	$(TIMED) ledger
ifneq ($(and $(wildcard /usr/include/flatbuffers/reflection.h),$(shell command -v flatc)),)
	mkdir -p target/flatbuffers
	flatc --cpp -o target/flatbuffers bench/flatbuffers/blank.fbs
	flatc --binary --schema -o target/flatbuffers bench/flatbuffers/blank.fbs
	$(FLAT) bench/flatbuffers/compare.cpp $(ARCHIVE) -lflatbuffers -o target/flatbuffers/compare
	target/flatbuffers/compare samples/blank.table target/flatbuffers/blank.bfbs
	$(FLAT) bench/flatbuffers/tape.cpp target/staticlib/libtape_bench.a $(ARCHIVE) -lflatbuffers -o target/flatbuffers/tape
	target/flatbuffers/tape samples/blank.table target/flatbuffers/blank.bfbs target/blanks.tape
endif
	$(TIMED) stack

# Random questions, compared with the second program. Not part of the gate.
fuzz: $(ARCHIVE)
	$(TIMED) fuzz -- 100000

# INSTALLING

ROOT = $(DESTDIR)$(PREFIX)

install: library command
	install -d $(ROOT)/bin $(ROOT)/libexec $(ROOT)/include $(ROOT)/lib/pkgconfig $(ROOT)/share/man/man1
	$(LAUNCH) -DPROGRAM='"$(PREFIX)/libexec/blink"' -o target/blink.installed
	install -m 755 target/blink.installed $(ROOT)/bin/blink
	install -m 755 $(PROGRAM) $(ROOT)/libexec/blink
	install -m 644 include/blink_native.h $(ROOT)/include
	install -m 644 $(ARCHIVE) $(ROOT)/lib
	install -m 755 $(SHARED) $(ROOT)/lib
	ln -sf $(notdir $(SHARED)) $(ROOT)/lib/$(SONAME)
	ln -sf $(SONAME) $(ROOT)/lib/libblink_native.so
	sed 's|@PREFIX@|$(PREFIX)|; s|@VERSION@|$(VERSION)|' include/blink_native.pc.in > target/blink_native.pc
	install -m 644 target/blink_native.pc $(ROOT)/lib/pkgconfig
	install -m 644 docs/blink.1 $(ROOT)/share/man/man1

uninstall:
	rm -f $(ROOT)/bin/blink $(ROOT)/libexec/blink $(ROOT)/include/blink_native.h $(ROOT)/lib/libblink_native.a
	rm -f $(ROOT)/lib/libblink_native.so $(ROOT)/lib/$(SONAME) $(ROOT)/lib/$(notdir $(SHARED))
	rm -f $(ROOT)/lib/pkgconfig/blink_native.pc $(ROOT)/share/man/man1/blink.1

clean:
	rm -rf target crates/*/out bindings/rust/target bench/target reference/target
