# The proved library in other languages: the comparison, the examples, the benchmark. The Makefile includes this file;
# the gate runs it alone by `make -f tests/face.mk face-test`.
#
# RIME_LIB     the folder of the proved librimesatchel.a and libmanagement.a
# RIME_PARTS   the parts of the library that the comparison links
# N, SEED      how many calls `make fuzz` compares, and from which seed
# ROWS         a pattern that picks the benchmark's rows

RIME_LIB ?= $(CURDIR)/target/staticlib
RIME_PARTS ?= boxes,status,log,cable,units,circuits,figures,management
N ?= 1000000
SEED ?= 2
ROWS ?= .

ARCHIVE := $(RIME_LIB)/librimesatchel.a
MANAGEMENT := $(RIME_LIB)/libmanagement.a
COMPARE_DIR := target/compare
COMPARE := target/compare/release/compare
LINELIST := target/bin/linelist
ANYTHING := target/bin/anything
EXAMPLES := target/examples
include bindings/names.mk
VERSION := $(shell sed -n 's/^.define RIME_VERSION "\(.*\)"/\1/p' include/rimesatchel.h)
MACHINE := $(shell python3 tools/native.py machine 2>&1)
ifneq ($(words $(MACHINE)),1)
$(error $(MACHINE))
endif
INSTRUCTIONS := bench/instructions-$(MACHINE).txt
GATE_CALLS := 400000
GATE_SEED := 1
GATE_LINES := 2000
# Fewer than N: memcheck is slow.
MEMCHECK_CALLS := 20000
MEMCHECK := valgrind --quiet --error-exitcode=9

WARNINGS := -Wall -Wextra
# Aligned, the baseline doesn't change by where the linker happens to place its loops.
BENCH_FLAGS := -O3 -std=gnu11 $(WARNINGS) -falign-functions=64 -falign-loops=32

.PHONY: face-build face-test face-compare face-near face-examples face-bindings face-archive fuzz
.NOTPARALLEL:
.PHONY: bench-build bench bench-count bench-table bench-keep bench-guard bench-list bench-anything bench-salvage bench-sheet fuzz-list sheet-19
.PHONY: bench-needs

# The archives of this repository are made anew where a source is newer, so that nothing is measured or compared that isn't in the
# crates. Those of another folder are taken as they are.
SOURCES := $(shell find crates -name out -prune -o -name '*.rt' -print -o -name '*.antt' -print) crates.txt
ifeq ($(RIME_LIB),$(CURDIR)/target/staticlib)
$(ARCHIVE) $(MANAGEMENT): $(RIME_LIB)/lib%.a: $(SOURCES)
	@echo 'Proves $* and what it needs, and writes its archive: some 15 minutes from nothing, on two cores.'
	@bash tools/prove.sh archive $*
endif

face-archive: $(ARCHIVE) $(MANAGEMENT)

face-compare: $(filter-out $(if $(findstring management,$(RIME_PARTS)),,%management.a),$(PLACED))
	cargo build --quiet --offline --locked --release --no-default-features \
	    --features "$(RIME_PARTS)" --manifest-path tests/compare/Cargo.toml --target-dir $(COMPARE_DIR)

# The same comparison, but its calls are made by another program, for this machine or for the other one: tests/gate/12-machines.sh.
face-near:
	python3 tests/machines/build.py near target/machines
	$(MAKE) --no-print-directory -f tests/face.mk face-compare RIME_LIB=$(CURDIR)/target/machines COMPARE_DIR=target/machines/compare

$(EXAMPLES)/handover-c: examples/c/handover.c include/rimesatchel.h $(ARCHIVE)
	mkdir -p $(EXAMPLES)
	gcc -O2 -std=c99 $(WARNINGS) -pedantic -Iinclude $< $(ARCHIVE) -o $@

$(EXAMPLES)/handover-c-asan: examples/c/handover.c include/rimesatchel.h $(ARCHIVE)
	mkdir -p $(EXAMPLES)
	gcc -g -O1 -std=c99 -fsanitize=address,undefined -fno-sanitize-recover=all $(WARNINGS) -Iinclude $< $(ARCHIVE) -o $@

RUST_SOURCES := $(wildcard bindings/rust/src/*.rs) bindings/rust/build.rs bindings/rust/Cargo.toml include/rimesatchel.h

$(EXAMPLES)/handover-rust: examples/rust/handover.rs examples/rust/Cargo.toml $(RUST_SOURCES) $(LIB)/librimesatchel.a
	mkdir -p $(EXAMPLES)
	cargo build --quiet --offline --locked --release --manifest-path examples/rust/Cargo.toml \
	    --target-dir target/compare
	cp target/compare/release/handover $@

$(EXAMPLES)/cast-c: examples/c/cast.c include/rimesatchel.h $(ARCHIVE)
	mkdir -p $(EXAMPLES)
	gcc -O2 -std=c99 $(WARNINGS) -pedantic -Iinclude $< $(ARCHIVE) -o $@

include bindings/lib.mk

$(EXAMPLES)/management-c: examples/c/management.c include/rimesatchel.h include/rime_management.h $(ARCHIVE) $(MANAGEMENT)
	mkdir -p $(EXAMPLES)
	gcc -O2 -std=c99 $(WARNINGS) -pedantic -Iinclude $< $(ARCHIVE) $(MANAGEMENT) -o $@

$(EXAMPLES)/management-c-asan: examples/c/management.c include/rimesatchel.h include/rime_management.h $(ARCHIVE) $(MANAGEMENT)
	mkdir -p $(EXAMPLES)
	gcc -g -O1 -std=c99 -fsanitize=address,undefined -fno-sanitize-recover=all $(WARNINGS) -Iinclude $< $(ARCHIVE) \
	    $(MANAGEMENT) -o $@

# Not through a pipe, which would hide a program that prints the right words and then fails.
define prints-expected
$(1) > $(EXAMPLES)/printed
diff examples/$(2).expected $(EXAMPLES)/printed
endef

face-examples: $(EXAMPLES)/handover-c $(EXAMPLES)/handover-rust $(SHARED) $(EXAMPLES)/management-c \
    $(EXAMPLES)/cast-c
	$(call prints-expected,$(EXAMPLES)/handover-c,handover)
	$(call prints-expected,$(EXAMPLES)/handover-rust,handover)
	$(call prints-expected,python3 examples/python/handover.py,handover)
	$(call prints-expected,$(EXAMPLES)/management-c,management)
	$(call prints-expected,$(EXAMPLES)/cast-c,cast)
	$(call prints-expected,python3 examples/python/cast.py,cast)
	@echo "examples: C, Rust and Python print what is expected"

# The pages of the bindings, as tests.
face-bindings: $(LIB)/librimesatchel.a $(SHARED) $(SHARED_MANAGEMENT)
	cargo test --quiet --offline --locked --doc --manifest-path bindings/rust/Cargo.toml \
	    --target-dir target/compare > $(EXAMPLES)/doc-tests 2>&1 || { cat $(EXAMPLES)/doc-tests; exit 1; }
	cd bindings/python && python3 -c 'import doctest, rimesatchel, sys; sys.exit(doctest.testmod(rimesatchel).failed != 0)'
	python3 tests/slips.py
	@echo "bindings: the pages of the Rust crate and of the Python module say what is so"

# Everything that links the archive. The gate builds it before its tests.
face-build: face-compare face-near $(EXAMPLES)/handover-c $(EXAMPLES)/handover-rust $(SHARED) $(SHARED_MANAGEMENT) \
    $(EXAMPLES)/cast-c $(EXAMPLES)/management-c target/bench/bench

face-test: face-compare face-examples face-bindings
	$(COMPARE) vectors tests/vectors $(LINELIST)
	$(COMPARE) story
	$(COMPARE) slips $(GATE_LINES)
	$(COMPARE) fuzz $(GATE_CALLS) $(GATE_SEED) $(LINELIST)

fuzz: face-archive
	$(MAKE) -f tests/face.mk face-compare $(EXAMPLES)/handover-c $(EXAMPLES)/handover-c-asan $(EXAMPLES)/management-c \
	    $(EXAMPLES)/management-c-asan
	$(call prints-expected,$(MEMCHECK) $(EXAMPLES)/handover-c,handover)
	$(call prints-expected,$(EXAMPLES)/handover-c-asan,handover)
	$(call prints-expected,$(MEMCHECK) $(EXAMPLES)/management-c,management)
	$(call prints-expected,$(EXAMPLES)/management-c-asan,management)
	$(MEMCHECK) $(COMPARE) fuzz $(MEMCHECK_CALLS) $(SEED)
	$(COMPARE) fuzz $(N) $(SEED) $(LINELIST)
	$(MAKE) -f tests/face.mk fuzz-list

# A list of 300 MB, compared with that of the other implementation. The log isn't kept.
LONG_OCTETS := 300000000

fuzz-list:
	python3 tests/long_log.py $(LONG_OCTETS) > target/long.log
	$(LINELIST) target/long.log > target/long.list
	$(COMPARE) list < target/long.log | cmp - target/long.list
	rm target/long.log target/long.list
	@echo "linelist: a log of $(LONG_OCTETS) octets is listed alike"

BENCH_SOURCES := $(addprefix bench/,bench.c formats.c frames.c logs.c plain.c plainsheet.c plainwalks.c units.c walks.c)
BENCH_HEADERS := $(wildcard bench/*.h)

# bench/counting.h includes its header.
bench-needs:
	@bash tests/need.sh valgrind

target/bench/bench: $(BENCH_SOURCES) $(BENCH_HEADERS) include/rimesatchel.h $(ARCHIVE) | bench-needs
	mkdir -p target/bench
	gcc $(BENCH_FLAGS) -Iinclude -Ibench $(BENCH_SOURCES) $(ARCHIVE) -o $@

bench-build: face-archive
	$(MAKE) --no-print-directory -f tests/face.mk target/bench/bench

bench: bench-build
	python3 bench/run.py target/bench/bench '$(ROWS)'
	$(MAKE) --no-print-directory -f tests/face.mk bench-list bench-anything bench-salvage bench-sheet

target/bench/plainlist target/bench/plainanything target/bench/plainsalvage: target/bench/%: bench/%.c bench/plainlog.h
	mkdir -p target/bench
	gcc $(BENCH_FLAGS) $< -o $@

WRITELOG_SOURCES := $(addprefix bench/,writelog.c formats.c logs.c)

target/bench/writelog: $(WRITELOG_SOURCES) $(BENCH_HEADERS) include/rimesatchel.h $(ARCHIVE)
	mkdir -p target/bench
	gcc $(BENCH_FLAGS) -Iinclude -Ibench $(WRITELOG_SOURCES) $(ARCHIVE) -o $@

bench-list: target/bench/plainlist target/bench/writelog
	python3 bench/programs.py linelist target/bench/writelog $(LINELIST) target/bench/plainlist

bench-anything: target/bench/plainanything target/bench/writelog
	python3 bench/programs.py anything target/bench/writelog $(ANYTHING) target/bench/plainanything

bench-salvage: target/bench/plainsalvage target/bench/writelog
	python3 bench/programs.py salvage target/bench/writelog target/bin/salvage target/bench/plainsalvage

SHEET_SOURCES := $(addprefix bench/,sheet.c formats.c logs.c plainsheet.c)

target/bench/sheet: $(SHEET_SOURCES) $(BENCH_HEADERS) include/rimesatchel.h $(ARCHIVE)
	mkdir -p target/bench
	gcc $(BENCH_FLAGS) -Iinclude -Ibench $(SHEET_SOURCES) $(ARCHIVE) -o $@

# One sheet over 64 MiB, in each format.
bench-sheet: target/bench/sheet
	target/bench/sheet

# 19 met by one call: 12,782,642 records in one lent run of 626 MB, each after a gap of 14 but the first.
target/bench/most: bench/most.c include/rimesatchel.h $(ARCHIVE)
	mkdir -p target/bench
	gcc $(BENCH_FLAGS) -Iinclude bench/most.c $(ARCHIVE) -o $@

sheet-19: face-archive
	$(MAKE) --no-print-directory -f tests/face.mk target/bench/most
	target/bench/most
	[ "$$(target/bench/most written | target/bin/sheet)" = 'sheet refused 19' ]
	@echo "sheet: 19 of the same log"

bench-count: bench-build
	python3 bench/run.py --count target/bench/bench '$(ROWS)'

bench-table: bench-build
	@[ $(MACHINE) = x86_64 ] || { echo 'docs/SPEED.md has the tables of x86-64' >&2; exit 1; }
	python3 bench/run.py --page docs/SPEED.md target/bench/bench

bench-keep: bench-build
	python3 bench/run.py --keep $(INSTRUCTIONS) target/bench/bench

bench-guard: target/bench/bench
	python3 bench/run.py --guard $(INSTRUCTIONS) target/bench/bench
