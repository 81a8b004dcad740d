export LC_ALL := C

PROGRAMS := $(filter $(notdir $(wildcard crates/*)),linelist anything salvage sheet)

.PHONY: all help programs demo lib module examples install test mutants edits tables reading clean

all:
	@echo 'Proves every crate that changed and builds the programs: some 13 minutes from nothing, on two cores. `make help` has more.'
	@bash tools/prove.sh

help:
	@echo 'to use it'
	@echo '  make demo             a reading made on the spot into a log, some cells lost, and back; without the proof: seconds'
	@echo '  make desk             build the desk tool over the proved library: target/desk/rimesatchel'
	@echo '  make page             the reading room: one page that reads logs in a browser, over the proved library: target/page'
	@echo '  make page-quick       the same without the proof, in seconds: target/page-quick'
	@echo '  make programs         prove and build the programs: $(PROGRAMS); some 8 minutes from nothing, on two cores'
	@echo '  make lib              prove and build the archive and the shared library: some 15 minutes from nothing'
	@echo '  make lib TARGET=..    the archives for the other machine, x86_64 or aarch64: target/TARGET; so make programs TARGET=..'
	@echo '  make examples         build and run the examples in C, Rust and Python'
	@echo '  make install          headers, libraries, programs, Python module, pkg-config files, man pages; PREFIX=/usr/local'
	@echo '  make uninstall        remove what make install with the same PREFIX put there'
	@echo '  make dist             a tarball of the last commit and its checksum, in target/dist'
	@echo '  make clean            remove all that was built'
	@echo 'to work on it'
	@echo '  make                  prove every crate that changed, and build the programs'
	@echo '  make module           the LLVM modules that the archives were compiled from: target/module/NAME.bc'
	@echo '  make test             the gate: prove every crate, try the must-fail edits, run every test; some 30 minutes from nothing'
	@echo '  make dist-test        unpack that tarball elsewhere and run the gate there'
	@echo '  make mutants          try the wrong programs of tests/mutants; CRATES="sender log" for some crates'
	@echo '  make edits            wrong edits of the four programs (tests/edits), and the test that stops each; CRATES="sheet"'
	@echo '  make fuzz             compare N=1000000 calls with another implementation, from SEED=2; memory checks'
	@echo '  make sheet-19         one sheet over 626 MB, by the call and by the program: refused 19; a record less is given'
	@echo '  make desk-fuzz        spoiled logs through the desk tool, with memory checks'
	@echo '  make desk-third       LOGS=1010 spoiled logs through the desk tool, held against a decoder written from docs/RULES.md'
	@echo '  make line             play and record over sockets, full disks, spoiled input, and an hour over two namespaces: SOAK=60'
	@echo '  make page-test        the reading room against the vectors and the desk tool, under Node and in Chromium'
	@echo '  make desk-limits      files of 4 GiB by the desk tool: the longest that each kind holds'
	@echo '  make desk-hour        a reading of one hour through the desk tool: time and memory'
	@echo '  make bench            speed beside plain C: instructions and nanoseconds; ROWS=56-C2 for some rows'
	@echo '  make bench-count      the same, instructions alone'
	@echo '  make bench-table      write the tables of docs/SPEED.md anew: instructions'
	@echo '  make bench-keep       write the guarded rows of bench/instructions-MACHINE.txt anew'
	@echo '  bash bench/trial.sh   instructions of the crates as they stand, without proving them'
	@echo '  make tables           write the tables of crates/tables and crates/guards anew'
	@echo '  make reading          count the lines that must be read to trust the demands'

include tests/face.mk
include desk/desk.mk
include web/web.mk

# The machine that `make lib` and `make programs` build for.
TARGET ?= $(MACHINE)
LIBRARIES := rimesatchel management
ifneq ($(filter lib programs,$(MAKECMDGOALS)),)
REFUSED := $(filter-out $(TARGET),$(shell python3 tools/native.py machine '$(TARGET)' 2>&1))
ifneq ($(REFUSED),)
$(error $(REFUSED))
endif
endif

programs: $(PROGRAMS:%=target/$(if $(filter $(MACHINE),$(TARGET)),bin,$(TARGET))/%)
	@echo 'programs: $^'

$(PROGRAMS:%=target/$(TARGET)/%): target/$(TARGET)/%: $(SOURCES) tools/native.py tools/native_os.c
	@bash tools/prove.sh program $* $(TARGET)

$(PROGRAMS:%=target/bin/%) &: $(SOURCES)
	@echo 'Proves and builds $(PROGRAMS): some 8 minutes from nothing, on two cores.'
	@bash tools/prove.sh programs $(PROGRAMS)

# These run the programs as well as the library.
fuzz fuzz-list sheet-19 bench bench-list bench-anything bench-salvage: $(PROGRAMS:%=target/bin/%)

ifeq ($(TARGET),$(MACHINE))
lib: $(PLACED) $(SHARED) $(SHARED_MANAGEMENT)
else
lib: target/$(TARGET)/librimesatchel.a target/$(TARGET)/librime_management.a
endif
	@echo 'library: $(^:$(CURDIR)/%=%)'

target/$(TARGET)/lib%.a: $(SOURCES) tools/native.py
	@bash tools/prove.sh archive $* $(TARGET)

target/$(TARGET)/librime_management.a: target/$(TARGET)/libmanagement.a
	@cp $< $@

module: $(LIBRARIES:%=target/module/%.bc)
	@echo 'module: $^'

target/module/%.bc: $(CURDIR)/target/staticlib/lib%.a
	@python3 tools/native.py module $*

examples: face-examples

include bindings/install.mk

test:
	@echo 'The gate: some 30 minutes from nothing; what an earlier run here has proved is taken from it.'
	.ci/run

mutants:
	python3 tests/mutants/run.py $(CRATES)

edits:
	python3 tests/edits/run.py $(CRATES)

tables:
	python3 tools/tables.py

reading:
	python3 tools/reading.py

clean:
	rm -rf target crates/*/out bindings/python/__pycache__ bindings/python/rimesatchel/__pycache__
