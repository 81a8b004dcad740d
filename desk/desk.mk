# The desk tool: target/desk/rimesatchel, over the proved library, libsndfile, cairo, jansson and libmd. The Makefile includes this file.
#
# RIME_LIB   the folder of librimesatchel.a
# DESK       the folder in which the tool is built
# DESK_MORE  further flags for gcc

RIME_LIB ?= $(CURDIR)/target/staticlib
DESK ?= target/desk
DESK_SOURCES := $(wildcard desk/*.c)
DESK_HEADERS := $(wildcard desk/*.h) include/rimesatchel.h
DESK_LIBRARIES := sndfile cairo jansson libmd
DESK_FLAGS := -std=c11 -D_GNU_SOURCE -O2 -Wall -Wextra -Werror -Iinclude $(DESK_MORE)

.PHONY: desk desk-needs
desk: $(DESK)/rimesatchel

# What it is built with, by the names of Debian's packages.
desk-needs:
	@bash tests/need.sh pkg-config libsndfile1-dev libcairo2-dev libjansson-dev libmd-dev

$(DESK)/rimesatchel: $(DESK_SOURCES) $(DESK_HEADERS) $(RIME_LIB)/librimesatchel.a | desk-needs
	@mkdir -p $(DESK)
	gcc $(DESK_FLAGS) $$(pkg-config --cflags $(DESK_LIBRARIES)) $(DESK_SOURCES) $(RIME_LIB)/librimesatchel.a \
	    $$(pkg-config --libs $(DESK_LIBRARIES)) -lm -o $@

.PHONY: demo
demo: desk-needs
	@bash desk/demo.sh

.PHONY: desk-hour
desk-hour: desk
	@bash bench/hour.sh

# The longest files of each kind, with their 4 GiB.
.PHONY: desk-limits
desk-limits: desk
	@DESK=$(DESK) bash tests/desk_limits.sh

# Spoiled logs through a build that notices a wrong use of memory.
.PHONY: desk-fuzz
$(DESK)/rimesatchel-asan: $(DESK_SOURCES) $(DESK_HEADERS) $(RIME_LIB)/librimesatchel.a | desk-needs
	@mkdir -p $(DESK)
	gcc $(DESK_FLAGS) -g -O1 -fsanitize=address,undefined -fno-sanitize-recover=all $$(pkg-config --cflags $(DESK_LIBRARIES)) \
	    $(DESK_SOURCES) $(RIME_LIB)/librimesatchel.a $$(pkg-config --libs $(DESK_LIBRARIES)) -lm -o $@

desk-fuzz: $(DESK)/rimesatchel-asan
	python3 tests/desk_fuzz.py $< 300 $(SEED)

# Spoiled logs by the third reading of docs/RULES.md, through the same build: LOGS of them, from SEED.
.PHONY: desk-third
LOGS ?= 1010
desk-third: $(DESK)/rimesatchel-asan
	@bash tests/need.sh sox
	ASAN_OPTIONS=detect_leaks=0 python3 tests/desk_third.py $< $(LOGS) $(or $(SEED),1)

# The line with sockets, full disks, spoiled input and an hour over two namespaces.
.PHONY: line
line: desk
	@bash tests/line.sh
