# The reading room: target/page/rimesatchel.html, one page with the library in it as WebAssembly. The Makefile includes this file.
#
# PAGE   the folder in which it is built

PAGE ?= target/page
PAGE_SOURCES := $(wildcard web/*.js web/*.html web/*.css web/*.c) web/build.py include/rimesatchel.h
UNPROVED := This page was made of a library that was not proved (make page-quick): it is for a first look.

.PHONY: page page-quick page-test
page: $(PAGE)/rimesatchel.html

$(PAGE)/rimesatchel.html: target/module/rimesatchel.bc $(PAGE_SOURCES)
	@python3 web/build.py $< $@

page-quick:
	@python3 tools/quick_face.py
	@python3 web/build.py target/quick/face.ll target/page-quick/rimesatchel.html '$(UNPROVED)'

page-test: page desk
	@bash tests/page/run.sh 1 200 browser
