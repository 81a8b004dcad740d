# What is put where its users look for it, and the tarball. The Makefile includes this file.
#
# PREFIX    the folder that all of it goes under
# LIBDIR    that of the libraries
# PYTHON    the Python whose folder under PREFIX the module goes to
# DESTDIR   a packager's folder, in front of all others

PREFIX ?= /usr/local
LIBDIR ?= $(PREFIX)/lib
PYTHON ?= python3
DESTDIR ?=

# The desk tool takes two libraries more to build. Its man page goes with it.
DESK_TOOL := $(wildcard target/desk/rimesatchel)
INSTALL_BIN := $(PROGRAMS:%=target/bin/%) $(DESK_TOOL)
INSTALL_MAN := $(PROGRAMS:%=man/%.1) $(if $(DESK_TOOL),desk/rimesatchel.1)
INSTALL_HEADERS := include/rimesatchel.h include/rime_management.h
INSTALL_LINKS := target/lib/librimesatchel.so target/lib/librime_management.so
INSTALL_SHARED := $(INSTALL_LINKS:%=%.$(ABI))
INSTALL_ARCHIVES := target/lib/librimesatchel.a target/lib/librime_management.a
INSTALL_PC := rimesatchel.pc rime_management.pc
MODULE := $(addprefix bindings/python/rimesatchel/,__init__.py py.typed)
MODULE_FOLDER = folder=$$($(PYTHON) bindings/python/where.py $(PREFIX)) && folder=$(DESTDIR)$$folder/rimesatchel

.PHONY: uninstall dist dist-test

# Only what stands in target/ is copied: an install as root proves and builds nothing.
install:
	@for file in $(INSTALL_ARCHIVES) $(INSTALL_SHARED) $(INSTALL_LINKS) $(PROGRAMS:%=target/bin/%); do \
	    [ -e $$file ] || { echo "install: $$file isn't there: make lib programs" >&2; exit 1; }; \
	done
	$(if $(DESK_TOOL),,@echo 'install: without the desk tool, which `make desk` builds')
	install -d $(addprefix $(DESTDIR),$(PREFIX)/bin $(PREFIX)/include $(PREFIX)/share/man/man1 $(LIBDIR)/pkgconfig)
	install -m 644 $(INSTALL_HEADERS) $(DESTDIR)$(PREFIX)/include
	install -m 644 $(INSTALL_ARCHIVES) $(DESTDIR)$(LIBDIR)
	install -m 755 $(INSTALL_SHARED) $(DESTDIR)$(LIBDIR)
	for file in $(notdir $(INSTALL_LINKS)); do ln -sf $$file.$(ABI) $(DESTDIR)$(LIBDIR)/$$file || exit 1; done
	install -m 755 $(INSTALL_BIN) $(DESTDIR)$(PREFIX)/bin
	install -m 644 $(INSTALL_MAN) $(DESTDIR)$(PREFIX)/share/man/man1
	for file in $(INSTALL_PC); do \
	    sed 's,@PREFIX@,$(PREFIX),; s,@LIBDIR@,$(LIBDIR),; s,@VERSION@,$(VERSION),' bindings/$$file.in \
	        > $(DESTDIR)$(LIBDIR)/pkgconfig/$$file || exit 1; \
	done
	$(MODULE_FOLDER) && install -d $$folder && install -m 644 $(MODULE) $$folder
	$(tell-loader)

uninstall:
	rm -f $(addprefix $(DESTDIR)$(PREFIX)/include/,$(notdir $(INSTALL_HEADERS))) \
	    $(addprefix $(DESTDIR)$(LIBDIR)/,$(notdir $(INSTALL_ARCHIVES) $(INSTALL_SHARED) $(INSTALL_LINKS))) \
	    $(addprefix $(DESTDIR)$(PREFIX)/bin/,$(PROGRAMS) rimesatchel) \
	    $(addprefix $(DESTDIR)$(PREFIX)/share/man/man1/,$(PROGRAMS:%=%.1) rimesatchel.1) \
	    $(addprefix $(DESTDIR)$(LIBDIR)/pkgconfig/,$(INSTALL_PC))
	$(MODULE_FOLDER) && rm -rf $$folder
	$(tell-loader)

# The loader has a list of what stands in the system's own folders.
define tell-loader
@if [ -z '$(DESTDIR)' ] && [ "$$(id -u)" = 0 ]; then case $(LIBDIR) in /usr/*) /sbin/ldconfig ;; esac; fi
endef

dist:
	@bash tools/dist.sh

dist-test:
	@bash tools/dist.sh test
