# Puts the libraries in place, under the names of bindings/names.mk; tests/face.mk includes this file. The proved archives are
# named by their crates, and stay where they are. Nothing but rime_* is visible in any of them, so that a program's own names, and
# those of the two libraries, don't meet: the archives have no other name, and bindings/rime.map hides what the compiler adds.
$(LIB)/librimesatchel.a: $(ARCHIVE)
$(LIB)/librime_management.a: $(MANAGEMENT)
$(PLACED):
	mkdir -p $(LIB)
	cp $< $@

SHARED_FLAGS = -shared -Wl,-soname,$(@F) -Wl,--version-script=bindings/rime.map -Wl,--no-undefined

# Beside the archive the shared library has the header's words, for callers that can't read a header.
$(SHARED).$(ABI): $(LIB)/librimesatchel.a bindings/words.c include/rimesatchel.h bindings/rime.map
	gcc -O2 -std=c99 $(WARNINGS) -fPIC -Iinclude $(SHARED_FLAGS) bindings/words.c -Wl,--whole-archive $< -Wl,--no-whole-archive -o $@

$(SHARED_MANAGEMENT).$(ABI): $(LIB)/librime_management.a bindings/rime.map
	gcc $(SHARED_FLAGS) -Wl,--whole-archive $< -Wl,--no-whole-archive -o $@

# No link: `rt ci` refuses a folder that has one.
$(SHARED) $(SHARED_MANAGEMENT): %: %.$(ABI)
	cp --remove-destination $< $@
