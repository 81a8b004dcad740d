# The libraries by the names that users meet them under, in a folder of their own: bindings/lib.mk puts them there. tests/face.mk
# includes both files.
#
# An archive that isn't the proved one (RIME_LIB names another folder) is put in place beside itself: target/lib is what
# `make install` copies.
LIB := $(if $(filter $(CURDIR)/target/staticlib,$(abspath $(RIME_LIB))),target/lib,$(RIME_LIB)/placed)
PLACED := $(LIB)/librimesatchel.a $(LIB)/librime_management.a
SHARED := $(LIB)/librimesatchel.so
SHARED_MANAGEMENT := $(LIB)/librime_management.so
# Where the bindings look for them.
export RIMESATCHEL_LIB := $(abspath $(LIB))

# The shared libraries bear the version's first number.
ABI = $(firstword $(subst ., ,$(VERSION)))
