#!/usr/bin/env bash
# The proved library is no slower than bench/instructions-MACHINE.txt has it, by callgrind's count, which is the same at every run.
set -eu
export LC_ALL=C
make --no-print-directory -f tests/face.mk bench-guard
