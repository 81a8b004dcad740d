#!/usr/bin/env bash
# Each mutant, each edit of tests/edits and each must-fail edit still fits the file that it changes. `make mutants` and `make edits`
# try them; that takes longer.
set -eu
export LC_ALL=C
python3 tests/mutants/run.py --applies
