#!/usr/bin/env bash
# The faces of the library are one: Rattle, C, Rust and Python. A fault that is planted in each is noticed.
set -eu
export LC_ALL=C
python3 tests/faces.py --planted
