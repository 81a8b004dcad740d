#!/usr/bin/env bash
# What the pages name is there. A name of each kind that isn't there is noticed.
set -eu
export LC_ALL=C
[ -e target/desk/rimesatchel ] || make --no-print-directory -f desk/desk.mk desk
python3 tests/docs.py --planted
