#!/usr/bin/env bash
# The tables of the code are what tools/tables.py writes, those of docs/LOSSES.md what tools/losses.py writes, and no more must
# be read to trust the demands than tools/reading.py allows.
set -eu
export LC_ALL=C
if [ -e tools/tables.py ]; then python3 tools/tables.py --check; fi
if [ -e tools/reading.py ]; then python3 tools/reading.py; fi
if [ -e tools/losses.py ]; then python3 tools/losses.py --check; fi
