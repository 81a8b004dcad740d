#!/usr/bin/env bash
# Says in plain words where the toolchain that runs here isn't the one that the file `toolchain` names. It is a warning: the checker
# decides what is proved. `rt version > toolchain` names another, once the gate has passed with it.
set -eu
export LC_ALL=C
read -r kit _ sum < toolchain
said=$(rt version)
read -r kit_here _ sum_here <<< "$said"
if [ "$kit" != "$kit_here" ]; then
    echo "toolchain: the gate last passed with $kit, and $kit_here runs here"
fi
if [ "$sum" != "$sum_here" ]; then
    echo "toolchain: the logic of $kit_here has the sum $sum_here, and $sum was pinned: it is another logic"
fi
