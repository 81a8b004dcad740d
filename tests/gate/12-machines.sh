#!/usr/bin/env bash
# The archives of both machines are of crates that are proved, and answer alike. The vectors and some of the comparison are run
# over each by calls with dirt above every narrow number, which no caller has to clear (tests/machines); that of the other machine
# runs by an emulator, where one is there, and so do the programs, where its gcc is there. And what tools/native.py must refuse, it
# refuses.
set -eu -o pipefail
export LC_ALL=C
machine=$(python3 tools/native.py machine)
case $machine in x86_64) other=aarch64 ;; *) other=x86_64 ;; esac
work=$(mktemp -d)
trap 'rm -rf "$work"' EXIT
fail() {
    echo "machines: $*" >&2
    exit 1
}

refused() { # WORD OF THE LINE, COMMAND..
    local word=$1
    shift
    if "$@" > "$work/said" 2>&1; then fail "not refused: $*"; fi
    case $(cat "$work/said") in *"$word"*) ;; *) fail "refused by other words than $word: $(cat "$work/said")" ;; esac
    [ "$(wc -l < "$work/said")" = 1 ] || fail "more than a line: $(cat "$work/said")"
}
echo 'define i8 @narrow(i8 %a) { ret i8 %a }' > "$work/good.ll"
echo 'define i8 @widened(i8 zeroext %a) { ret i8 %a }' > "$work/widened.ll"
echo 'define i32 @asks(ptr %a) { %r = call i32 @fstat(i32 0, ptr %a) ret i32 %r } declare i32 @fstat(i32, ptr)' > "$work/asks.ll"
for kind in "$machine" "$other"; do
    python3 tools/native.py build "$work/good.ll" "$work/good.a" "$kind"
    refused widened python3 tools/native.py build "$work/widened.ll" "$work/widened.a" "$kind"
    refused fstat python3 tools/native.py build "$work/asks.ll" "$work/asks.a" "$kind"
done
refused riscv64 make --no-print-directory lib TARGET=riscv64
refused '32' make --no-print-directory lib TARGET=armv7l
if setarch i686 true 2> /dev/null; then # a machine that is neither
    for command in 'make demo' 'make lib' .ci/run 'python3 tools/quick_face.py' 'python3 tools/quick.py linelist' \
        'bash bench/trial.sh'; do
        # shellcheck disable=SC2086
        refused 'needs Linux on x86_64 or aarch64' setarch i686 $command
    done
fi

# What the archives ask of the C library, docs/LINKING.md: a caller without one has these functions and no others.
asks_alone() { # ARCHIVE, FUNCTIONS
    local asked
    asked=$(nm -u "$1" | awk 'NF == 2 { print $2 }' | sort -u | paste -s -d ' ')
    [ "$asked" = "$2" ] || fail "$1 needs $asked, and not $2 alone"
}
asks_alone "${RIME_LIB:-target/staticlib}/librimesatchel.a" 'memcpy memset'
asks_alone "${RIME_LIB:-target/staticlib}/libmanagement.a" 'memcpy'

compared() { # MACHINE, WORDS OF THE COMPARISON..
    local kind=$1
    shift
    target/machines/compare/release/compare "$@" > "$work/printed" || {
        grep -v ' 0 differ' "$work/printed" | head -n 6 | cut -c 1-300 >&2
        fail "the archive for $kind answers otherwise"
    }
}
answers() { # MACHINE, FOLDER OF ITS ARCHIVES, EMULATOR..
    local kind=$1 folder=$2
    shift 2
    python3 tests/machines/build.py far "$kind" "$folder" "$work/far-$kind"
    export RIME_FAR="$* $work/far-$kind"
    compared "$kind" vectors tests/vectors
    lines=$(awk '/; library / { sub(/.*; library /, ""); lines += $1 } END { print lines }' "$work/printed")
    compared "$kind" fuzz 20000 1
    echo "machines: $kind${*:+, by ${1##*/}}: $lines lines of the vectors agree, with dirt above narrow numbers;" \
        "$(tail -n 1 "$work/printed")"
}
make --no-print-directory -s -f tests/face.mk face-near
answers "$machine" "${RIME_LIB:-target/staticlib}"
if [ "${RIME_LIB:-$PWD/target/staticlib}" != "$PWD/target/staticlib" ]; then
    echo "machines: $other was not tried, since $RIME_LIB has no archive for it"
    exit 0
fi
make --no-print-directory lib "TARGET=$other"
asks_alone "target/$other/librimesatchel.a" 'memcpy memset'
asks_alone "target/$other/libmanagement.a" 'memcpy'
emulator=$(command -v "qemu-$other" || command -v "qemu-$other-static" || echo)
if [ -n "$emulator" ]; then
    answers "$other" "target/$other" "$emulator"
else
    echo "machines: the archive for $other is built and was not run: there is no qemu-$other (Debian's package qemu-user)"
fi

# The programs for the other machine print what those of this one do.
if [ -z "$emulator" ] || [ "$other" = x86_64 ] || ! command -v "$other-linux-gnu-gcc" > /dev/null; then
    echo "machines: the programs for $other were not tried: that takes qemu-$other and $other-linux-gnu-gcc (Debian's qemu-user," \
        "gcc-aarch64-linux-gnu)"
    exit 0
fi
make --no-print-directory programs "TARGET=$other"
python3 tests/long_log.py 300000 > "$work/long"
head -c 200 examples/reading.log > "$work/none"
for program in linelist anything salvage sheet; do
    for log in examples/reading.log "$work/long" "$work/none" "$work/nosuch" "$work" --help; do
        "target/bin/$program" "$log" > "$work/ours" 2> "$work/ours.said"
        "$emulator" -L "/usr/$other-linux-gnu" "target/$other/$program" "$log" > "$work/theirs" 2> "$work/theirs.said"
        cmp "$work/ours" "$work/theirs" && cmp "$work/ours.said" "$work/theirs.said" ||
            fail "$program for $other, $log: it prints something else"
    done
done
echo "machines: $other, by ${emulator##*/}: the four programs print what those of this machine print"
