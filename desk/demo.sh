#!/usr/bin/env bash
# A reading made on the spot goes into a log, the line loses some of its cells and spoils one, and what is left is taken back:
# the summary, the labels and the picture. `make demo` runs it; the files are in target/demo.
set -eu
export LC_ALL=C
bash tests/need.sh sox
if [ -e target/staticlib/librimesatchel.a ]; then
    make --no-print-directory -s -f desk/desk.mk desk
    desk=$PWD/target/desk/rimesatchel
else
    echo 'The library without its proof, built in seconds for a first look (`make lib` proves it).'
    python3 tools/quick_face.py
    make --no-print-directory -s -f desk/desk.mk desk RIME_LIB=target/quick/lib DESK=target/quick/desk
    desk=$PWD/target/quick/desk/rimesatchel
fi
rm -rf target/demo
mkdir -p target/demo
cd target/demo

# Ten seconds that rise and fall like a voice, in stereo, 24 bits.
sox -R -n -r 48000 -b 24 -c 2 reading.wav synth 10 pinknoise whitenoise tremolo 0.4 90 tremolo 3 70 vol 0.6
"$desk" send reading.wav reading.log --origin STUD --destination ARCH

# A log is a header of three octets, and 49 for each cell: the indication, then 48.
octets() { tail -c +$((1 + $1)) reading.log | head -c "$2"; }
cells() { octets $((3 + 49 * $1)) $((49 * $2)); }
{
    octets 0 3
    cells 0 20000
    cells 20010 5000 # ten cells are lost
    octets $((3 + 49 * 25010)) 1
    octets $((3 + 49 * 25010 + 1)) 48 | tr '\000-\377' '\200-\377\000-\177' # one is spoiled: the top bits turned over
    cells 25011 34989
    cells 60003 19997 # three more are lost
} > arrived.log

echo
"$desk" receive arrived.log arrived.wav --labels arrived.txt
echo
echo "target/demo/arrived.txt, a label track for Audacity:"
cat arrived.txt
echo
"$desk" labels arrived.log
"$desk" picture arrived.log arrived.png
echo
echo "the picture: target/demo/arrived.png"
