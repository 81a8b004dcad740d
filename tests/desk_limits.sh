#!/usr/bin/env bash
# The longest AIFF file, to the sample, and four samples more than it holds; and longer sound as WAV and W64, which hold it. Logs
# of 390 MB, most of whose cells are missing, make 4 GiB of sound. Takes 6 GB of room in TMPDIR and some minutes.
#
#   make desk-limits
set -eu -o pipefail
export LC_ALL=C
bash tests/need.sh sox sndfile-programs
desk=$(realpath "${DESK:-target/desk}/rimesatchel")
dir=$(mktemp -d)
trap 'rm -rf "$dir"' EXIT
cd "$dir"
fail() {
    echo "desk: $*" >&2
    exit 1
}
most=1431633920 # samples of 24 bits in one channel: FFFF0000 hex octets
sox -R -n -r 48000 -b 24 -c 1 one.wav synth 192s sine 440
"$desk" send -q one.wav one.log

# Of each fifteen cells the last is there, so that the numbers count down; the very last stands where the sound is to end.
python3 - $most <<'PY'
import sys
log = open('one.log', 'rb').read()
cells = [log[at:at + 49] for at in range(3, len(log), 49)]


def write(name, count):
    jumps, left = divmod(count - 1, 15)
    turn = b''.join(cells[-at % 16] for at in range(16))
    with open(name, 'wb') as out:
        out.write(log[:3])
        for _ in range((jumps + 1) // 16):
            out.write(turn)
        out.write(turn[:49 * ((jumps + 1) % 16)])
        if left:
            out.write(cells[(count - 1) % 16])


most = int(sys.argv[1])
write('edge.log', -(-most // 12))
write('over.log', -(-most // 12) + 10000)
PY
status=0
"$desk" receive edge.log edge.aiff 2> said || status=$?
cat said
[ $status = 3 ] || fail "status $status and not 3"
grep -q "AIFF holds at most $most samples a channel here, and more came: .wav or .w64 holds them" said || fail "no such words"
[ ! -e edge.aiff ] || fail "edge.aiff is left"

# reads NAME SAMPLES: by sox and by libsndfile
reads() {
    [ "$(soxi -s "$1")" = "$2" ] || fail "$1: sox reads $(soxi -s "$1") samples and not $2"
    sndfile-info "$1" | grep -q "^Frames *: $2\$" || fail "$1: libsndfile reads other than $2 samples"
    rm "$1"
}
"$desk" receive edge.log edge.aiff --strict --length $most || [ $? = 1 ] # cells are missing
reads edge.aiff $most
for kind in wav w64; do
    "$desk" receive -q over.log over.$kind
    reads over.$kind $(((most / 12 + 1 + 10000) * 12))
done
echo "desk: the longest files are as long as they should be"
