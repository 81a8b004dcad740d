#!/usr/bin/env bash
# The desk tool as its users would try it: sound files into logs and back, judged by sox and by libsndfile's own tools; cells
# taken out and spoiled, and the labels that name them; bad input, its message, its exit status, and no half file left.
set -eu -o pipefail
export LC_ALL=C
bash tests/need.sh sox flac sndfile-programs netpbm util-linux parallel
make --no-print-directory -f desk/desk.mk desk
here=$PWD
desk=$here/target/desk/rimesatchel
dir=$(mktemp -d)
trap 'umount "$dir/full" 2> /dev/null || :; rm -rf "$dir"' EXIT
chmod 755 "$dir" # for the user nobody, below
cd "$dir"

fail() {
    echo "desk: $*" >&2
    exit 1
}

# ends STATUS WORDS COMMAND..: the command ends with this status and says these words
ends() {
    local status=0 expected=$1 words=$2
    shift 2
    "$@" > said 2>&1 || status=$?
    [ "$status" = "$expected" ] || { cat said; fail "$* ended with $status and not $expected"; }
    grep -qF -- "$words" said || { cat said; fail "$*: no word of: $words"; }
}

# same A B: two sound files have the same samples, by libsndfile's own comparison and by sox
same() {
    sndfile-cmp "$1" "$2" || fail "$1 and $2 differ"
    cmp <(sox "$1" -t s32 -) <(sox "$2" -t s32 -) || fail "$1 and $2 differ"
}

# made FILE BITS CHANNELS LENGTH: a sound file with another tone in each channel
made() {
    local tones=() channel
    for channel in $(seq "$3"); do tones+=(sine $((311 * channel))); done
    sox -R -n -r 48000 -b "$2" -c "$3" "$1" synth "$4s" "${tones[@]}" vol 0.9
}

# There and back: 16 and 24 bits, one, two and five channels. 1,200 samples fill all cells.
for bits in 16 24; do
    for channels in 1 2 5; do
        for kind in wav flac; do
            name=in-$bits-$channels
            made "$name.$kind" "$bits" "$channels" 1200
            "$desk" send -q "$name.$kind" "$name.log" --force
            "$desk" receive -q "$name.log" "out.$kind" --force --strict
            same "$name.$kind" "out.$kind"
            "$desk" send -q "$name.$kind" other.log --format 06 --order 1 --force
            "$desk" receive -q other.log out.wav --force
            same "$name.$kind" out.wav
        done
    done
    sox "in-$bits-2.wav" "in-$bits-2.aiff"
    "$desk" send -q "in-$bits-2.aiff" other.log --force
    cmp "in-$bits-2.log" other.log || fail "an AIFF file makes another log than a WAV file"
    "$desk" receive -q other.log out.aiff --force
    same "in-$bits-2.wav" out.aiff
    "$desk" receive -q other.log out.w64 --force
    sndfile-cmp "in-$bits-2.wav" out.w64
done

# A log without a cell becomes a file without samples, whose header is whole.
printf '\x56\x02\x00' > nothing.log
for kind in wav rf64 w64 flac aiff; do
    "$desk" receive -q nothing.log "nothing.$kind"
    "$desk" send -q "nothing.$kind" other.log --force 2> said || { cat said; fail "$kind without samples can't be read"; }
    cmp nothing.log other.log || fail "$kind: another log than the one without a cell"
done
[ "$(od -A n -t u4 -j 4 -N 4 nothing.wav | tr -d ' ')" = "$(($(stat -c %s nothing.wav) - 8))" ] || fail "the length in nothing.wav"

# The file has the bits of the format, and the frequency that is asked for.
"$desk" send -q in-16-2.wav other.log --format 54 --force
"$desk" receive -q other.log out.wav --force --rate 44100
[ "$(soxi -b out.wav) $(soxi -r out.wav) $(soxi -c out.wav)" = "16 44100 2" ] || fail "16 bits, 44,100 Hz, 2 channels"
cmp <(sox in-16-2.wav -t s16 -) <(sox out.wav -t s16 -)
"$desk" send -q in-16-2.wav other.log --format 08 --force
"$desk" receive -q other.log out.wav --force
[ "$(soxi -b out.wav)" = 32 ] || fail "32 bits"
same in-16-2.wav out.wav
for format in 15 17; do
    "$desk" send -q in-16-2.wav other.log --format $format --second 15 --force
    "$desk" receive -q other.log out.wav --force --strict
    same in-16-2.wav out.wav
done

# A last cell that isn't full, samples of too many bits, and those of a 40-bit format.
sox in-24-2.wav part.wav trim 0 1000s
ends 0 "the last cell is filled with 2 samples of silence in each channel" "$desk" send part.wav part.log
"$desk" receive -q part.log out.wav --force
[ "$(soxi -s out.wav)" = 1002 ] || fail "1002 samples"
sox out.wav cut.wav trim 0 1000s
same part.wav cut.wav
ends 2 "--cut drops the low ones" "$desk" send in-24-2.wav no.log --format 54
"$desk" send -q in-24-2.wav other.log --format 54 --cut --force
"$desk" receive -q other.log out.wav --force
sox in-24-2.wav -t s32 whole.raw
python3 -c 'd = open("whole.raw", "rb").read()
open("top.raw", "wb").write(b"".join(d[at + 2:at + 4] for at in range(0, len(d), 4)))'
sox out.wav -t s16 - | cmp top.raw - || fail "the top 16 bits of 24"
"$desk" send -q in-24-2.wav other.log --format 5A --force
"$desk" receive -q other.log out.wav --force
[ "$(soxi -b out.wav)" = 64 ] || fail "64 bits of floating point"

# Cells taken out, repeated and spoiled: what stands is in its place, and the labels name the rest to the sample.
made long.wav 24 2 48000
"$desk" send -q long.wav long.log --status --origin STUD --destination ARCH --second 3
python3 - <<'PY'
log = open('long.log', 'rb').read()
records = [bytearray(log[at:at + 49]) for at in range(3, len(log), 49)]
assert len(records) == 8000
records[4000][1 + 4 * 3 + 3] ^= 8  # a bit of the number: refused 8
records[5000][1 + 4 * 2] ^= 0x80   # the top bit of slot 2: channel 1 at time 1
records[5000][1 + 4 * 3] ^= 0x80   # and of slot 3: channel 2 at time 1
records[6000][1 + 4 * 11] ^= 0x80  # slot 11: channel 2 at time 5
gone = set(range(100, 114)) | {2000} | {7000, 7001}
kept = [record for at, record in enumerate(records) if at not in gone]
kept.insert(1, kept[0])  # a repeat: refused 9
open('flawed.log', 'wb').write(log[:3] + b''.join(kept))
PY
ends 1 "7982 sound, 18 missing in 4 places, 2 refused" "$desk" receive flawed.log out.wav \
    --force --strict --labels out.txt --marks out.marks
cat > expected.txt <<'TXT'
0.012500	0.014250	missing: samples 600 to 683
0.250000	0.250125	missing: samples 12000 to 12005
0.500000	0.500125	missing: samples 24000 to 24005
0.625021	0.625042	damaged in channels 1 and 2: sample 30001
0.750104	0.750125	damaged in channel 2: sample 36005
0.875000	0.875250	missing: samples 42000 to 42011
TXT
diff expected.txt out.txt
sox long.wav -t s32 whole.raw
sox out.wav -t s32 flawed.raw
python3 - <<'PY'
whole, flawed, marks = (bytearray(open(name, 'rb').read()) for name in ('whole.raw', 'flawed.raw', 'out.marks'))
told = bytearray(96000)  # one octet a sample
for line in open('expected.txt'):
    start, end, what = line.rstrip('\n').split('\t')
    first, past = (round(float(second) * 48000) for second in (start, end))
    for time in range(first, past):
        for channel in range(2):
            at = time * 2 + channel
            if what.startswith('missing'):
                told[at] = 2
                whole[4 * at:4 * at + 4] = bytes(4)
            elif 'channels' in what or channel == 1:
                told[at] = 1
                whole[4 * at + 3] ^= 0x80
assert told == marks, 'the marks are not what the labels say'
assert whole == flawed, 'the sound that stands is not in its place'
PY

# A torn log is written up to its fault; a log of noise isn't.
head -c 1000 long.log > torn.log
ends 2 "record 20 broken 12: a record of the log is cut" "$desk" receive torn.log torn.wav
[ "$(soxi -s torn.wav)" = 120 ] || fail "120 samples of a torn log"

# Lists: linelist's lines. Channel status: what was sent.
if [ -x "$here/target/bin/linelist" ]; then
    for log in "$here/examples/reading.log" in-24-1.log torn.log; do
        "$desk" list "$log" > list.txt 2> /dev/null || [ $? = 2 ] # torn logs are among them
        "$here/target/bin/linelist" < "$log" | diff - list.txt
    done
fi
ends 2 "7 broken 12" "$desk" list - < "$here/examples/reading.log"
ends 0 "end 8000 sound 0 missing 0 refused" "$desk" list --strict long.log
ends 1 "end 7982 sound 18 missing 2 refused" "$desk" list --strict flawed.log
ends 3 "end 8000 sound 0 missing 0 refused" "$desk" list nosuch.log long.log
cat > expected.txt <<'TXT'
channel 1: 0.000000 to 1.000000 s, 250 blocks: fits, professional, 48000 Hz, 24 bits, origin "STUD", destination "ARCH"
channel 2: 0.000000 to 1.000000 s, 250 blocks: fits, professional, 48000 Hz, 24 bits, origin "STUD", destination "ARCH"
TXT
"$desk" labels long.log | diff expected.txt -
"$desk" send -q in-16-5.wav bare.log --no-status
ends 0 "channel 5: no channel status block" "$desk" labels bare.log
rm bare.log

# Requests 7, 9 and 3: their vectors, and the logs that were made here.
python3 "$here/tests/desk_vectors.py" "$desk" "$here/tests/vectors"
sox -n -r 48000 -b 24 -c 2 silence.wav trim 0 1200s
"$desk" send -q silence.wav silence.log
head -c 1000 silence.log > still.log
ends 0 "yes 0" "$desk" anything long.log
ends 1 "no 200" "$desk" anything - < silence.log
ends 1 "long.log: yes 0" "$desk" anything silence.log long.log
ends 2 "no 20" "$desk" anything still.log
ends 0 "end 7982 kept 2 left out 0 cut" "$desk" salvage flawed.log saved.log
"$desk" receive -q saved.log saved.wav --marks saved.marks
{ cmp out.wav saved.wav && cmp out.marks saved.marks; } || fail "the salvaged log is another reading"
ends 0 "end 7982 kept 0 left out 0 cut" "$desk" salvage saved.log again.log
cmp saved.log again.log || fail "a log that is salvaged twice"
ends 2 "end 20 kept 0 left out 17 cut" "$desk" salvage torn.log whole.log
cmp <(head -c 983 torn.log) whole.log
"$desk" sheet -q ./*.log > sheet.csv || [ $? = 2 ] # torn logs are among them
"$desk" sheet -q --plain ./*.log > plain.csv || [ $? = 2 ]
ends 0 "0,7982,18,1,1,0,0,95781,3,216,2250" "$desk" sheet flawed.log
cat flawed.log | "$desk" sheet --plain - | cmp - <("$desk" sheet --plain flawed.log)
parallel -k -N 3 "$desk" sheet -q ::: ./*.log > parts.csv || [ $? -le 100 ] # the number of parts that have a torn log
{ "$desk" add parts.csv 2> /dev/null || [ $? = 2 ]; } | cmp sheet.csv -
programs=$here/target/bin
if [ -x "$programs/anything" ]; then
    for log in ./*.log; do
        "$programs/anything" "$log" > theirs 2> theirs.txt
        "$desk" anything "$log" > ours 2> ours.txt || [ $? -le 2 ] # 1 for a no, 2 for a torn log
        cmp theirs ours
        sed 's/^anything: /rimesatchel: /' theirs.txt | diff - ours.txt
    done
fi
if [ -x "$programs/salvage" ]; then
    for log in flawed torn still; do
        "$programs/salvage" < $log.log > theirs 2> theirs.txt
        "$desk" salvage $log.log ours --force 2> ours.txt || [ $? = 2 ]
        cmp theirs ours && grep -v '^rimesatchel' ours.txt | diff theirs.txt -
    done
fi
if [ -x "$programs/sheet" ]; then "$programs/sheet" ./*.log | cmp plain.csv -; fi

# The picture: both colours under the legend where there is something to show, and neither where not.
"$desk" picture flawed.log flawed.png
"$desk" picture long.log long.png
pngtopnm flawed.png > flawed.ppm
pngtopnm long.png > long.ppm
python3 - <<'PY'
def colours(name):
    kind, size, most, dots = open(name, 'rb').read().split(b'\n', 3)
    width, height = map(int, size.split())
    assert (kind, width, most) == (b'P6', 1600, b'255') and len(dots) == width * height * 3
    return {dots[at:at + 3] for at in range(80 * width * 3, len(dots), 3)}


missing, damaged = bytes([214, 51, 0]), bytes([242, 178, 0])
flawed, sound = colours('flawed.ppm'), colours('long.ppm')
assert missing in flawed and damaged in flawed, 'a colour is missing in the picture'
assert missing not in sound and damaged not in sound, 'a colour too many in the picture'
PY

# The man page has every option of every subcommand, and no other.
for command in send receive list anything sheet add salvage labels picture verify play record; do
    "$desk" "$command" --help | grep -o -- '--[a-z]*' | sed '/--help/d; /--usage/d; /--version/d' | sort -u > options
    sed -n "/^\.SS $command /,/^\.S[SH] /p" "$here/desk/rimesatchel.1" | sed -n 's/.*\\-\\-\([a-z]*\).*/--\1/p' | sort -u |
        diff options - || fail "$command: the man page has other options"
done

# Bad input, and files that can't be written: the message, the status, and nothing left behind.
echo "no sound" > no.wav
{ printf '\xff\x7f\x02\x00' && head -c 500 "$desk"; } > noise.log # its first number, 16383, is no format
made many.wav 16 13 10
sox -R -n -r 48000 -e floating-point -b 32 -c 1 float.wav synth 10s pinknoise
"$desk" send -q in-16-2.wav wide.log --format 08
for kind in wav aiff flac; do
    head -c $(($(stat -c %s "in-16-2.$kind") / 2)) "in-16-2.$kind" > "cut.$kind"
done
sox -V1 in-16-2.wav -t wav - | cat > piped.wav
head -n 4 sheet.csv > cut.csv
sed '3s/,/,1/' sheet.csv > wrong.csv # a sheet that doesn't add up
{
    head -n 1 plain.csv
    echo '0,4294967295,0,0,0,0,0,0,0,0,0'
    echo 'all,4294967295,0,0,0,0,0,0,0,0,0'
} > most.csv
mkdir none full locked
ls > before
ends 3 "isn't a sound file" "$desk" send no.wav none/x.log
ends 3 "is cut off" "$desk" send cut.wav none/x.log
ends 3 "is cut off" "$desk" send cut.aiff none/x.log
ends 3 "cut.flac: " "$desk" send cut.flac none/x.log
ends 3 "aren't whole numbers" "$desk" send float.wav none/x.log
ends 3 "No such file or directory" "$desk" send nosuch.wav none/x.log
ends 2 "refused 2: there are no channels, or more than slots" "$desk" send many.wav none/x.log
ends 2 "refused 1: there is no such format" "$desk" send in-16-2.wav none/x.log --format 57
ends 2 "refused 4: a state or start number cannot be" "$desk" send in-16-2.wav none/x.log --number 16
ends 2 "refused 6: a sample or an ancillary number is too large" "$desk" send in-16-2.wav none/x.log --format 04 --status
ends 2 "the log is refused 1" "$desk" receive noise.log none/x.wav
ends 2 "the log is refused 11" "$desk" receive /dev/null none/x.wav
ends 2 "log refused 11" "$desk" list /dev/null
ends 2 "log refused 11" "$desk" anything /dev/null
ends 2 "the log is refused 1: " "$desk" salvage noise.log none/x.log
ends 2 "the log is refused 1: " "$desk" sheet noise.log
ends 3 "No such file or directory" "$desk" sheet long.log nosuch.log
ends 3 "no.wav: line 1 isn't that of a sheet" "$desk" add sheet.csv no.wav
ends 3 "cut.csv: line 5 isn't that of a sheet" "$desk" add cut.csv
ends 3 "wrong.csv: line 3 isn't that of a sheet" "$desk" add wrong.csv
# shellcheck disable=SC2046
ends 2 "the sheet is refused 18: there are more than 4,096 logs" "$desk" sheet --plain $(yes still.log | head -n 4097)
ends 0 "all,4294967295,0," "$desk" add most.csv
ends 3 "can't hold 2 channels of 32 bits" "$desk" receive wide.log none/x.flac
ends 3 "doesn't end in" "$desk" receive long.log none/x.mp3
ends 3 "is there already, and is kept" "$desk" receive long.log long.wav
ends 3 "is there already, and is kept" "$desk" receive long.log none/x.wav --labels out.txt
ends 3 "No such file or directory" "$desk" receive long.log nowhere/x.wav
ends 3 "Is a directory" "$desk" list none
ends 3 "Is a directory" "$desk" anything none

# A file that becomes shorter while it is read: 8 GB of silence, none of it on the disk.
shortened() {
    printf '\x02\x01\x00' > shrinking.log
    truncate -s 8G shrinking.log
    "$desk" "$1" -q still.log shrinking.log &
    while kill -0 $! && ! find "/proc/$!/fd" -lname '*/shrinking.log' | grep -q .; do sleep 0.01; done
    truncate -s 100 shrinking.log
    wait $!
}
ends 3 "shrinking.log: became shorter while it was read" shortened anything
grep -qx "still.log: no 20" said
ends 3 "shrinking.log: became shorter while it was read" shortened sheet
rm shrinking.log

ends 0 "200 cells" "$desk" send piped.wav piped.log # a header of no known length is no cut
cmp piped.log in-16-2.log && rm piped.log
list_to_full() { "$desk" list long.log > /dev/full; }
ends 3 "No space left on device" list_to_full
ends 64 "there is no subcommand" "$desk" sned in.wav out.log
ends 64 "isn't a number in hex" "$desk" send in-16-2.wav none/x.log --format 5G
ends 64 "Usage:" "$desk" send in-16-2.wav
[ -z "$(ls -A none)" ] || fail "left behind: $(ls -A none)"
rm -f said
ls | diff <(grep -v '^said$' before) - || fail "files were left behind"
chmod 555 locked
other=()
[ "$(id -u)" != 0 ] || other=(setpriv --reuid=65534 --regid=65534 --clear-groups) # nothing is read-only to root
ends 3 "Permission denied" "${other[@]}" "$desk" send long.wav locked/x.log
[ -z "$(ls -A locked)" ] || fail "left behind in a read-only folder"
if mount -t tmpfs -o size=64k tmpfs full 2> /dev/null; then
    for call in "send long.wav full/x.log" "receive long.log full/x.wav" "receive long.log full/x.flac" \
        "receive long.log ok.wav --marks full/m" "salvage long.log full/x.log"; do
        # shellcheck disable=SC2086
        ends 3 "No space left on device" "$desk" $call
        [ -z "$(ls -A full)" ] || fail "left behind on a full disk: $(ls -A full)"
        [ ! -e ok.wav ] || fail "the sound was kept although its marks were not"
    done
else # a limit on the size of a file takes its place
    (ulimit -f 64 && ends 3 "File too large" "$desk" send long.wav full/x.log)
    (ulimit -f 64 && ends 3 "File too large" "$desk" receive long.log full/x.wav)
    [ -z "$(ls -A full)" ] || fail "left behind: $(ls -A full)"
fi

# A call that is stopped leaves nothing either.
mkdir stopped
mkfifo never
"$desk" receive -q never stopped/x.wav 2> /dev/null &
running=$!
exec 7> never
head -c 100000 long.log >&7
for _ in $(seq 100); do
    [ -z "$(ls -A stopped)" ] || break
    sleep 0.1
done
[ -n "$(ls -A stopped)" ] || fail "nothing was begun"
kill -TERM "$running"
wait "$running" && fail "a call that was stopped ended well"
exec 7>&-
[ -z "$(ls -A stopped)" ] || fail "left behind by a call that was stopped: $(ls -A stopped)"

# Memory: a buffer at a time, so that a long reading takes no more.
gcc -O1 -std=c11 -D_GNU_SOURCE -Wall -Wextra -Werror "$here/tests/peak.c" -o peak
sox long.wav long.wav long.wav long.wav long.wav longer.wav
for call in "send longer.wav longer.log" "receive longer.log longer-back.wav" "list longer.log" \
    "salvage longer.log longer-new.log"; do
    # shellcheck disable=SC2086
    ./peak "$desk" $call -q 2> said > /dev/null
    held=$(sed 's/.* \([0-9]*\) KiB/\1/' said)
    [ "$held" -lt 16384 ] || fail "$call: $held KiB of memory"
    echo "desk: $call held $held KiB"
done
echo "desk: tried as its users would"
