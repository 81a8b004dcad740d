#!/usr/bin/env bash
# The desk tool by standard input and output, sound files whose header doesn't fit what is there, TMPDIR, closed descriptors, and
# messages.
. tests/desk_try.sh

# Standard input and output, wherever a file is read or written.
cd none || exit 1
through() { # WHAT EXPECTED COMMAND..: standard output is that file
    local what=$1 expected=$2
    shift 2
    "$@" > ../got 2> ../said || fail "$what ended with $?"
    same "$expected" ../got "$what"
    empty .
}
"$desk" receive -q ../in.log ../marked.wav --marks ../in.marks
through "salvage IN -" ../in.log "$desk" salvage -q ../in.log -
through "salvage - -" ../in.log piped ../in.log "$desk" salvage -q - -
through "send IN -" ../in.log "$desk" send -q ../in.wav -
through "send - -" ../in.log piped ../in.wav "$desk" send -q - -
through "send - from a file" ../in.log "$desk" send -q - - < ../in.wav
sox ../in.wav ../in.flac
through "send - of FLAC" ../in.log piped ../in.flac "$desk" send -q - -
"$desk" labels ../in.log > ../labels.txt
through "labels -" ../labels.txt piped ../in.log "$desk" labels -
"$desk" receive -q ../in.log ../got.wav --force --marks - | cmp - ../in.marks || fail "receive --marks -"
"$desk" picture -q - - < ../in.log > ../got 2> ../said || fail "picture - -"
[ "$(head -c 4 ../got | tail -c 3)" = PNG ] || fail "picture - - isn't a picture"
empty .
cd ..
ends 0 "standard output: 12000 samples a channel" "$desk" receive in.log -
ends 0 "standard output: format 56 hex" "$desk" send in.wav -
ends 0 "standard input: 2 channels" piped in.wav "$desk" send - none/x.log
rm -f none/x.log

# WAV on standard output: lengths that say nothing, and the sound of the file. Other kinds can't be written there.
for bits in 16 24 32; do
    format=56
    [ $bits != 32 ] || format=08
    for channels in 1 2 5; do
        sox -R -n -r 44100 -b $bits -c $channels some.wav synth 2400s whitenoise vol 0.5
        "$desk" send -q some.wav some.log --format $format --force
        "$desk" receive -q some.log some.wav --rate 44100 --force
        "$desk" receive -q some.log - --rate 44100 > got.wav
        cmp <(head -c 8 got.wav) <(printf 'RIFF\xff\xff\xff\xff') || fail "the header of WAV on standard output"
        cmp <(tail -c +41 got.wav | head -c 4) <(printf '\xff\xff\xff\xff') || fail "the length of WAV on standard output"
        sndfile-cmp some.wav got.wav || fail "WAV of $bits bits and $channels channels on standard output"
        "$desk" receive -q some.log - --rate 44100 2> /dev/null | sox -V1 -t wav - -t s32 - 2> /dev/null |
            cmp - <(sox -V1 some.wav -t s32 -) || fail "sox reads other sound from standard output"
        "$desk" send -q some.wav again.log --format $format --force
        "$desk" receive -q some.log - --rate 44100 | "$desk" send -q - - --format $format 2> said |
            cmp - again.log || fail "receive into send"
        grep -q "whether it was cut off can't be seen from its header" said || fail "no word of a header without a length"
    done
done
mkfifo pipe.flac pipe.wav
ends 64 "only WAV can be written into a pipe or a device" "$desk" receive small.log pipe.flac --force
exec 9<> pipe.wav
ends 0 "pipe.wav: isn't a regular file" "$desk" receive -q small.log pipe.wav --force
timeout 5 head -c 764 <&9 > got.wav || fail "WAV through a pipe is shorter"
"$desk" receive -q small.log - | cmp - got.wav || fail "WAV through a pipe"
to_full() { "$desk" "$@" > /dev/full; }
ends 3 "standard output: No space left on device" to_full receive -q in.log -
ends 3 "standard output: No space left on device" to_full salvage -q in.log -
ends 64 "x.jpg: a picture is PNG" "$desk" picture in.log x.jpg
[ ! -e x.jpg ] || fail "a picture of another kind"

# A sound file whose header doesn't fit what is there, as a file and through a pipe.
sndfile-convert in.wav in.w64 && sndfile-convert in.wav in.rf64 && sox in.wav in.aiff
for kind in wav w64 rf64 aiff flac; do
    head -c $(($(stat -c %s in.$kind) / 2)) in.$kind > cut.$kind
    ends 3 "cut.$kind: " "$desk" send cut.$kind none/x.log
    ends 3 "standard input: " piped cut.$kind "$desk" send - none/x.log
done
python3 - << 'PY'
wav = bytearray(open('in.wav', 'rb').read())
at = wav.index(b'data') + 4
for name, length in (('never', 0), ('large', 0xC0000000), ('stream', 0xFFFFFFFF), ('sox', 0x7FFFF000)):
    wav[at:at + 4] = length.to_bytes(4, 'little')
    open(f'{name}.wav', 'wb').write(wav)
open('nothing.wav', 'wb').write(wav[:at] + bytes(4) + b'LIST\x04\0\0\0INFO')
rf64 = bytearray(open('in.rf64', 'rb').read())
at = rf64.index(b'data') + 8
rf64[28:36] = bytes(8)  # the length of the sound, in the chunk ds64
open('never.rf64', 'wb').write(rf64)
open('nothing.rf64', 'wb').write(rf64[:at] + b'LIST\x04\0\0\0INFO')
PY
ends 3 "was never finished: its header tells of no sound, and more is there" "$desk" send never.wav none/x.log
ends 3 "is cut off" "$desk" send large.wav none/x.log
ends 0 "0 cells" "$desk" send nothing.wav none/x.log
ends 3 "was never finished" "$desk" send never.rf64 none/y.log
ends 0 "0 cells" "$desk" send nothing.rf64 none/x.log --force
for name in stream sox; do
    ends 0 "whether it was cut off can't be seen from its header" piped $name.wav "$desk" send - none/x.log --force
    same in.log none/x.log "sound from a header without a length"
done
sox in.wav -t raw - | flac -s -c --endian=little --sign=signed --channels=2 --bps=24 --sample-rate=48000 - > raw.flac 2> /dev/null
ends 0 "whether it was cut off can't be seen from its header" "$desk" send raw.flac none/x.log --force
same in.log none/x.log "FLAC without a length"
rm -f none/x.log
for kind in wav w64 rf64 aiff flac; do
    "$desk" send -q in.$kind none/x.log 2> said
    same in.log none/x.log "a log of $kind"
    [ ! -s said ] || fail "a whole $kind is doubted: $(cat said)"
    rm -f none/x.log
done

# TMPDIR is where what comes from a pipe is kept.
ends 3 "$dir/nowhere: standard input can't be kept there" piped in.wav env TMPDIR="$dir/nowhere" "$desk" send - none/x.log
ends 0 "all,2000," piped in.log env TMPDIR="$dir/nowhere" "$desk" sheet -
ends 0 "yes 0" piped in.log env TMPDIR="$dir/nowhere" "$desk" anything -
mkdir kept
"$desk" send -q - none/x.log < in.wav
TMPDIR="$dir/kept" piped in.wav "$desk" send -q - none/y.log
same none/x.log none/y.log "a log of what was kept in TMPDIR"
rm none/x.log none/y.log
empty kept
empty none

# Where standard error is closed, its lines don't go into the file; where standard output is, that is a fault.
{ cat small.log && tail -c 49 small.log; } > repeat.log
"$desk" salvage - none/x.log < repeat.log 2>&- || fail "salvage without standard error ended with $?"
same small.log none/x.log "lines of standard error went into the log"
closed() { "$desk" "$@" >&-; }
ends 3 "standard output: Bad file descriptor" closed list small.log
ends 3 "standard output: Bad file descriptor" closed salvage -q small.log -

# Messages: which limit, and what isn't a log.
sox -R -n -r 48000 -b 16 -c 13 many.wav synth 10s sine 311
ends 2 "many.wav: 13 channels: 56 hex holds at most 12: " "$desk" send many.wav none/y.log
ends 2 "57 hex: the formats are 02 04 06 08 13 15 17 43 45 47 52 54 56 5A: " "$desk" send in.wav none/y.log --format 57
ends 2 "order 2: the orders are 0 and 1: " "$desk" send in.wav none/y.log --order 2
ends 2 "--number 16: at most 15: " "$desk" send in.wav none/y.log --number 16
ends 2 "--second 16: at most 15: " "$desk" send in.wav none/y.log --second 16
{ printf '\x56\x0d\x00' && tail -c +4 small.log; } > wide.log
ends 2 "wide.log: 13 channels: 56 hex holds at most 12: the log is refused 2" "$desk" list wide.log
for command in list labels anything sheet; do
    ends 2 "in.wav: this isn't a log: it begins as a WAV file does: the log is refused 2" "$desk" $command in.wav
    ends 2 "empty.log: this isn't a log: it is empty: the log is refused 11" "$desk" $command empty.log
done
for call in "receive in.flac none/y.wav" "salvage in.aiff none/y.log" "picture in.w64 none/y.png"; do
    # shellcheck disable=SC2086
    ends 2 "this isn't a log: it begins as " "$desk" $call
done
! grep -nE ', *sigsetjmp' "$here"/desk/*.[ch] || fail "C11 doesn't let sigsetjmp stand behind a comma"
rm -f none/x.log
empty none
echo "desk: standard input and output, headers of sound files, and messages"
