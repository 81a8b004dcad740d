#!/usr/bin/env bash
# The desk tool and the files of its users: a log that is cut or grows while it is read, devices, pipes and links in the place of a
# file, one name given twice, and what is left where an output fails or a call is stopped.
. tests/desk_try.sh

# A log that is cut while it is read: before the first read, after a buffer (within a record, and between two),
# and when all of it was read. Then one that grows.
size=$(stat -c %s in.log)
[ "$size" = $((3 + 2000 * 49)) ] || fail "2,000 records"
gcc -shared -fPIC -O1 -std=c11 -D_GNU_SOURCE -Wall -Wextra -Werror "$here/tests/desk_hook.c" -o hook.so
hooked() { # READ SIZE COMMAND..: the file read.log gets this size before that read of it
    local read=$1 given=$2
    shift 2
    cp in.log read.log
    LD_PRELOAD=$dir/hook.so HOOK_FILE=read.log HOOK_READ=$read HOOK_SIZE=$given "$@"
}
calls=("receive read.log none/x.wav --labels none/x.txt" "list read.log" "salvage read.log none/x.log" "labels read.log"
    "picture read.log none/x.png")
for call in "${calls[@]}"; do
    for cut in "1 0" "2 60000" "2 $((3 + 1500 * 49))" "3 1000"; do
        # shellcheck disable=SC2086 # several words
        ends 3 "read.log: became shorter while it was read" hooked $cut "$desk" $call
        empty none
    done
    # shellcheck disable=SC2086
    ends 0 "read.log: grew while it was read, and is taken up to the end that was met" hooked 2 $((size + 98)) "$desk" $call
    rm -f none/*
done
ends 3 "1499 sound" hooked 2 $((3 + 1500 * 49)) "$desk" list read.log
! grep -q '^end' printed || fail "a list of a log that was cut ends as if it were whole"
ends 0 "2001 sound" hooked 2 $((size + 98)) "$desk" list read.log
{ printf '\x02\x01\x00' && head -c $((2000 * 49)) /dev/zero; } > silent.log # so that `anything` reads all of it
mv in.log sound.log
mv silent.log in.log
for command in sheet anything; do
    for cut in "1 0" "2 60000" "2 $((3 + 1500 * 49))" "3 $((size - 1))"; do
        # shellcheck disable=SC2086
        ends 3 "read.log: became shorter while it was read" hooked $cut "$desk" $command read.log
    done
    [ "$command" = sheet ] && well=0 || well=1
    ends $well "read.log: grew while it was read" hooked 2 $((size + 49)) "$desk" "$command" read.log
done
mv sound.log in.log

# What isn't a regular file is written into: a pipe, a device where one can be made, and standard output by a link as /dev/stdout
# is one. Never those of the machine itself: a tool that renames over them would take them away.
mkfifo pipe
exec 8<> pipe # so that it has a reader
ends 0 "pipe: isn't a regular file: what is written into it can't be taken back" "$desk" salvage small.log pipe --force
[ -p pipe ] || fail "a pipe was replaced by a file"
timeout 5 head -c 983 <&8 > got || fail "a log through a pipe is shorter"
same small.log got "a log through a pipe"
if mknod null c 1 3 2> /dev/null && : 2> /dev/null > null; then
    ends 0 "end 20 kept 0 left out 0 cut" "$desk" salvage small.log null --force
    [ -c null ] || fail "a device was replaced by a file"
fi
ends 3 "pipe: is there already, and is kept" "$desk" salvage small.log pipe
ends 3 "Is a directory" "$desk" salvage small.log none --force
ln -s /proc/self/fd/1 stdout
"$desk" salvage -q small.log stdout --force > got 2> said
[ -L stdout ] || fail "a link to standard output was replaced by a file"
same small.log got "a log by standard output's other name"
"$desk" salvage -q small.log stdout --force >> got 2> said
cat small.log small.log | cmp - got || fail "what is added to a file by standard output's other name"
ends 3 "pipe: isn't whole, and what was written there can't be taken back" hooked 2 60000 "$desk" salvage read.log pipe --force
timeout 5 head -c 50000 <&8 > got || fail "a pipe: 50,000 octets of what was written can't be read"

# Links are followed, the mode and the owner stay, and everything reaches the disk before it is said to be well.
mkdir near far
echo old > far/target.log
chmod 600 far/target.log
[ "$(id -u)" != 0 ] || chown 65534:65534 far/target.log
before=$(stat -c '%a %u %g' far/target.log)
stays() { [ "$(stat -c '%a %u %g' far/target.log)" = "$before" ] || fail "mode and owner: $(stat -c '%a %u %g' far/target.log)"; }
ends 0 "end 20 kept" "$desk" salvage small.log far/target.log --force
stays
ln -s ../far/target.log near/link.log
ln -s link.log near/again.log
: > calls
ends 0 "end 2000 kept" env LD_PRELOAD="$dir/hook.so" HOOK_LOG="$dir/calls" "$desk" salvage in.log near/again.log --force
same in.log far/target.log "the target of a link"
{ [ -L near/link.log ] && [ -L near/again.log ]; } || fail "a link was replaced by a file"
stays
has far target.log
has near again.log link.log
printf 'sync target.log\nname target.log\nsync far\n' | diff - calls || fail "what reaches the disk, and when"
ln -s ../far/new.log near/new.log
ends 0 "end 20 kept" "$desk" salvage small.log near/new.log
same small.log far/new.log "a link to what isn't there yet"
ends 3 "is there already, and is kept" "$desk" salvage small.log near/new.log
ln -s loop loop
ends 3 "Too many levels of symbolic links" "$desk" salvage small.log loop --force
(umask 027 && "$desk" salvage -q small.log far/mode.log)
[ "$(stat -c %a far/mode.log)" = 640 ] || fail "the mode of a new file"
long=$(printf '%0251d' 0).log # no temporary name may be longer than a name can be
ends 0 "end 20 kept" "$desk" salvage small.log "far/$long"

# One name given twice: nothing is opened, and what is there stays.
cp in.wav b.wav
cp in.log a.log
ln -s a.log link.log
ln a.log hard.log
ends 64 "whole.wav is named twice" "$desk" receive a.log whole.wav --force --labels whole.wav
ends 64 "are one file" "$desk" receive a.log whole.wav --force --marks ./whole.wav
ends 64 "a.log is named twice" "$desk" receive a.log none/y.wav --force --labels a.log
ends 64 "b.wav is named twice" "$desk" send b.wav b.wav --force
ends 64 "are one file" "$desk" salvage a.log link.log --force
ends 64 "are one file" "$desk" salvage link.log hard.log --force
ends 64 "are one file" "$desk" picture a.log "$dir/a.log" --force
ends 64 "are one file" "$desk" receive a.log none/y.wav --labels none/l.txt --marks none/../none/l.txt
ends 64 "standard output is named twice" "$desk" receive a.log none/y.wav --labels - --marks -
ends 64 "are one file" timeout 5 "$BASH" -c "'$desk' salvage a.log - >> a.log"
same in.wav b.wav "the input that was named twice"
same in.log a.log "the log that was named twice"
"$desk" receive -q in.log got.wav
same whole.wav got.wav "the sound that was named twice"
empty none
ends 0 "pipe: isn't a regular file" "$desk" receive -q small.log none/y.wav --force --labels pipe --marks pipe
rm -f none/y.wav
ends 0 "all,40," "$desk" sheet small.log small.log

# Where the second output can't have its name, the first isn't left, nor is what was there lost.
second() { # ACT OPTION..: receives from a pipe, and acts when both outputs are begun
    local before
    mkfifo feed
    before=$(find both | wc -l)
    # a shell lets its background ignore SIGQUIT
    env --default-signal=QUIT "$desk" receive -q feed both/x.wav --labels both/l.txt "${@:2}" 2> said &
    running=$!
    exec 7> feed
    cat small.log >&7
    for _ in $(seq 100); do
        [ "$(find both | wc -l)" -lt $((before + 2)) ] || break
        sleep 0.05
    done
    $1
    exec 7>&-
    rm feed
    wait "$running" 2> /dev/null && fail "an output that couldn't have its name: status 0"
    return 0
}
mkdir both
second "touch both/l.txt"
grep -q "l.txt: File exists" said || fail "no word of the file that is there"
has both l.txt
rm both/l.txt
echo old > both/x.wav
second "mkdir both/l.txt" --force
has both l.txt x.wav
[ "$(cat both/x.wav)" = old ] || fail "the file that was there is lost"

rmdir both/l.txt
echo old > both/l.txt
ends 0 "" "$desk" receive small.log both/x.wav --labels both/l.txt --force
has both l.txt x.wav
"$desk" receive -q small.log - | tail -c 720 | cmp - <(tail -c 720 both/x.wav) || fail "the sound of a file that was there"
[ ! -s both/l.txt ] || fail "the labels of a file that was there"

# A call that is stopped by SIGQUIT leaves nothing.
stop() { kill -QUIT "$running"; }
rm -r both
mkdir both
ulimit -c 0
{ second stop; } 2> /dev/null
empty both
echo "desk: files that change, devices, links, and names given twice"
