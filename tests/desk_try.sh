# What the scripts tests/gate/4*-desk-*.sh share: the tool, a folder of their own, and logs in it. They source it.
#
# DESK_TOOL=PROGRAM tries another build, and KEEP_ON=1 goes on after a fault: so it is seen which of these an older tool fails.
# shellcheck shell=bash disable=SC2034 # some of these are for those that source it
set -eu -o pipefail
export LC_ALL=C
bash tests/need.sh sox flac sndfile-programs util-linux
make --no-print-directory -s -f desk/desk.mk desk
here=$PWD
desk=${DESK_TOOL:-$here/target/desk/rimesatchel}
lib=${RIME_LIB:-$here/target/staticlib}
dir=$(mktemp -d)
trap 'rm -rf "$dir"' EXIT
cd "$dir" || exit 1
[ -z "${KEEP_ON:-}" ] || set +e

fail() {
    echo "desk: $*" >&2
    [ -n "${KEEP_ON:-}" ] || exit 1
}

# ends STATUS WORDS COMMAND..: the command ends with this status and says or prints these words
ends() {
    local status=0 expected=$1 words=$2
    shift 2
    "$@" > printed 2> said || status=$?
    if [ "$status" != "$expected" ]; then
        tail -n 3 said
        fail "$* ended with $status and not $expected"
    elif ! grep -qaF -- "$words" printed said; then
        tail -n 3 said
        fail "$*: no word of: $words"
    fi
}

# same A B WHAT: two files are the same
same() { cmp "$1" "$2" || fail "$3"; }

# has FOLDER NAME..: these are in it, and nothing else
has() {
    local folder=$1 there
    shift
    there=$(ls -A "$folder")
    [ "$there" = "$(printf '%s\n' "$@")" ] || fail "$folder has $there"
}

# empty FOLDER: nothing is in it
empty() {
    has "$1"
    rm -rf "${1:?}"/*
}

# piped FILE COMMAND..: standard input is a pipe
piped() { "${@:2}" < <(cat "$1"); }

sox -R -n -r 48000 -b 24 -c 2 in.wav synth 12000s sine 311 sine 622 vol 0.9
"$desk" send -q in.wav in.log
"$desk" receive -q in.log whole.wav
head -c 983 in.log > small.log # 20 records
head -c 1001 in.log > torn.log # and 18 octets of another
: > empty.log
mkdir none
