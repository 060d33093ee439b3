#!/bin/sh
# Tries scripts/end-to-end.sh as a user would call it: from another folder, with too few words, with files that it takes and files that it does not.
# Needs what that needs; ffmpeg only where it is at hand.
set -u
here=$(cd "$(dirname "$0")/.." && pwd)
folder=$(mktemp -d)
trap 'rm -rf "$folder"' EXIT
cd "$folder" || exit 1

# tried STATUS TEXT WORDS..: the script with the words ends with the status and says the text
tried() {
    want=$1 text=$2
    shift 2
    got=0
    sh "$here/scripts/end-to-end.sh" "$@" >log 2>&1 || got=$?
    if [ "$got" -ne "$want" ] || ! grep -q -F -e "$text" log; then
        echo "WRONG: end-to-end.sh $*: status $got, not $want, or it does not say: $text"
        cat log
        exit 1
    fi
    echo "ok: end-to-end.sh $*"
}

tried 2 'RATE is missing' "$here/sample/line.wav"
tried 2 'more than two words' a.wav 64000 b.wav
tried 2 'none.wav is not there' none.wav 64000
cp "$here/sample/pair.wav" plain.wav
tried 2 'not in kbit/s' plain.wav 64
tried 2 'fast is no bit rate' plain.wav fast
tried 0 'bytes, equal' plain.wav 96000
cp "$here/target/end-to-end/library.hca" plain.hca

# the same samples by an extensible header, as ffmpeg and sox write it for more than two channels, and by one of 24 bits
header() { # $1: bits a sample, as a byte that %b prints
    printf 'RIFF\000\000\000\000WAVEfmt \050\000\000\000\376\377\002\000\042\126\000\000\210\130\001\000\004\000%b\000' "$1"
    printf '\026\000%b\000\003\000\000\000\001\000\000\000\000\000\020\000\200\000\000\252\000\070\233\161' "$1"
    printf 'data\340\072\003\000'
}
{ header '\0020'; tail -c +45 plain.wav; } >extensible.wav
{ header '\0030'; tail -c +45 plain.wav; } >deep.wav
tried 0 'bytes, equal' extensible.wav 96000
cmp plain.hca "$here/target/end-to-end/library.hca" || { echo "WRONG: the extensible header gives another file"; exit 1; }
tried 1 '24-bit integer samples' deep.wav 96000
printf 'HCA\000' >other.wav
tried 1 'not a WAV file' other.wav 96000
