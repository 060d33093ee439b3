#!/bin/sh
# Speech to an HCA file and back to sound: the Rust's MDCT, then the library's header and frames, decoded by ffmpeg, which shares no code
# with either. Needs cargo and g++, target/library/libhca.a (scripts/library.sh), and ffmpeg for the way back: without it the files are made and
# compared, and that is all.
#   end-to-end.sh                  the two sample files at several bit rates
#   end-to-end.sh FILE.wav RATE    one 16-bit WAV file at a bit rate, in bits a second
# The HCA files of the last run stay in target/end-to-end: library.hca with the library's frames, rust.hca with the Rust's.
set -eu

refuse() {
    echo "end-to-end.sh: $1" >&2
    echo "usage: end-to-end.sh [FILE.wav RATE], RATE in bits a second, as: end-to-end.sh take.wav 64000" >&2
    exit 2
}

case $# in
0) ;;
2)
    [ -f "$1" ] || refuse "$1 is not there, or is no file"
    case $2 in
    '' | *[!0-9]*) refuse "$2 is no bit rate" ;;
    ? | ?? | ???) refuse "$2 bits a second are too few: RATE is not in kbit/s" ;;
    esac
    case $1 in
    /*) file=$1 ;;
    *) file=$(pwd)/$1 ;;
    esac
    ;;
1) refuse "RATE is missing" ;;
*) refuse "more than two words" ;;
esac

cd "$(dirname "$0")/.."
out=target/end-to-end
mkdir -p "$out"
library=${HCA_LIB_DIR:-target/library}/libhca.a
[ -f "$library" ] || refuse "$library is not there: run sh scripts/library.sh first"
(cd compare && sh import.sh >/dev/null && cargo build --quiet --release --offline --locked --bin end-to-end)
tool=compare/target/release/end-to-end

there_and_back() {
    echo "== $1 at $2 bit/s"
    "$tool" encode "$1" "$2" "$out/library.hca" "$out/rust.hca"
    if ! command -v ffmpeg >/dev/null; then
        echo "SKIPPED: decoding (ffmpeg is needed)"
        return
    fi
    for name in library rust; do
        ffmpeg -nostdin -v error -y -i "$out/$name.hca" -f f32le -c:a pcm_f32le "$out/$name.f32"
    done
    "$tool" measure "$1" "$out/library.f32" "$out/rust.f32"
}

if [ $# -eq 2 ]; then
    there_and_back "$file" "$2"
else
    for rate in 32000 48000 64000 128000; do there_and_back sample/line.wav "$rate"; done
    for rate in 72000 96000 128000 192000; do there_and_back sample/pair.wav "$rate"; done
    echo "== a square tone of 1003 Hz at 32000 bit/s, in both modes"
    "$tool" modes 1003 32000
fi
