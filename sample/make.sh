#!/bin/sh
# Makes the sample anew: two voices speak, the Rust's front end turns them into spectra, and the library tries every frame.
# Needs espeak-ng and sox for the two WAV files, then cargo and target/library/libhca.a. `make.sh spectra` keeps the WAV files.
set -eu
cd "$(dirname "$0")"
if [ "${1:-all}" = all ]; then
    work=$(mktemp -d)
    trap 'rm -rf "$work"' EXIT
    espeak-ng -v en-gb -s 165 -w "$work/first.wav" "The take is safe. Ship it."
    espeak-ng -v en-us+f3 -s 165 -w "$work/second.wav" "Good. Next line, please."
    # the first voice alone; then both, the first to the left and the second to the right
    sox -D "$work/first.wav" line.wav norm -3
    sox -D "$work/first.wav" "$work/left.wav" norm -6 remix 1v0.9 1v0.35
    sox -D "$work/second.wav" "$work/right.wav" norm -6 remix 1v0.25 1v0.9 pad 0.1
    sox -D -m -v 1 "$work/left.wav" -v 1 "$work/right.wav" pair.wav trim 0 2.4
fi
(cd ../compare && sh import.sh >/dev/null && cargo build --quiet --release --offline --locked --bin make-sample)
../compare/target/release/make-sample line.wav 48000 line
../compare/target/release/make-sample pair.wav 72000 pair
