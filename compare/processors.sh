#!/bin/sh
# The library for x86-64 and the one for aarch64 on the fixed vectors: what each call leaves has to be the same, byte for byte. Runs on x86-64, by hand: no
# test calls it. Needs both, sh scripts/library.sh and the same with --for aarch64; cc; and of Debian's packages gcc-aarch64-linux-gnu, libc6-dev-arm64-cross
# and qemu-user, a compiler for the other processor and an emulator of it.
set -eu
cd "$(dirname "$0")"
one=../target/library/libhca.a other=../target/library/aarch64/libhca.a
for library in "$one" "$other"; do
    [ -f "$library" ] || { echo "$library is not there: run sh scripts/library.sh, and the same with --for aarch64, first" >&2; exit 2; }
done
for program in cc aarch64-linux-gnu-gcc qemu-aarch64; do
    command -v "$program" >/dev/null || { echo "processors.sh: $program is needed" >&2; exit 2; }
done
folder=$(mktemp -d)
trap 'rm -rf "$folder"' EXIT

cc -std=c99 -O2 -Wall -Wextra -I../include processors.c "$one" -o "$folder/x86-64"
aarch64-linux-gnu-gcc -std=c99 -O2 -Wall -Wextra -static -I../include processors.c "$other" -o "$folder/aarch64"

for vectors in vec/*.vec; do
    if ! { "$folder/x86-64" <"$vectors" >"$folder/x86-64.out" && qemu-aarch64 "$folder/aarch64" <"$vectors" >"$folder/aarch64.out" &&
        cmp "$folder/x86-64.out" "$folder/aarch64.out"; }; then
        echo "WRONG: $vectors: the library for x86-64 and the one for aarch64 differ, or a call failed"
        exit 1
    fi
    echo "$vectors: $(wc -c <"$folder/x86-64.out") bytes by both libraries, equal"
done
