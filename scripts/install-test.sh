#!/bin/sh
# Installs into temporary folders, one of them with blanks in its name, and builds the C example from there, by the words of the pkg-config file, as a user
# would. The examples and scripts/counts.c, which holds the header's *_COUNT and its version against the library, also have to compile without a warning in
# every C and C++ that the header names, and to run. Needs target/library/libhca.a; says what it skipped where cc or g++ is missing.
set -eu
cd "$(dirname "$0")/.."
folder=$(mktemp -d)
trap 'rm -rf "$folder"' EXIT
strict="-Wall -Wextra -Wpedantic -Werror"
version=$(sed -n 's/^#define HCA_VERSION "\(.*\)"$/\1/p' include/hca_frame.h)

wrong() {
    echo "WRONG: $1"
    exit 1
}

# words: what the installed file says for a compiler, quoted for a shell; where pkg-config is not at hand its own lines, with the names filled in
words() {
    if command -v pkg-config >/dev/null; then
        PKG_CONFIG_PATH=${pc%/*} pkg-config --cflags --libs hca_frame
    else
        sed -n 's/^\(prefix=\)\(.*\)$/\1"\2"/p; s/^\([a-z]*=\)\(\${.*\)$/\1"\2"/p' "$pc" >"$folder/names"
        . "$folder/names"
        sed -n 's/^\(Cflags\|Libs\): //p' "$pc" | sed "s|\${includedir}|$includedir|; s|\${libdir}|$libdir|" | tr '\n' ' '
    fi
}

here=$(pwd)
(cd "$folder" && sh "$here/scripts/install.sh" one/prefix) >"$folder/log" || wrong "install.sh"
sh scripts/install.sh "$folder/two words/a  prefix" >"$folder/log" || wrong "install.sh into a folder with blanks in its name"
pc=$folder/one/prefix/lib/pkgconfig/hca_frame.pc
for file in include/hca_frame.h lib/libhca.a lib/pkgconfig/hca_frame.pc; do
    [ -f "$folder/one/prefix/$file" ] || wrong "$file was not installed"
done
grep -q -x "Version: $version" "$pc" || wrong "the version of pkg-config"
if sh scripts/install.sh 2>"$folder/log"; then wrong "install.sh without a folder"; fi
grep -q '^usage: ' "$folder/log" || wrong "install.sh without a folder says nothing"
if sh scripts/install.sh "$folder/a#b" 2>"$folder/log"; then wrong "install.sh into a folder that its pkg-config file can't name"; fi
[ ! -e "$folder/a#b" ] && grep -q 'PREFIX has a character' "$folder/log" || wrong "install.sh does not say what is wrong with a folder's name"
echo "ok: install"

if command -v cc >/dev/null; then
    for place in one/prefix "two words/a  prefix"; do
        pc=$folder/$place/lib/pkgconfig/hca_frame.pc
        eval "cc -std=c99 $strict examples/encode.c $(words) -o '$folder/encode'"
        "$folder/encode" >"$folder/log" || wrong "the example"
        grep -q 'read back: the same record' "$folder/log" || wrong "the example's text"
    done
    echo "ok: the C example by pkg-config, also from a folder with blanks in its name"
else
    echo "SKIPPED: the C example by pkg-config (cc is needed)"
fi

# tried COMPILER LANGUAGE STANDARD..: the programs in each standard
tried() {
    compiler=$1 language=$2
    shift 2
    for standard; do
        for source in examples/*.c scripts/counts.c; do
            # shellcheck disable=SC2086
            $compiler -std=$standard $strict -I"$folder/one/prefix/include" -x $language "$source" -x none "$folder/one/prefix/lib/libhca.a" \
                -o "$folder/program"
            "$folder/program" >"$folder/log" || { cat "$folder/log"; wrong "$source as $standard"; }
        done
    done
    echo "ok: the examples and the header's counts as $*"
}

if command -v cc >/dev/null; then tried cc c c99 c11; else echo "SKIPPED: the header in C (cc is needed)"; fi
if command -v g++ >/dev/null; then tried g++ c++ c++98 c++11 c++14 c++17 c++20; else echo "SKIPPED: the header in C++ (g++ is needed)"; fi
