#!/bin/sh
# library.sh                        the proved library for this machine, at target/library/libhca.a, where C, Rust and every script here take it from
# library.sh --for x86-64|aarch64   the one for that processor, at target/library/PROCESSOR/libhca.a
# library.sh --sum                  prints the sum of all that the library is made of, and makes nothing
# Needs the kit alone, which runs on x86-64. It is what `rt lib` writes in crates/hca, for the plainest processor of its kind; for aarch64 the compiler is
# told so. What has not changed since is not made again. A crate that is proved is told, the how-manieth of how many.
# HCA_PASSED names a file with that sum, made right before an `rt ci` that has passed (scripts/test.sh does so). If the sum is the same now, hca alone is
# proved and compiled, over what `rt ci` left in out/.
set -eu
place=target/library processor=x86-64 only=
case $#,${1:-} in
0,) ;;
1,--sum) only=sum ;;
2,--for) place=target/library/$2 processor=$2 ;;
*) processor= ;;
esac
case $processor in
x86-64) target="--cpu x86-64" ;;
aarch64) target="--target aarch64-unknown-linux-gnu" ;;
*) echo "usage: library.sh [--for x86-64|aarch64 | --sum]; without a word the library for x86-64, at target/library/libhca.a" >&2; exit 2 ;;
esac
cd "$(dirname "$0")/.."
if ! command -v rt >/dev/null; then
    echo "library.sh: rt is not there: the Rattle kit makes the library, and runs on Linux on x86-64. One that was made elsewhere is named by HCA_LIB_DIR" >&2
    exit 2
fi
folder=$(mktemp -d)
trap 'rm -rf "$folder"' EXIT

# crates: hca and those below it, each after those that it uses, in rt's order; lines: their lines of crates.txt; direct: what hca itself uses; kit: the
# libraries that they use of the kit
awk -F: -v to="$folder" 'function need(crate,    n, i, names) {
        if (!(crate in uses)) print crate >(to "/kit")
        if (!(crate in uses) || seen[crate]++) return
        n = split(uses[crate], names, /[ ,\t]+/)
        for (i = 1; i <= n; i++) {
            if (names[i] == "") continue
            need(names[i])
            if (crate == "hca" && names[i] in uses) print names[i] >(to "/direct")
        }
        print crate >(to "/crates")
        print line[crate] >(to "/lines")
    }
    { sub(/#.*/, ""); split($1, name, " "); if (name[1] != "") { uses[name[1]] = $2; line[name[1]] = $0 } }
    END { need("hca") }' crates.txt
touch "$folder/kit" "$folder/direct"
of=$(wc -l <"$folder/crates")

# made_of: all that decides what the library is: this script, the kit, and each crate's own line and files
made_of() {
    cat scripts/library.sh
    rt version
    cat "$folder/lines"
    while IFS= read -r crate; do
        for part in src specs proofs; do
            if [ -d "crates/$crate/$part" ]; then echo "crates/$crate/$part"; fi
        done >>"$folder/parts"
    done <"$folder/crates"
    # shellcheck disable=SC2046
    find $(cat "$folder/parts") -type f -exec sha256sum {} + | LC_ALL=C sort
}
sum=$(made_of | sha256sum)
if [ -n "$only" ]; then
    echo "$sum"
    exit
fi
if [ -f "$place/libhca.a" ] && [ "$(cat "$place/made-of" 2>/dev/null)" = "$sum" ]; then
    echo "$place/libhca.a, for $processor (unchanged)"
    exit
fi

# left: does what `rt ci` left of each crate below hca stand there, and not what it put back? rt's other commands put a stamp beside what they build
left() {
    [ -n "${HCA_PASSED:-}" ] && [ "$(cat "$HCA_PASSED")" = "$sum" ] || return 1
    while IFS= read -r crate; do
        built=crates/$crate/out/rlib
        if [ "$crate" = hca ]; then continue; fi
        if [ -e "$built/stamp" ] || [ -z "$(find "$built/$crate.rlib" -prune -newer "$HCA_PASSED" 2>/dev/null)" ]; then return 1; fi
    done <"$folder/crates"
}

# over_left: hca proved and compiled over that, by the words that rt gives its own program
over_left() {
    kit=$(dirname "$(rt doc)")
    set -- --crate-name hca src/lib.rt --extern "std=$kit/rlibs/std.rlib" -L "dependency=$kit/rlibs"
    while IFS= read -r crate; do
        set -- "$@" --extern "$crate=$kit/rlibs/$crate.rlib"
    done <"$folder/kit"
    while IFS= read -r crate; do
        set -- "$@" --extern "$crate=$PWD/crates/$crate/out/rlib/$crate.rlib"
    done <"$folder/direct"
    while IFS= read -r crate; do
        if [ "$crate" != hca ]; then set -- "$@" -L "dependency=$PWD/crates/$crate/out/rlib"; fi
    done <"$folder/crates"
    # shellcheck disable=SC2086
    (cd crates/hca && "$kit/bin/rattle" build "$@" --antt-project "$kit/rattle/logic/antt-project.json" --logic-built "$kit/logic_built" --jobs 2 \
        --links hca= --crate-type staticlib $target --toolchain "$kit/toolchain" --backend llvm -o "$folder/libhca.a")
}

# told: rt's lines as it goes, of them a line for each crate that it proves, and none for one that is unchanged
told() {
    crate=
    while IFS= read -r line; do
        case $line in
        "rt: waiting "* | "rt: "*"waiting for it"*) echo "${line#rt: }" ;;
        "rt: chose --jobs "*" for "*) crate=${line##* for } begin=$(date +%s) ;;
        "logic=proved "*)
            if [ -n "$crate" ]; then
                echo "$(grep -n -x "$crate" "$folder/crates" | cut -d: -f1) of $of: $crate proved ($(($(date +%s) - begin)) s)"
            fi
            crate=
            ;;
        esac
    done
}

# put ARCHIVE: an unchanged library keeps its time, so that cargo builds nothing anew
put() {
    mkdir -p "$place"
    rm -f "$place/made-of"
    cmp -s "$1" "$place/libhca.a" || cp "$1" "$place/libhca.a"
    echo "$sum" >"$place/made-of"
    echo "$place/libhca.a, for $processor"
}

if left; then
    echo "$of of $of: hca is proved and compiled, over what rt ci proved"
    if over_left >"$folder/log" 2>&1; then
        put "$folder/libhca.a"
        exit
    fi
    cat "$folder/log"
    echo "what rt ci proved could not be taken, so all that is not kept is proved again"
fi
# shellcheck disable=SC2086
{ (cd crates/hca && rt lib $target) 2>&1 && echo 0 >"$folder/status" || echo 1 >"$folder/status"; } | tee "$folder/log" | told
[ "$(cat "$folder/status")" -eq 0 ] || { cat "$folder/log"; exit 1; }
put crates/hca/out/libhca.a
