#!/bin/sh
# Every test of the repository. First `rt ci`: the layout of the sources, every proof, every must-fail edit, every program; it fails the gate, and so does an
# edit that is bad (one that shows nothing). Then the library for this machine, over what was proved, and all that is run on it. With cc: the C examples, the
# installed library, hostile calls. With cargo and cc: the command line on good and bad words, and the Rust crates' tests. With cargo and g++: the comparisons
# with the Rust and with the model in their small form, and HCA files made from end to end. What is missing for want of one of the three is said as SKIPPED;
# where CI is set that is a failure. The last line is that of `rt ci`: N passed, M failed.
set -eu
cd "$(dirname "$0")/.."
# has PROGRAM..: are all of them at hand?
has() {
    for program; do command -v "$program" >/dev/null || return 1; done
}
skipped=
skip() {
    echo "SKIPPED: $1"
    skipped=yes
}
log=$(mktemp)
trap 'rm -rf "$log" "$log.status" "$log.beside" "$log.passed"' EXIT
# The library is made over what `rt ci` leaves in out/, if the files are then still these. rt's other commands take none of that, and the next `rt ci` would
# put it back in place of its own: so it is removed once it has served.
export HCA_PASSED="$log.passed"
sh scripts/library.sh --sum >"$HCA_PASSED"
cleared() {
    for built in crates/*/out/rlib; do
        [ -e "$built/stamp" ] || rm -rf "$built"
    done
}
{ rt ci 2>&1 && echo 0 >"$log.status" || echo 1 >"$log.status"; } | tee "$log"
if [ "$(cat "$log.status")" -ne 0 ]; then
    cleared
    exit 1
fi
# an edit that is bad, as one that no longer fits its file, fails nothing in `rt ci`: it is counted beside those that were refused
edits=$(find crates -path '*/must-fail/*' -name '*.edit' | wc -l)
refused=$(sed -n 's/^rt: ok;.* must-fail edits: \([0-9]*\) refused.*/\1/p' "$log")
bad=$(sed -n 's/^rt: ok;.* must-fail edits: [^;]*, \([0-9]*\) bad;.*/\1/p' "$log")
if [ -n "$bad" ] || [ "${refused:-0}" -ne "$edits" ]; then
    cleared
    echo "FAILED: ${refused:-none} of the $edits must-fail edits were refused, ${bad:-none} are bad and show nothing (the lines that say BAD EDIT)"
    exit 1
fi
sh scripts/library.sh
cleared
# the command line is tried beside the examples and hostile calls: one processor each
beside=$log.beside tests=
if has cargo cc; then
    sh scripts/hcaframe-build.sh
    sh scripts/hcaframe-test.sh >"$beside" 2>&1 &
    tests=$!
else
    skip "the command line's tests (cargo and cc are needed)"
fi
if has cc; then
    for example in examples/*.c; do
        program=target/$(basename "$example" .c)-example
        cc -std=c99 -Wall -Wextra -Iinclude "$example" target/library/libhca.a -o "$program"
        "$program"
    done
    sh scripts/install-test.sh
    sh fuzz/run.sh 20000
else
    skip "the C examples, the installation and the hostile calls (cc is needed)"
fi
if [ -n "$tests" ]; then
    status=0
    wait "$tests" || status=$?
    cat "$beside"
    [ "$status" -eq 0 ] || exit 1
fi
if has cargo cc g++; then
    sh compare/check.sh
    sh scripts/end-to-end-test.sh
else
    skip "the comparisons with the Rust and the model, and HCA files from end to end (cargo, cc and g++ are needed)"
fi
if has cargo cc; then
    (cd rust && cargo test --workspace --quiet --offline)
else
    skip "the Rust crates' tests (cargo and cc are needed)"
fi
if [ -n "$skipped" ] && [ -n "${CI:-}" ]; then
    echo "FAILED: not all was run (the lines that begin with SKIPPED), and CI is set"
    exit 1
fi
tail -n 1 "$log"
