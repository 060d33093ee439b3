#!/bin/sh
# run.sh [CALLS] [SEED]     hostile calls of libhca.a with the sanitizers at hand (1,000,000 by default)
# run.sh valgrind [CALLS]   the same under valgrind, buffers on the heap (2,000 by default)
# run.sh libfuzzer [SECONDS]    the same checks over libFuzzer's bytes (60 s by default); needs clang with libFuzzer
# run.sh faults             a library with one fault after the other: each has to be found
# run.sh stack [CALLS]      the most stack that each function takes (20,000 calls by default; x86-64 or aarch64)
# Needs target/library/libhca.a (scripts/library.sh) or HCA_LIB_DIR, and a C compiler.
set -eu
cd "$(dirname "$0")"
lib=${HCA_LIB_DIR:-../target/library}/libhca.a
out=../target/fuzz
shared="calls.c checked.c choices.c lend.c rules.c"
shared="$shared files.c header.c header_back.c"
shared="$shared list.c"
shared="$shared wav.c"
shared="$shared stereo.c"
shared="$shared line.c"
if [ ! -f "$lib" ]; then
    echo "$lib is not there: run sh scripts/library.sh first" >&2
    exit 2
fi
mkdir -p "$out"
flags="-std=c99 -O2 -g -Wall -Wextra -Werror"
wrap=-Wl,--wrap=hca_encode_frame,--wrap=hca_write_record,--wrap=hca_read_frame,--wrap=hca_checksum
wrap=$wrap,--wrap=hca_write_header,--wrap=hca_read_header
wrap=$wrap,--wrap=hca_list_write,--wrap=hca_list_read,--wrap=hca_list_lookup,--wrap=hca_list_summary
wrap=$wrap,--wrap=hca_read_wav
wrap=$wrap,--wrap=hca_encode_stereo_frame
wrap=$wrap,--wrap=hca_encode_line,--wrap=hca_encode_stereo_line
sanitizers="-fsanitize=address,undefined -fno-sanitize-recover=undefined"

build_driver() { # $1: the program, then flags
    program=$1
    shift
    # shellcheck disable=SC2086
    ${CC:-cc} $flags "$@" driver.c $shared "$lib" -o "$out/$program"
}

case ${1:-1000000} in
valgrind)
    build_driver driver-plain
    valgrind --quiet --error-exitcode=1 --leak-check=no "$out/driver-plain" --exact --calls "${2:-2000}"
    ;;
libfuzzer)
    # shellcheck disable=SC2086
    clang $flags $sanitizers -fsanitize=fuzzer fuzz_target.c $shared "$lib" -o "$out/target"
    mkdir -p "$out/corpus"
    "$out/target" -max_len=256 -print_final_stats=1 -max_total_time="${2:-60}" -artifact_prefix="$out/" "$out/corpus"
    ;;
faults)
    build_driver driver-faulty "$wrap" faults.c
    "$out/driver-faulty" --calls 20000 >/dev/null || { echo "a fault where there is none"; exit 1; }
    missed=0
    for name in $(sed -n 's/.*is_fault("\([a-z0-9-]*\)").*/\1/p' faults.c); do
        if HCA_FAULT=$name "$out/driver-faulty" --calls 20000 >"$out/log" 2>&1; then
            echo "MISSED  $name"
            missed=$((missed + 1))
        else
            echo "found   $name: $(sed -n 's/^FAULT in //p' "$out/log" | head -n 1)"
        fi
    done
    echo "$missed faults missed"
    [ "$missed" -eq 0 ]
    ;;
stack)
    # bound before it runs: else the first call of memset would count the linker's own work
    build_driver driver-stack "$wrap" -Wl,-z,now stack.c
    "$out/driver-stack" --calls "${2:-20000}" | tail -n 2
    ;;
*)
    # shellcheck disable=SC2086
    if ! build_driver driver $sanitizers 2>/dev/null; then
        echo "no sanitizers at hand: built without them"
        build_driver driver
    fi
    "$out/driver" --calls "${1:-1000000}" --seed "${2:-1}"
    ;;
esac
