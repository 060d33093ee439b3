#!/bin/sh
# Instructions per frame, counted by valgrind's callgrind: the Rust, the library's stage and its reader, for each input of bench; for stereo inputs the
# stereo call too, and the mixing alone (for the library: the stereo call less the stage's).
# Counted is what bench times, its functions counted_.. ; the counts are the same in every run. Needs target/release/bench.
# instructions.sh [FRAMES]: how many frames of each speech input, 20 if not given.
set -eu
cd "$(dirname "$0")"
frames=${1:-20}
out=$(mktemp)
trap 'rm -f "$out"' EXIT

count() { # the input's name, and how many frames it has
    valgrind --tool=callgrind --collect-atstart=no --toggle-collect='*counted_*' --callgrind-out-file="$out" \
        target/release/bench --runs 1 --passes 1 --frames "$2" --only "$1" >/dev/null 2>&1
    callgrind_annotate --inclusive=yes --threshold=100 "$out" | awk -v name="$1" -v frames="$2" '
        match($0, /counted_(rust|library|reader|stereo_rust|stereo_library|mixing_rust)/) {
            side = substr($0, RSTART + 8, RLENGTH - 8)
            gsub(",", "", $1)
            of[side] = $1 / frames
        }
        END {
            printf "%-24s  Rust %10.0f  library %9.0f  Rust / library %.2f", name, of["rust"], of["library"], of["rust"] / of["library"]
            if ("reader" in of) printf "  reader %7.0f  library / reader %.2f", of["reader"], of["library"] / of["reader"]
            printf "\n"
            if ("stereo_rust" in of) {
                printf "%-24s  Rust %10.0f  library %9.0f  Rust / library %.2f", "    from unmixed frames", of["stereo_rust"],
                    of["stereo_library"], of["stereo_rust"] / of["stereo_library"]
                mixing = of["stereo_library"] - of["library"]
                printf "  mixing alone: Rust %.0f  library %.0f  Rust / library %.2f\n", of["mixing_rust"], mixing, of["mixing_rust"] / mixing
            }
        }'
}

for input in "mono, 64 kbit/s" "mono, 256 kbit/s" "stereo, 64 kbit/s" "stereo, 256 kbit/s"; do
    count "$input" "$frames"
done
count "most removals, delivered" 1
count "most removals, refused" 1
