#!/bin/sh
# A made bank through hcaframe bank: the same files with one thread and with two, after a kill in the middle, and by two shards; then each of them against
# the published encoder, and the times of both. Needs target/hcaframe, cargo and g++; takes minutes with 3,000 takes.
#   bank-trial.sh [TAKES [BITRATE]]        3000 takes at 48000 bits a second, if nothing is said
set -eu
takes=${1:-3000} bitrate=${2:-48000}
cd "$(dirname "$0")/.."
program=$(pwd)/target/hcaframe
(cd compare && sh import.sh >/dev/null && cargo build --quiet --release --offline --locked --bin bank-trial)
trial=$(pwd)/compare/target/release/bank-trial
work=$(mktemp -d)
trap 'rm -rf "$work"' EXIT

wrong() {
    echo "WRONG: $1"
    exit 1
}

bank() { # OUT WORDS..
    out=$1
    shift
    "$program" bank --in "$work/in" --out "$work/$out" --bitrate "$bitrate" "$@"
}

# spent: the processor seconds of all that this shell has run so far
spent() {
    times >"$work/times"
    tail -n 1 "$work/times" | tr 'ms' '  ' | awk '{ print 60 * ($1 + $3) + $2 + $4 }' >"$work/spent"
}

timed() { # NAME COMMAND..: runs it, and says its seconds and those of the processor
    name=$1
    shift
    spent
    before=$(cat "$work/spent")
    begin=$(date +%s.%N)
    "$@" >"$work/said"
    end=$(date +%s.%N)
    spent
    echo "$begin $end $before $(cat "$work/spent") $takes" | awk -v name="$name" '{ printf "%s: %d takes in %.1f s; %.1f s of processor time, %.1f takes a second of it\n",
        name, $5, $2 - $1, $4 - $3, $5 / ($4 - $3) }'
}

same() { # NAME OUT: the files are those of the first run, and no others are there
    diff -r -x '*.words' "$work/one" "$work/$2" >"$work/differs" || { cat "$work/differs"; wrong "$1: other files"; }
    echo "ok: $1: the same $(find "$work/$2" -name '*.hca' | wc -l) files and lists"
}

"$trial" make "$work/in" "$takes"
du -sh "$work/in" | cut -f 1
timed 'one thread' bank one --jobs 1
cat "$work/said"
timed 'two threads' bank two --jobs 2
same 'two threads' two
timed 'all skipped' bank two --jobs 1
grep -q "^skipped  $takes\$" "$work/said" || wrong 'not all are skipped'

# killed once a third of the takes is done
"$program" bank --in "$work/in" --out "$work/cut" --bitrate "$bitrate" --jobs 2 >/dev/null 2>&1 &
pid=$!
while [ "$(find "$work/cut" -name '*.hca' 2>/dev/null | wc -l)" -lt $((takes / 3)) ]; do
    kill -0 "$pid" 2>/dev/null || wrong 'the run ended before it was killed'
    sleep 0.05
done
kill -9 "$pid"
wait "$pid" 2>/dev/null || true
echo "killed with $(find "$work/cut" -name '*.hca' | wc -l) of $takes files there, and $(find "$work/cut" -name '*.tmp-*' | wc -l) temporary ones"
bank cut --jobs 2 >"$work/said"
grep '^done\|^skipped\|left behind' "$work/said"
same 'killed and run again' cut

bank parts --jobs 1 --shard 1/2 --quiet &
pid=$!
bank parts --jobs 1 --shard 2/2 --quiet
wait "$pid"
same 'two shards' parts
bank parts >"$work/said"
grep -q "^skipped  $takes\$" "$work/said" || wrong 'the whole bank does not know what its parts made'

timed 'the published encoder, one thread' "$trial" published "$work/in" "$bitrate" "$work/one"
cat "$work/said"
