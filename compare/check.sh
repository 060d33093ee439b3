#!/bin/sh
# All comparisons in their small form, under a minute: needs target/library/libhca.a (scripts/library.sh) or HCA_LIB_DIR.
set -eu
cd "$(dirname "$0")"
sh import.sh
cargo build --release --offline --locked
cargo test --quiet --release --offline -p published -p hca-model
cargo test --quiet --release --offline -p compare --lib
target/release/vectors --check vec
target/release/replay-vectors vec/stage.vec vec/records.vec
target/release/replay-vectors vec/header.vec
target/release/replay-vectors vec/list.vec
target/release/replay-vectors vec/wav.vec
target/release/compare-stage --small
target/release/compare-stage --pairs --small
target/release/compare-pairs
target/release/compare-stage --held --small
target/release/compare-modes
target/release/compare-finest --small
target/release/compare-records --small
target/release/compare-records --pairs --small
target/release/compare-records --held --small
target/release/compare-header --small
target/release/compare-header --pairs --small
target/release/compare-header --held --small
target/release/replay-vectors vec/header-back.vec
target/release/compare-header-back --small
target/release/compare-list --small
target/release/compare-wav --small
target/release/replay-vectors vec/stereo.vec
target/release/compare-stereo --small
target/release/compare-stereo --pairs --small
target/release/compare-stereo --held --small
target/release/replay-vectors vec/line.vec
target/release/compare-line --small
target/release/compare-line --pairs --small
target/release/compare-line --held --small
target/release/replay-vectors vec/stereo-line.vec
target/release/compare-stereo-line --small
target/release/compare-stereo-line --pairs --small
target/release/compare-stereo-line --held --small
target/release/replay-vectors vec/limits.vec
target/release/replay-vectors vec/modes.vec
# through the program too, where it is built
program=$(cd .. && pwd)/target/hcaframe
if [ -x "$program" ]; then export HCAFRAME="$program"; fi
target/release/compare-convert --small
target/release/compare-convert --pairs --small
target/release/compare-convert --held --small
