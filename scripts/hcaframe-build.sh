#!/bin/sh
# Builds hcaframe, the command line, at target/hcaframe: the proved library first, which proves what is not proved yet, then the program over it.
# cargo is needed, and a C compiler as its linker; nothing is fetched.
set -eu
cd "$(dirname "$0")/.."
sh scripts/library.sh
(cd rust && cargo build --quiet --release --offline --package hcaframe --target-dir target)
cp rust/target/release/hcaframe target/hcaframe.new
mv target/hcaframe.new target/hcaframe
echo "target/hcaframe"
