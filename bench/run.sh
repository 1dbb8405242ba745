#!/bin/sh
# Builds the static library and the benchmark for release, makes the cases and prints a line for each: time against OpenSSL's reading of the
# same message, and stack. Then the most stack that a call of the gate takes. Two minutes, where the library is proved.
set -eu
. "$(dirname "$0")/../tools/common.sh"
. "$(dirname "$0")/common.sh"
[ $# -eq 0 ] || die 'usage: bench/run.sh'
need_bench
need_kit
cd "$(dirname "$0")/.."
dir=$(mktemp -d)
trap 'rm -rf "$dir"' EXIT
python3 bench/cases.py "$dir/cases"
library "$dir/log"
built target/staticlib/libtamp.a "$dir/bench"
echo "lent buffers cleared once, before the runs"
for case in "$dir"/cases/*; do
    "$dir/bench" time "$(basename "$case")" "$case"
done
"$dir/bench" stack < crates/tamp_call/stdin
