#!/bin/sh
# Prints how many instructions a call takes, for each case of the benchmark: bench/instructions.sh [LIBRARY..]
# Counted by callgrind: eleven calls less one call, by ten. Without LIBRARY it is the one of this tree, proved first. With several, files
# libtamp.a of other trees, there is a column for each, on the same messages. Messages are signed afresh at each run: the numbers differ by
# what a signature of an octet more or less does.
set -eu
. "$(dirname "$0")/../tools/common.sh"
. "$(dirname "$0")/common.sh"
need_bench
need valgrind valgrind
dir=$(mktemp -d)
trap 'rm -rf "$dir"' EXIT
top=$(cd "$(dirname "$0")/.." && pwd)
n=0
for library; do
    need_file "$library"
    n=$((n + 1))
    cp "$library" "$dir/$n.a"
done
cd "$top"
python3 bench/cases.py "$dir/cases"
if [ $n -eq 0 ]; then
    need_kit
    library "$dir/log"
    n=1
    cp target/staticlib/libtamp.a "$dir/1.a"
fi
for k in $(seq $n); do
    built "$dir/$k.a" "$dir/$k"
done

# counted PROGRAM CALLS CASE: the instructions of a run
counted() {
    valgrind --tool=callgrind --callgrind-out-file=/dev/null "$1" calls "$2" "$3" 2> "$dir/valgrind" || { cat "$dir/valgrind" >&2; exit 1; }
    sed -n 's/.*Collected : //p' "$dir/valgrind"
}

for case in "$dir"/cases/*; do
    printf '%-26s' "$(basename "$case")"
    for k in $(seq $n); do
        eleven=$(counted "$dir/$k" 11 "$case")
        one=$(counted "$dir/$k" 1 "$case")
        printf ' %9d' $(((eleven - one) / 10))
    done
    printf '\n'
done
