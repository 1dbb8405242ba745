#!/bin/sh
# Lists a store image: tools/list.sh [FILE]. Without FILE, the image of document 01's example. Exit status 1 for a bad image, 2 for bad usage.
set -eu
. "$(dirname "$0")/common.sh"
[ $# -le 1 ] || die 'usage: tools/list.sh [FILE]'
top=$(cd "$(dirname "$0")/.." && pwd)
need_file "${1-$top/crates/tamp_list/stdin}"
need_kit
dir=$(mktemp -d)
trap 'rm -rf "$dir"' EXIT
cat -- "${1-$top/crates/tamp_list/stdin}" > "$dir/image"
cd "$top"
program "$dir/log" tamp_list
crates/tamp_list/out/tamp_list < "$dir/image" | tee "$dir/listing"
if grep -q '^refused' "$dir/listing"; then exit 1; fi
