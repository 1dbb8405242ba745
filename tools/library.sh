#!/bin/sh
# Proves the library for C and writes target/staticlib/libtamp.a, to be linked with include/tamp.h: tools/library.sh. Exit status 1 where it is not proved.
set -eu
. "$(dirname "$0")/common.sh"
[ $# -eq 0 ] || die 'usage: tools/library.sh'
need_kit
cd "$(dirname "$0")/.."
dir=$(mktemp -d)
trap 'rm -rf "$dir"' EXIT
library "$dir/log"
