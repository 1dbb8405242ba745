#!/bin/sh
# A call end to end: builds the programs, makes the call, prints its answer and the listing of the next store.
#
#     tools/call.sh                           the call of document 01's P12 (the first of crates/tamp_call/stdin)
#     tools/call.sh MESSAGE IMAGE VERDICT     a call of one's own: two files of octets, and the verdict as digits 0 and 1, one for each anchor
#
# Exit status 1 for a house refusal (201 to 205) or a call that the program does not take, 2 for bad usage.
set -eu
. "$(dirname "$0")/common.sh"
top=$(cd "$(dirname "$0")/.." && pwd)
need xxd xxd
need_kit
dir=$(mktemp -d)
trap 'rm -rf "$dir"' EXIT
case $# in
0)
    need_file "$top/crates/tamp_call/stdin"
    cp "$top/crates/tamp_call/stdin" "$dir/calls"
    ;;
3)
    need_file "$1"
    need_file "$2"
    case $3 in '' | *[!01]*) die "$3: a verdict is digits 0 and 1, one for each anchor" ;; esac
    cat -- "$1" > "$dir/message"
    cat -- "$2" > "$dir/image"
    printf '%s' "$3" | sed 's/./0&/g' | xxd -r -p > "$dir/verdict"
    # five numbers of 4 octets, then the octets: docs/PROGRAMS.md
    {
        for part in message image verdict; do printf '%08x' "$(wc -c < "$dir/$part")"; done
        printf '%08x%08x' 10240 33717
    } | xxd -r -p > "$dir/calls"
    cat "$dir/message" "$dir/image" "$dir/verdict" >> "$dir/calls"
    ;;
*) die 'usage: tools/call.sh [MESSAGE IMAGE VERDICT]' ;;
esac
cd "$top"
program "$dir/log" tamp_call
program "$dir/log" tamp_list
crates/tamp_call/out/tamp_call < "$dir/calls" > "$dir/answers"
head -4 "$dir/answers" | tee "$dir/answer"
if grep -q '^bad call\|^status 20[1-5]$' "$dir/answer"; then exit 1; fi
sed -n 's/^store //p' "$dir/answer" | xxd -r -p | crates/tamp_list/out/tamp_list
