# What the scripts share; they source it. Messages go to standard error, each with the script's name.

say() {
    echo "$(basename "$0"): $*" >&2
}

die() {
    say "$@"
    exit 2
}

# need COMMAND PACKAGE: COMMAND is there; else which Debian package has it.
need() {
    command -v "$1" > /dev/null || die "$1 is missing; install the Debian package $2"
}

need_kit() {
    command -v rt > /dev/null || die "rt is missing: the Rattle kit's bin folder is not in PATH (README.md, What must be installed)"
}

# need_file FILE: it can be read, and is no folder. Pipes and /dev/stdin will do.
need_file() {
    [ -e "$1" ] || die "$1: no such file"
    [ ! -d "$1" ] || die "$1: a folder, not a file"
    [ -r "$1" ] || die "$1: cannot be read"
}

# need_hex TEXT: octets in hex, one at least
need_hex() {
    case $1 in '' | *[!0-9A-Fa-f]*) die "'$1': not octets in hex" ;; esac
    [ $((${#1} % 2)) -eq 0 ] || die "'$1': half an octet at the end"
}

# proved LOG CRATE COMMAND: rt COMMAND in the crate's folder, which proves the crates below it too, with no input. All that it prints goes to LOG,
# a line on each crate to standard error too.
proved() {
    log=$1 crate=$2 command=$3
    rm -f "$log.ok"
    say "rt $command in crates/$crate: a line for each crate; minutes from nothing, seconds where nothing has changed"
    { (cd "crates/$crate" && rt "$command") < /dev/null 2>&1 && echo ok > "$log.ok"; } | tee "$log" | grep --line-buffered '^crate ' >&2 || true
    [ -e "$log.ok" ] || { cat "$log" >&2; say "rt $command in crates/$crate failed"; exit 1; }
}

# program LOG NAME: proves a program, and leaves it as crates/NAME/out/NAME.
program() {
    proved "$1" "$2" run
}

# library LOG: proves the library for C, and writes target/staticlib/libtamp.a.
library() {
    proved "$1" tamp_c lib
    mkdir -p target/staticlib
    cp crates/tamp_c/out/libtamp_c.a target/staticlib/libtamp.a
}
