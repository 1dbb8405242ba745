# What bench/run.sh and bench/instructions.sh share; they source it behind tools/common.sh.

need_bench() {
    need gcc gcc
    need python3 python3
    need openssl openssl
    need xxd xxd
    echo '#include <openssl/cms.h>' | gcc -E - > /dev/null 2>&1 || die 'openssl/cms.h is missing; install the Debian package libssl-dev'
}

# built LIBRARY PROGRAM: the benchmark with a static library, for release.
built() {
    gcc -O2 -Wall -Wextra bench/bench.c "$1" -lcrypto -lpthread -o "$2"
}
