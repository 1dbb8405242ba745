#!/bin/sh
# Prints a certificate with a given subjectKeyIdentifier, made by OpenSSL: tools/certificate.sh KEY-FILE KEY-IDENTIFIER-HEX.
# The key is made where there is no such file; KEY holds the options of openssl genpkey for it (P-256). Issuer and serial number are always
# the same, so that openssl cms finds the signer in a certificate made anew.
set -eu
. "$(dirname "$0")/common.sh"
[ $# -eq 2 ] || die 'usage: tools/certificate.sh KEY-FILE KEY-IDENTIFIER-HEX'
need_hex "$2"
need openssl openssl
[ -e "$1" ] || openssl genpkey ${KEY--algorithm EC -pkeyopt ec_paramgen_curve:prime256v1} -out "$1" 2> /dev/null || die "openssl genpkey ${KEY-}: no key"
openssl req -x509 -new -key "$1" -subj /CN=signer -set_serial 1 -addext "subjectKeyIdentifier = $2" -days 1
