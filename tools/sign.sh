#!/bin/sh
# Signs TAMP content with OpenSSL: tools/sign.sh KEY-IDENTIFIER-HEX CONTENT-TYPE-OID CONTENT-HEX, prints the ContentInfo in hex.
# A certificate with that subjectKeyIdentifier is made for each call (tools/certificate.sh, which reads KEY); it is not sent. The key is
# fresh, or that of the file SIGNER. OPTIONS holds further options of openssl cms (-noattr, ..), WITHOUT those that are left out of the usual
# ones (-nocerts sends the certificate), SECOND the key identifier of a second signer. openssl cms of OpenSSL 3.0 cannot sign with Ed25519.
# Example, the query of document 01, P12: tools/sign.sh 01 2.16.840.1.101.2.1.2.77.1 30 0A 81 01 01 30 05 83 00 02 01 06
set -eu
. "$(dirname "$0")/common.sh"
[ $# -ge 3 ] || die 'usage: tools/sign.sh KEY-IDENTIFIER-HEX CONTENT-TYPE-OID CONTENT-HEX'
id=$1 type=$2
shift 2
content=$(printf '%s' "$*" | tr -d ' ')
need_hex "$id"
need_hex "$content"
case $type in '' | *[!0-9.]*) die "$type: not an OID in digits and dots" ;; esac
[ -z "${SIGNER-}" ] || need_file "$SIGNER"
need openssl openssl
need xxd xxd
dir=$(mktemp -d)
trap 'rm -rf "$dir"' EXIT
printf '%s' "$content" | xxd -r -p > "$dir/content"
certificate="$(dirname "$0")/certificate.sh"

usual=''
for option in -nodetach -keyid -nocerts; do
    case " ${WITHOUT-} " in *" $option "*) ;; *) usual="$usual $option" ;; esac
done
key=${SIGNER-$dir/first.key}
"$certificate" "$key" "$id" > "$dir/first.cert"
set -- -signer "$dir/first.cert" -inkey "$key"
if [ -n "${SECOND-}" ]; then
    "$certificate" "$dir/second.key" "$SECOND" > "$dir/second.cert"
    set -- "$@" -signer "$dir/second.cert" -inkey "$dir/second.key"
fi
openssl cms -sign -binary -nosmimecap $usual -econtent_type "$type" -md sha256 "$@" ${OPTIONS-} \
    -in "$dir/content" -outform DER -out "$dir/message" || die 'openssl cms cannot sign this'
xxd -p -c 0 "$dir/message" | tr 'a-f' 'A-F'
