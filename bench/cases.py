#!/usr/bin/env python3
"""cases.py FOLDER: writes the benchmark's cases below a folder, messages signed by OpenSSL.

A Query, an Update with one and with sixteen adds, on stores of 3 and of 32 anchors; a Query on 32 anchors of about 1,000 octets; and the
messages that cost the most, of nearly 8,192 octets and of half as many: one add with as many content types as fit in (over the limit: 17),
a Community Update of as many communities (17). A case is a folder with the files message, image and verdict.
"""
import os
import subprocess
import sys

TOP = os.path.join(os.path.dirname(os.path.abspath(__file__)), '..')


def element(tag, contents):
    n = len(contents)
    size = bytes([n]) if n < 128 else bytes([0x81, n]) if n < 256 else b'\x82' + n.to_bytes(2, 'big')
    return bytes([tag]) + size + contents


def oid(n):
    """1.2.n, with as few octets as n takes"""
    octets = [n % 128]
    while n >= 128:
        n //= 128
        octets.insert(0, 128 + n % 128)
    return b'\x2A' + bytes(octets)


TYPES = [bytes([0x60, 0x86, 0x48, 0x01, 0x65, 0x02, 0x01, 0x02, 0x4D, n]) for n in (1, 3, 7, 10)]


def anchor(key, rights, key_octets=64):
    """A TrustAnchorInfo, by default with a P-256 sized key; rights: a list of content types."""
    algorithm = element(0x30, element(0x06, bytes.fromhex('2A8648CE3D0201')) + element(0x06, bytes.fromhex('2A8648CE3D030107')))
    public = element(0x30, algorithm + element(0x03, b'\0\x04' + bytes([key]) * key_octets))
    info = public + element(0x04, bytes([key]) * 20)
    if rights:
        value = element(0x30, b''.join(element(0x30, element(0x06, t)) for t in rights))
        extension = element(0x30, element(0x06, bytes.fromhex('2B06010505070112')) + element(0x04, value))
        info += element(0xA1, element(0x30, extension))
    return element(0x30, info)


def image(count, rights=TYPES, key_octets=64):
    anchors = [anchor(1, [])] + [anchor(k, rights, key_octets) for k in range(2, count + 1)]
    records = b''.join(b'\0' * 9 + len(a).to_bytes(2, 'big') + a for a in anchors)
    return b'\x01\x02\x2A\x03\x01\x07' + bytes([count]) + records + b'\0'


def sign(number, content):
    run = [os.path.join(TOP, 'tools', 'sign.sh'), '01' * 20, '2.16.840.1.101.2.1.2.77.%d' % number, content.hex()]
    done = subprocess.run(run, stdout=subprocess.PIPE)
    if done.returncode:
        sys.exit('cases.py: tools/sign.sh failed')
    return bytes.fromhex(done.stdout.decode())


HEAD = bytes.fromhex('810101') + bytes.fromhex('30058300020106')  # terse, and msgRef


def update(adds):
    return sign(3, element(0x30, HEAD + element(0x30, b''.join(element(0xA1, element(0xA2, a)) for a in adds))))


def communities(count):
    return sign(7, element(0x30, HEAD + element(0x30, element(0xA2, b''.join(element(0x06, oid(n)) for n in range(count))))))


def write(folder, name, message, store):
    case = os.path.join(folder, name)
    os.makedirs(case, exist_ok=True)
    for part, octets in (('message', message), ('image', store), ('verdict', b'\x01' * 32)):
        open(os.path.join(case, part), 'wb').write(octets[:store[6]] if part == 'verdict' else octets)


def main():
    if len(sys.argv) != 2:
        print('usage: bench/cases.py FOLDER', file=sys.stderr)
        sys.exit(2)
    folder = sys.argv[1]
    messages = {'query': sign(1, element(0x30, HEAD)), 'update-1': update([anchor(100, TYPES)]),
                'update-16': update([anchor(100 + k, TYPES) for k in range(16)])}
    for count in (3, 32):
        for name, message in messages.items():
            write(folder, '%s-%d-anchors' % (name, count), message, image(count))
    write(folder, 'query-32-long-anchors', messages['query'], image(32, [oid(n) for n in range(16)], 780))
    for count in (475, 950):
        write(folder, 'add-%d-types-3-anchors' % count, update([anchor(100, [oid(n) for n in range(count)])]), image(3))
    for count in (775, 1550):
        write(folder, '%d-communities-3-anchors' % count, communities(count), image(3))
    print('cases.py:', len(os.listdir(folder)), 'cases', file=sys.stderr)


main()
