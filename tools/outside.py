#!/usr/bin/python3 -B
"""outside.py: makes crates/tamp_read/stdin and stdout from messages of two outside tools: `openssl cms -sign` with fresh keys (tools/sign.sh)
and Debian's python3-pyasn1-modules.

What the program must write is said here from what was put in: the type, the signer's key identifier, the number and the count of entries, or
the status and the offset of the element that breaks the rule (found with `openssl asn1parse`, or as the place of the octets that were put in).
Keys and times differ at each run.
"""
import hashlib
import common
from outside_tools import (KINDS, Anchor, adjust, attribute, communities, content_info, ed25519, encode, place, query, right, signed,
                           signed_data as wrapped, univ, update)

CASES = []


def case(message, line):
    CASES.append((message, line))


RIGHTS = [right('update'), right('communityUpdate', False, [('1.2.3.4', [encode(univ.Integer(7))])])]


def key(n):
    return ed25519(hashlib.sha256(bytes([n])).digest())


def anchor(n, rights=None):
    return Anchor(key(n), bytes([n]), 'anchor %d' % n, rights, critical=True)


def asks(kind, identifier, number, entries=None):
    return '%s signer %s number %d' % (kind, identifier, number) + (' entries %d' % entries if kind == 'update' else '')


def refused(status, offset=0):
    return 'status %d offset %d' % (status, offset)


# -- OpenSSL

SIGNER_INFOS = 1, 0, 3


def by_openssl():
    everywhere = {'allModules': ''}
    device = {'hwModules': [('1.2.3', [b'\x07', (b'\x10', b'\x1F')]), ('1.2.4', [None])]}
    case(signed('statusQuery', '01', query(6, **everywhere)), asks('statusQuery', '01', 6))
    case(signed('statusQuery', 'A1B2C3D4', query(2 ** 63 - 1, **device), KEY='-algorithm RSA'), asks('statusQuery', 'A1B2C3D4', 2 ** 63 - 1))
    entries = [('add', anchor(3)), ('add', anchor(4, RIGHTS)), ('remove', key(5)), ('change', key(6))]
    case(signed('update', '01', update(7, entries, [(b'\x03', 9)], **everywhere)), asks('update', '01', 7, 4))
    case(signed('update', '02', update(8, [('remove', key(n)) for n in range(17)], **device)), asks('update', '02', 8, 17))
    identifier = '0102030405060708'
    lists = communities(300, ['1.2.5'], ['1.2.6', '1.2.7'], communities=['1.2.5'])
    case(signed('communityUpdate', identifier, lists), asks('communityUpdate', identifier, 300))
    case(signed('seqNumAdjust', '02', adjust(70000, **everywhere)), asks('seqNumAdjust', '02', 70000))
    # certificates sent; a second signer; no signed attributes; no subjectKeyIdentifier; content not sent; another content type
    case(signed('statusQuery', '01', query(6, **everywhere), WITHOUT='-nocerts'), refused(5))
    two = signed('statusQuery', '01', query(6, **everywhere), SECOND='02')
    case(two, refused(6, place(two, *SIGNER_INFOS, 1)))
    bare = signed('statusQuery', '01', query(6, **everywhere), OPTIONS='-noattr')
    case(bare, refused(7, place(bare, *SIGNER_INFOS, 0)))
    named = signed('statusQuery', '01', query(6, **everywhere), WITHOUT='-keyid')
    case(named, refused(6, place(named, *SIGNER_INFOS, 0, 0)))
    case(signed('statusQuery', '01', query(6, **everywhere), WITHOUT='-nodetach'), refused(9))
    case(signed('1.2.840.113549.1.7.1', '01', query(6, **everywhere)), refused(18))


# -- pyasn1

def by_pyasn1():
    everywhere = {'allModules': ''}
    case(wrapped('statusQuery', b'\x01', query(0, **everywhere)), asks('statusQuery', '01', 0))
    modules = [('2.999.3', [None, b'\x01\x02', (b'\x00\x00', b'\xFF\xFF')])]
    case(wrapped('statusQuery', b'\x01\x02', query(128, hwModules=modules), [attribute('1.2.3.4', univ.Integer(5))]), asks('statusQuery', '0102', 128))
    case(wrapped('statusQuery', b'', query(65536, uri='http://box')), asks('statusQuery', '', 65536))
    case(wrapped('update', b'\x09', update(5, [('add', anchor(1, RIGHTS))], communities=['1.2.5', '1.2.6'])), asks('update', '09', 5, 1))
    entries = [('change', key(1)), ('remove', key(2)), ('add', anchor(3))]
    case(wrapped('update', b'\x09', update(6, entries, [(b'\x01', 2), (b'\x02', 3)], **everywhere)), asks('update', '09', 6, 3))
    case(wrapped('communityUpdate', b'\x09', communities(7, add=['1.2.5'], **everywhere)), asks('communityUpdate', '09', 7))
    case(wrapped('communityUpdate', b'\x09', communities(8, remove=['1.2.5', '1.2.6'], **everywhere)), asks('communityUpdate', '09', 8))
    case(wrapped('seqNumAdjust', b'\x09', adjust(9, **everywhere)), asks('seqNumAdjust', '09', 9))
    # verbose; another version; not signed; unsigned attributes; two values; no digest; a type twice; another message's syntax
    case(wrapped('statusQuery', b'\x01', query(1, terse='verbose', **everywhere)), refused(127))
    case(wrapped('statusQuery', b'\x01', query(1, version='v1', **everywhere)), refused(31))
    case(content_info(KINDS['statusQuery'], univ.Any(query(1, **everywhere))), refused(29))
    note = attribute('1.2.3.5', univ.OctetString(b'unsigned'))
    message = wrapped('statusQuery', b'\x01', query(1, **everywhere), unsigned=[note])
    case(message, refused(8, message.index(encode(note)) - 2))
    twice = attribute('1.2.3.6', univ.Integer(1), univ.Integer(2))
    message = wrapped('statusQuery', b'\x01', query(1, **everywhere), [twice])
    case(message, refused(7, message.index(encode(twice)) + len(encode(twice)) - 3))
    message = wrapped('statusQuery', b'\x01', query(1, **everywhere), digest=False)
    case(message, refused(7, message.index(encode(attribute('1.2.840.113549.1.9.3', KINDS['statusQuery']))) - 2))
    message = wrapped('statusQuery', b'\x01', query(1, **everywhere), [attribute('1.2.3.6', univ.Integer(1)), attribute('1.2.3.6', univ.Integer(2))])
    case(message, refused(7, message.index(encode(attribute('1.2.3.6', univ.Integer(2))))))
    wrong = adjust(1, **everywhere)
    message = wrapped('communityUpdate', b'\x01', wrong)
    case(message, refused(36, message.index(wrong)))


by_openssl()
common.say(len(CASES), 'messages by OpenSSL')
by_pyasn1()
with open(common.path('crates/tamp_read/stdin'), 'wb') as f:
    for message, _ in CASES:
        f.write(len(message).to_bytes(4, 'big') + message)
with open(common.path('crates/tamp_read/stdout'), 'w') as f:
    f.writelines(line + '\n' for _, line in CASES)
print(len(CASES), 'messages')
