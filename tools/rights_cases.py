#!/usr/bin/python3 -B
"""Input and expected output of the program rights_cases.

    tools/rights_cases.py                    writes crates/rights_cases/stdin and stdout: P1 to P10 of document 01, on TrustAnchorInfo
                                             octets that Debian's python3-pyasn1-modules encodes (rfc5914, rfc6010)
    tools/rights_cases.py FILE [PROGRAM]     runs the cases of a file through PROGRAM and compares

A file has one JSON object a line: name, signer, new (hex), signer_is_apex, within; or name, anchor, type (hex), role, pairs, is_apex,
authorises. PROGRAM is crates/rights_cases/out/rights_cases, as `rt run` leaves it. Exit status 1 where a case differs, 2 for a bad file.

The input of the program: a case is one octet W or A, one octet that says whether the (signing) anchor is the apex, and for
    W   signer and new anchor, each a 2-octet length and a TrustAnchorInfo; answered 'within' or 'not'
    A   one octet role (0 source, 1 carrier), the anchor, the content type (OID contents) and the attributes (an element that holds
        Attributes), each after a 2-octet length; answered 'authorised' or 'not'
"""
import sys
import common


def frame(octets):
    return len(octets).to_bytes(2, 'big') + octets


def within_case(apex, signer, new):
    return b'W' + bytes([apex]) + frame(signer) + frame(new)


def element(tag, contents):
    n = len(contents)
    size = bytes([n]) if n < 128 else bytes([0x81, n]) if n < 256 else b'\x82' + n.to_bytes(2, 'big')
    return bytes([tag]) + size + contents


def authorises_case(apex, carrier, anchor, content_type, pairs):
    attributes = b''.join(element(0x30, element(0x06, t) + element(0x31, v)) for t, v in pairs)
    return b'A' + bytes([apex, carrier]) + frame(anchor) + frame(content_type) + frame(element(0xA0, attributes))


def paper():
    from outside_tools import Anchor, anchor_info, ed25519, encode, rfc6010, right, univ

    def anchor(n, rights):
        return anchor_info(Anchor(ed25519(bytes([n])), bytes([n]), rights=rights))

    def limited(*values):
        return right(t, limits=[(a, [encode(univ.Integer(v)) for v in values])])

    t, a = '1.2.100.1', '1.2.200.1'
    anything = str(rfc6010.id_ct_anyContentType)
    free, only_1, one_two, one_three = right(t), limited(1), limited(1, 2), limited(1, 3)
    carrier, every = right(t, source=False), right(anything)
    cases = [
        ([free], [free], True),
        ([carrier], [free], False),
        ([every], [only_1], True),
        ([every, only_1], [every], False),
        ([every, free], [every], True),
        ([one_two], [only_1], True),
        ([one_two], [one_three], False),
        ([one_two], [free], False),
        ([one_two], None, True),
        (None, [free], False),
    ]
    given = b''.join(within_case(0, anchor(1, s), anchor(2, n)) for s, n, _ in cases)
    expected = ''.join('within\n' if w else 'not\n' for _, _, w in cases)
    return given, expected


def from_file(path):
    given, expected, names = b'', [], []
    for case in common.json_lines(path, 'name signer new signer_is_apex within', 'name anchor type role pairs is_apex authorises'):
        names.append(case['name'])
        if 'new' in case:
            given += within_case(case['signer_is_apex'], bytes.fromhex(case['signer']), bytes.fromhex(case['new']))
            expected.append('within' if case['within'] else 'not')
        else:
            pairs = [(bytes.fromhex(t), bytes.fromhex(v)) for t, v in case['pairs']]
            given += authorises_case(case['is_apex'], case['role'] == 'carrier', bytes.fromhex(case['anchor']),
                                     bytes.fromhex(case['type']), pairs)
            expected.append('authorised' if case['authorises'] else 'not')
    return given, expected, names


def main():
    if len(sys.argv) == 1:
        given, expected = paper()
        open(common.path('crates/rights_cases/stdin'), 'wb').write(given)
        open(common.path('crates/rights_cases/stdout'), 'w').write(expected)
        return
    if len(sys.argv) > 3:
        common.die('usage: tools/rights_cases.py [FILE [PROGRAM]]')
    program = common.program('rights_cases', *sys.argv[2:])
    given, expected, names = from_file(sys.argv[1])
    got = common.run(program, given).split('\n')[:-1]
    wrong = [n for n, e, g in zip(names, expected, got) if e != g]
    print('%d of %d agree' % (len(names) - len(wrong) - abs(len(got) - len(names)), len(names)))
    for name in wrong:
        print('differs:', name)
    sys.exit(bool(wrong) or len(got) != len(names))


main()
