#!/usr/bin/python3 -B
"""outside_calls.py: prints calls for tools/calls.py, one JSON object a line.

    tools/outside_calls.py | tools/calls.py /dev/stdin                   runs them through tamp_call and compares
    tools/outside_calls.py | tools/calls.py CALLS /dev/stdin --gate      puts them into the gate, behind those chosen from CALLS

Each actor has a key pair of OpenSSL. python3-pyasn1-modules encodes the anchors, the messages' contents and the replies expected; OpenSSL
signs, and gives the verdict with each anchor's key (`openssl cms`, and `openssl pkeyutl` for Ed25519, which `cms` of OpenSSL 3.0 lacks).
Messages that break at a known place need no signature; the offset is found with `openssl asn1parse`, or is the place of the octets that were
put in.
The store expected is written down for each call. Keys, times and signatures differ at each run. Nothing is printed before all are made.
"""
import base64, functools, hashlib, json, os, tempfile
from typing import NamedTuple
import common
from outside_tools import (KINDS, Anchor, adjust, adjust_confirm, anchor_info, attribute, certificate, communities, community_confirm,
                           content_info, decode, encode, error, is_ed25519, place, public_key, query, rfc5280, rfc5652, rfc6010, right,
                           signed, signed_data, signed_ed25519, status_response, univ, update, update_confirm, verifies)
from pyasn1.type import char

FOLDER = tempfile.TemporaryDirectory()
CALLS = []
KEY_FILES = {}  # of the octets of a public key


# -- actors, stores, calls

def actor(title, rights=None, key='-algorithm EC -pkeyopt ec_paramgen_curve:P-256'):
    """an anchor with a fresh key; the identifier is that of RFC 5280, 4.2.1.2 (1)"""
    file = os.path.join(FOLDER.name, title)
    certificate(file, '00', KEY=key)
    public = public_key(file)
    KEY_FILES[encode(public)] = file
    return Anchor(public, hashlib.sha1(public['subjectPublicKey'].asOctets()).digest(), title, rights)


def key_file(anchor):
    return KEY_FILES[encode(anchor.key)]


class Store(NamedTuple):
    anchors: list  # each with its number or None; the apex first
    communities: list = []
    hardware: str = '1.3.6.1.4.1.32473.1'
    serial: bytes = bytes.fromhex('20260007')


def image(store):
    def short(octets):
        return bytes([len(octets)]) + octets

    def oid(name):
        return short(encode(univ.ObjectIdentifier(name))[2:])

    def record(anchor, number):
        info = anchor_info(anchor)
        return bytes([number is not None]) + (number or 0).to_bytes(8, 'big') + len(info).to_bytes(2, 'big') + info

    return b''.join([b'\x01', oid(store.hardware), short(store.serial), bytes([len(store.anchors)]), *(record(*a) for a in store.anchors),
                     bytes([len(store.communities)]), *map(oid, store.communities)])


class Message(NamedTuple):
    octets: bytes
    identifier: str = '00'  # that it is signed under, in hex


def sign(signer, kind, content, identifier=None, **environment):
    identifier = identifier or signer.identifier
    if is_ed25519(key_file(signer)):
        return Message(signed_ed25519(kind, identifier, content, key_file(signer)), identifier.hex())
    return Message(signed(kind, identifier.hex(), content, SIGNER=key_file(signer), **environment), identifier.hex())


@functools.lru_cache(None)
def certificate_file(key, identifier):
    name = key + '.' + identifier
    open(name, 'wb').write(certificate(key, identifier))
    return name


def verdict(message, store):
    keys = [key_file(anchor) for anchor, _ in store.anchors]
    return bytes(verifies(message.octets, key, certificate_file(key, message.identifier)) for key in keys)


def call(name, message, before, status, reply=b'', after=None, offset=0):
    """a call and its answer; without `after` the store stays"""
    left = {'next': image(after).hex()} if after else {'same_next': True}
    given = {'message': message.octets.hex(), 'image': image(before).hex(), 'verdict': verdict(message, before).hex()}
    CALLS.append({'name': 'outside.' + name, **given, 'reply_room': 10240, 'next_room': 33717, 'status': status, 'offset': offset,
                  'reply': reply.hex(), **left})


# -- the house: content types, an attribute, communities, rights, actors

HOUSE = '1.3.6.1.4.1.32473.'
TRAINING, TEST, MODEL = HOUSE + '2.1', HOUSE + '2.2', HOUSE + '2.3'
SITE, SIGNING_TIME = HOUSE + '3.1', '1.2.840.113549.1.9.5'
UPPER, LOWER = (encode(char.UTF8String(s)) for s in ('upper garden', 'lower garden'))
VALLEY, FACTORY, SEASON = HOUSE + '4.1', HOUSE + '4.2', HOUSE + '4.3'
ALL = {'allModules': ''}

apex = actor('consultancy', key='-algorithm EC -pkeyopt ec_paramgen_curve:P-384')
desk = actor('approval desk', [right('statusQuery'), right(TEST)], '-algorithm ED25519')
manager = actor('manager', [right('statusQuery'), right('update'), right('communityUpdate'), right(TRAINING, limits=[(SITE, [UPPER, LOWER])]),
                            right(MODEL, source=False)])
lab = actor('lab', [right('statusQuery'), right(TRAINING, limits=[(SITE, [UPPER])])])
sampler = actor('sampler', [right(TRAINING, limits=[(SITE, [LOWER])])])
auditor = actor('auditor', [right('statusQuery')], '-algorithm RSA')
stranger = actor('stranger')
BASE = Store([(apex, 9), (desk, None), (manager, 3), (lab, None)], [VALLEY, FACTORY])
IDENTIFIERS = [a.identifier for a, _ in BASE.anchors]


def base(number):
    """BASE with another number of the manager"""
    return BASE._replace(anchors=[(apex, 9), (desk, None), (manager, number), (lab, None)])


def refuse(name, message, kind, status, before=BASE, **ref):
    """a call answered by a TAMP Error"""
    call(name, message, before, status, error(kind, status, **ref))


# -- the run: each call takes the store that the former left

def run():
    hardware, serial = BASE.hardware, BASE.serial
    stores = [
        Store([(apex, 4), (desk, None)]),
        Store([(apex, 5), (desk, None), (manager, None)]),
        Store([(apex, 5), (desk, None), (manager, 1), (lab, 100)]),
        Store([(apex, 5), (desk, None), (manager, 2), (lab, 100), (sampler, None)]),
        Store([(apex, 5), (desk, None), (manager, 3), (lab, 100), (sampler, None)], [VALLEY, FACTORY]),
        Store([(apex, 5), (desk, None), (manager, 3), (lab, 101), (sampler, None)], [VALLEY, FACTORY]),
        Store([(apex, 5), (desk, None), (manager, 4), (sampler, None)], [VALLEY, FACTORY]),
    ]

    ref = {'number': 5, **ALL}
    enrolment = sign(apex, 'update', update(entries=[('add', manager)], **ref))
    call('run-1 the apex enrols the manager', enrolment, stores[0], 0, update_confirm([0], **ref), stores[1])

    ref = {'number': 1, 'hwModules': [(hardware, [serial])]}
    numbered = update(entries=[('add', lab)], numbers=[(lab.identifier, 100)], **ref)
    call('run-2 the manager enrols a lab and gives it a number', sign(manager, 'update', numbered), stores[1], 0, update_confirm([0], **ref), stores[2])

    ref = {'number': 2, 'hwModules': [(HOUSE + '9', [None]), (hardware, [b'\x01', (bytes.fromhex('20260000'), serial)])]}
    asks_too_much = sampler._replace(rights=sampler.rights + [right(TEST)])
    call('run-3 a sampler may not sign test rows', sign(manager, 'update', update(entries=[('add', asks_too_much), ('add', sampler)], **ref)),
         stores[2], 0, update_confirm([11, 0], **ref), stores[3])

    ref = {'number': 3, 'hwModules': [(hardware, [None])]}
    call('run-4 the box joins two communities', sign(manager, 'communityUpdate', communities(remove=[SEASON], add=[VALLEY, FACTORY], **ref)),
         stores[3], 0, community_confirm(0, **ref), stores[4])

    ref = {'number': 101, 'communities': [SEASON, FACTORY]}
    question = sign(lab, 'statusQuery', query(**ref))
    listed = [a.identifier for a in (apex, desk, manager, lab, sampler)]
    call('run-5 the lab asks the boxes of a community', question, stores[4], 0, status_response(listed, [VALLEY, FACTORY], **ref), stores[5])
    asked = ref

    ref = {'number': 4, 'communities': [VALLEY]}
    removal = sign(manager, 'update', update(entries=[('remove', desk.key), ('remove', lab.key)], **ref))
    call('run-6 the manager removes the lab, the desk he may not', removal, stores[5], 0, update_confirm([11, 0], **ref), stores[6])

    # what was accepted is refused when it comes again
    refuse('replay of run-1', enrolment, 'update', 21, stores[1], number=5, **ALL)
    refuse('replay of run-5', question, 'statusQuery', 21, stores[5], **asked)
    refuse('replay of run-5 after run-6', question, 'statusQuery', 10, stores[6], **asked)
    refuse('replay of run-6', removal, 'update', 21, stores[6], **ref)


# -- the rows up to 127

def wrappers():
    ref = {'number': 4, **ALL}
    kind, content = 'statusQuery', query(**ref)
    good = sign(manager, kind, content)
    call('indefinite lengths', sign(manager, kind, content, OPTIONS='-stream'), BASE, 1)
    call('an octet short', good._replace(octets=good.octets[:-1]), BASE, 1)
    refuse('not signed', Message(content_info(KINDS[kind], univ.Any(content))), kind, 29)
    data = str(rfc5652.id_data)
    refuse('content not sent', sign(manager, kind, content, WITHOUT='-nodetach'), kind, 9)
    refuse('signed data', sign(manager, data, content), data, 18)
    refuse('certificates sent', sign(manager, kind, content, WITHOUT='-nocerts'), kind, 5)
    refuse('version 1', sign(manager, kind, query(version='v1', **ref)), kind, 31)
    refuse('verbose', sign(manager, kind, query(terse='verbose', **ref)), kind, 127, **ref)
    refuse('verbose, no signer', sign(stranger, 'update', update(entries=[('add', stranger)], terse='verbose', **ref)), 'update', 127, **ref)


# -- messages that break at a known place, and the offset of it

CONTENT_TYPE, SIGNED_DATA = (0,), (1, 0)
VERSION, DIGESTS, E_CONTENT, SIGNER_INFOS = (*SIGNED_DATA, 0), (*SIGNED_DATA, 1), (*SIGNED_DATA, 2, 1, 0), (*SIGNED_DATA, 3)
SIGNER_INFO = *SIGNER_INFOS, 0
ATTRIBUTES, SIGNATURE, UNSIGNED = (*SIGNER_INFO, 3), (*SIGNER_INFO, 5), (*SIGNER_INFO, 6)


def changed(octets, at, octet):
    return octets[:at] + bytes([octet]) + octets[at + 1:]


def exchanged(octets, former, later):
    """two parts of the same length, each in the other's place"""
    assert len(former) == len(later) and octets.index(former) < octets.index(later)
    return octets.replace(former, b'\0' * len(former)).replace(later, former).replace(b'\0' * len(former), later)


def breaks(name, octets, status, offset, kind='statusQuery'):
    """a message that is refused by a row that has an offset: "Statuses 1, 2, 3 and 4 have no reply" """
    call('broken: ' + name, Message(octets), BASE, status, error(kind, status) if status > 4 else b'', offset=offset)


def broken_wrappers():
    kind, content = 'statusQuery', query(number=4, **ALL)
    good = sign(manager, kind, content).octets

    # 1: an element's header, its contents, the order of its members, what stands behind it
    breaks('no message', b'', 1, 0)
    at = place(good, *SIGNER_INFO, 2)
    breaks('a tag of two octets', changed(good, at, 0x3F), 1, at)
    at = place(good, *SIGNATURE)
    breaks('the signature overruns its SignerInfo', changed(good, at + 1, good[at + 1] + 1), 1, at)
    at = place(good, *DIGESTS, 0, 0)
    breaks('an OID that does not end', changed(good, at + 1 + good[at + 1], 0x81), 1, at)
    hashes = signed_data_of(good)
    hashes['digestAlgorithms'][1]['algorithm'] = univ.ObjectIdentifier('2.16.840.1.101.3.4.2.3')
    octets = content_info(rfc5652.id_signedData, hashes)
    octets = exchanged(octets, *map(encode, hashes['digestAlgorithms']))
    breaks('a SET OF not sorted', octets, 1, place(octets, *DIGESTS, 1))
    breaks('an octet behind the message', good + b'\0', 1, len(good))

    # 2, 3 and 4
    octets = content_info(rfc5652.id_data, univ.OctetString(content))
    breaks('data', octets, 2, place(octets, *CONTENT_TYPE))
    octets = sign(manager, str(rfc5652.id_data), content, WITHOUT='-keyid').octets
    breaks('SignedData of version 1', octets, 3, place(octets, *VERSION))
    at = place(good, *E_CONTENT)
    breaks('eContent is a UTF8String', changed(good, at, 0x0C), 4, at)

    # 6
    none = signed_data_of(good)
    none['signerInfos'].clear()
    octets = content_info(rfc5652.id_signedData, none)
    breaks('no SignerInfo', octets, 6, place(octets, *SIGNER_INFOS))
    octets = sign(manager, kind, content, SECOND='02').octets
    breaks('two SignerInfos', octets, 6, place(octets, *SIGNER_INFOS, 1))
    octets = sign(manager, kind, content, WITHOUT='-keyid').octets
    at = place(octets, *SIGNER_INFO, 0)
    breaks('issuer and serial number, version 1', octets, 6, at)
    breaks('issuer and serial number, version 3', changed(octets, at + 2, 3), 6, place(octets, *SIGNER_INFO, 1))

    # 7
    octets = sign(manager, kind, content, OPTIONS='-noattr').octets
    breaks('no signed attributes', octets, 7, place(octets, *SIGNER_INFO))
    octets = signed_data(kind, manager.identifier, content, digest=False)
    breaks('no message-digest', octets, 7, place(octets, *ATTRIBUTES))
    at = place(good, *ATTRIBUTES, 0, 1, 0)
    breaks('content-type unequal', changed(good, at + 1 + good[at + 1], 9), 7, at)
    first, second = (attribute(SITE, univ.Integer(n)) for n in (1, 2))
    octets = signed_data(kind, manager.identifier, content, [first, second])
    breaks('an attribute repeated', octets, 7, octets.index(encode(second)))
    first, second = (attribute(HOUSE + n, univ.Integer(1)) for n in ('3.1', '3.2'))
    octets = exchanged(signed_data(kind, manager.identifier, content, [first, second]), encode(first), encode(second))
    breaks('attributes not sorted', octets, 7, octets.index(encode(first)))

    # 8
    octets = signed_data(kind, manager.identifier, content, unsigned=[attribute(HOUSE + '3.2', univ.OctetString(b'note'))])
    breaks('unsigned attributes', octets, 8, place(octets, *UNSIGNED))


def broken_contents():
    """36: counted in the whole message"""
    kind, content = 'statusQuery', query(number=4, **ALL)

    def within(name, octets, offset, kind=kind):
        message = signed_data(kind, manager.identifier, octets)
        breaks(name, message, 36, message.index(octets) + offset, kind)

    at = place(content, 1, 0)
    within('a target that is no alternative', changed(content, at, 0x86), at)
    within('an empty list of hardware modules', changed(content, at, 0xA1), at)
    within('the updates are missing', adjust(number=4, **ALL), 0, 'communityUpdate')
    at = place(content, 1, 1)
    within('the number is an OCTET STRING', changed(content, at, 4), at)
    within('the number overruns its TAMPMsgRef', changed(content, at + 1, 2), at)
    first = place(content, 0)
    within('the first field may not stand there; the number overruns, a rule of status 1', changed(changed(content, first, 0x87), at + 1, 2), at)
    within('an octet behind the content', content + b'\0', len(content))
    message = signed_data(kind, manager.identifier, b'')
    breaks('no content', message, 36, place(message, *E_CONTENT))


def signed_data_of(octets):
    outer, _ = decode(octets, rfc5652.ContentInfo())
    return decode(outer['content'], rfc5652.SignedData())[0]


# -- signer, target, rights, number

def acceptance():
    ref = {'number': 4, **ALL}
    kind, content = 'statusQuery', query(**ref)
    good = sign(manager, kind, content)
    answer = status_response(IDENTIFIERS, BASE.communities, **ref)
    call('the query that others vary', good, BASE, 0, answer, base(4))

    refuse('a stranger', sign(stranger, kind, content), kind, 10, **ref)
    refuse("the manager's key under no anchor's identifier", sign(manager, kind, content, b'\x77'), kind, 10, **ref)
    refuse("a stranger's key under the manager's identifier", sign(stranger, kind, content, manager.identifier), kind, 16, **ref)
    refuse("the manager's key under the apex's identifier", sign(manager, kind, content, apex.identifier), kind, 16, **ref)
    altered = {'number': 5, **ALL}
    refuse('content altered after signing', good._replace(octets=good.octets.replace(content, query(**altered))), kind, 16, **altered)

    # one identifier, two keys: the second is the manager's
    namesake = lab._replace(identifier=manager.identifier)
    shared = [apex.identifier, manager.identifier, manager.identifier]
    call('one identifier, the second verifies', good, Store([(apex, 9), (namesake, 8), (manager, 3)]), 0, status_response(shared, [], **ref),
         Store([(apex, 9), (namesake, 8), (manager, 4)]))
    store = Store([(apex, 9), (namesake, 8), (manager, 3)])
    refuse('one identifier, none verifies', sign(stranger, kind, content, manager.identifier), kind, 16, store, **ref)

    # signatures of Ed25519
    good_desk = sign(desk, kind, content)
    call('Ed25519', good_desk, BASE, 0, answer, BASE._replace(anchors=[(apex, 9), (desk, 4), (manager, 3), (lab, None)]))
    refuse('Ed25519, content altered after signing', good_desk._replace(octets=good_desk.octets.replace(content, query(**altered))), kind, 16, **altered)
    refuse("Ed25519 under the manager's identifier", sign(desk, kind, content, manager.identifier), kind, 16, **ref)
    refuse('Ed25519, the desk may not enrol', sign(desk, 'update', update(entries=[('add', sampler)], **ref)), 'update', 11, **ref)

    # signatures of RSA
    store = Store([(apex, 9), (auditor, None)])
    answer = status_response([apex.identifier, auditor.identifier], [], **ref)
    call('RSA', sign(auditor, kind, content), store, 0, answer, Store([(apex, 9), (auditor, 4)]))
    call('RSA-PSS', sign(auditor, kind, content, OPTIONS='-keyopt rsa_padding_mode:pss'), store, 0, answer, Store([(apex, 9), (auditor, 4)]))

    targets = {
        'uri': (38, {'uri': 'http://box'}),
        'otherName': (38, {'otherName': (HOUSE + '5', encode(char.UTF8String('box')))}),
        'another serial': (23, {'hwModules': [(BASE.hardware, [bytes.fromhex('20260008')])]}),
        'a block below': (23, {'hwModules': [(BASE.hardware, [(bytes.fromhex('20260000'), bytes.fromhex('20260006'))])]}),
        'a block with a longer end': (23, {'hwModules': [(BASE.hardware, [(bytes.fromhex('20260000'), bytes.fromhex('0020260008'))])]}),
        'another hardware type': (23, {'hwModules': [(HOUSE + '9', [None, BASE.serial])]}),
        'another community': (23, {'communities': [SEASON]}),
    }
    for name, (status, target) in targets.items():
        refuse(name, sign(manager, kind, query(number=4, **target)), kind, status, number=4, **target)

    # rights
    refuse('no right to adjust', sign(manager, 'seqNumAdjust', adjust(**ref)), 'seqNumAdjust', 11, **ref)
    refuse('the lab may not enrol', sign(lab, 'update', update(entries=[('add', sampler)], **ref)), 'update', 11, **ref)
    refuse('identity anchor', sign(stranger, kind, content), kind, 11, Store([(apex, 9), (stranger, None)]), **ref)
    carrier = manager._replace(rights=[right(kind, source=False)])
    refuse('carrier only', good, kind, 11, Store([(apex, 9), (carrier, None)]), **ref)
    # the signing time that OpenSSL put in, as a signed attribute that the entry limits
    times = [a['attrValues'][0] for a in signed_data_of(good.octets)['signerInfos'][0]['signedAttrs'] if str(a['attrType']) == SIGNING_TIME]
    other = encode(univ.Integer(0))
    timed = manager._replace(rights=[right(kind, limits=[(SIGNING_TIME, [bytes(times[0]), other])])])
    answer = status_response([apex.identifier, manager.identifier], [], **ref)
    call('the signing time is listed', good, Store([(apex, 9), (timed, 3)]), 0, answer, Store([(apex, 9), (timed, 4)]))
    timed = manager._replace(rights=[right(kind, limits=[(SIGNING_TIME, [other])])])
    refuse('the signing time is not listed', good, kind, 11, Store([(apex, 9), (timed, 3)]), **ref)


# -- P11 and P12 of the paper, with real keys; P12's octets are the paper's

def paper():
    first, second = apex._replace(identifier=b'\x01', title=None), desk._replace(identifier=b'\x02', title=None, rights=None)

    def store(number):
        return Store([(first, number), (second, None)], hardware='1.2.3', serial=b'\x07')

    ref = {'number': 5, **ALL}
    refuse('P11 stored 5, Query 5', sign(first, 'statusQuery', query(**ref)), 'statusQuery', 21, store(5), **ref)
    call('P11 stored 5, Adjust 5', sign(first, 'seqNumAdjust', adjust(**ref)), store(5), 0, adjust_confirm(**ref), store(5))
    lower = {'number': 4, **ALL}
    refuse('stored 5, Adjust 4', sign(first, 'seqNumAdjust', adjust(**lower)), 'seqNumAdjust', 21, store(5), **lower)
    call('no number, Adjust 4', sign(first, 'seqNumAdjust', adjust(**lower)), store(None), 0, adjust_confirm(**lower), store(4))
    ref = {'number': 6, **ALL}
    content, reply = bytes.fromhex('300A81010130058300020106'), bytes.fromhex('301130058300020106A0083006040101040102')
    assert query(**ref) == content and status_response([b'\x01', b'\x02'], [], **ref) == reply
    call('P12, P11 stored 5, Query 6', sign(first, 'statusQuery', content), store(5), 0, reply, store(6))


# -- after acceptance

def updates():
    ref = {'number': 4, **ALL}
    pem = certificate(key_file(stranger), '77').decode()
    certified = decode(base64.b64decode(''.join(pem.split('\n')[1:-2])), rfc5280.Certificate())[0]
    long = stranger._replace(identifier=bytes(33))
    entries = [
        ('add', sampler, 0),
        ('add', sampler, 0),  # no change
        ('add', sampler._replace(title='other'), 20),
        ('change', sampler.key, 35),
        ('remove', stranger.key, 25),
        ('remove', apex.key, 19),
        ('remove', desk.key, 11),
        ('add', desk, 11),
        ('add', certified, 34),
        ('add', long, 17),
        ('remove', lab.key, 0),
        ('add', stranger, 0),  # an identity anchor
    ]
    # the lab was not appended; of two numbers the last one stays
    numbers = [(sampler.identifier, 8), (lab.identifier, 9), (sampler.identifier, 7)]
    after = BASE._replace(anchors=[(apex, 9), (desk, None), (manager, 4), (sampler, 7), (stranger, None)])
    message = sign(manager, 'update', update(entries=[e[:2] for e in entries], numbers=numbers, **ref))
    call('entries of each kind', message, BASE, 0, update_confirm([e[2] for e in entries], **ref), after)

    # no entry applies, the number moves
    seventeen = [('add', sampler)] + [('remove', lab.key)] * 16
    message = sign(manager, 'update', update(entries=seventeen, numbers=[(sampler.identifier, 8)], **ref))
    call('seventeen entries', message, BASE, 17, error('update', 17, **ref), base(4))

    greedy = sampler._replace(rights=[right(TEST)])
    message = sign(manager, 'update', update(entries=[('add', greedy), ('remove', apex.key)], **ref))
    call('each entry fails, the number moves', message, BASE, 0, update_confirm([11, 19], **ref), base(4))

    # by the rights at acceptance, though the signer has left
    more = manager._replace(rights=manager.rights + [right(TEST)])
    message = sign(manager, 'update', update(entries=[('remove', manager.key), ('add', more), ('add', greedy), ('add', manager)], **ref))
    after = BASE._replace(anchors=[(apex, 9), (desk, None), (lab, None), (manager, None)])
    call('the manager leaves and comes back', message, BASE, 0, update_confirm([0, 11, 11, 0], **ref), after)

    # anyContentType does not stand for a type that has an entry of its own
    every, no_test = right(str(rfc6010.id_ct_anyContentType)), right(TEST, source=False)
    deputy = manager._replace(rights=[every, no_test])
    entries = [(sampler._replace(rights=[every]), 11), (sampler._replace(rights=[right(TEST)]), 11),
               (sampler._replace(rights=[no_test, every]), 0), (lab, 0)]
    message = sign(deputy, 'update', update(entries=[('add', a) for a, _ in entries], **ref))
    after = Store([(apex, 9), (deputy, 4), (entries[2][0], None), (lab, None)])
    call('a deputy for all but test rows', message, Store([(apex, 9), (deputy, None)]), 0, update_confirm([status for _, status in entries], **ref), after)

    # 32 anchors
    ref = {'number': 10, **ALL}
    crowd = [(actor('sampler %d' % n, key='-algorithm ED25519')._replace(title=None), None) for n in range(31)]
    full = Store([(apex, 9)] + crowd)
    last, _ = crowd[-1]
    entries = [('add', desk, 17), ('add', last, 0), ('add', last._replace(title='other'), 20), ('remove', last.key, 0), ('add', desk, 0), ('add', last, 17)]
    call('a full store', sign(apex, 'update', update(entries=[e[:2] for e in entries], **ref)), full, 0, update_confirm([e[2] for e in entries], **ref),
         Store([(apex, 10)] + crowd[:-1] + [(desk, None)]))


def community_updates():
    ref = {'number': 4, **ALL}
    many = [HOUSE + '4.%d' % n for n in range(3, 18)]
    long = HOUSE + '4' + '.268435456' * 5
    cases = [
        ('one goes, one is there, one comes', {'remove': [VALLEY], 'add': [FACTORY, SEASON]}, 0, [FACTORY, SEASON]),
        ('an empty list removes all', {'remove': [], 'add': [SEASON]}, 0, [SEASON]),
        ('a community in both lists', {'remove': [VALLEY], 'add': [VALLEY]}, 24, [VALLEY, FACTORY]),
        ('seventeen would remain', {'add': many}, 17, [VALLEY, FACTORY]),
        ('sixteen remain', {'remove': [VALLEY], 'add': many}, 0, [FACTORY] + many),
        ('an identifier too long', {'remove': [long]}, 17, [VALLEY, FACTORY]),
    ]
    for name, lists, status, left in cases:
        message = sign(manager, 'communityUpdate', communities(**lists, **ref))
        call(name, message, BASE, status, community_confirm(status, **ref), base(4)._replace(communities=left))


for part in (run, wrappers, broken_wrappers, broken_contents, acceptance, paper, updates, community_updates):
    part()
    common.say(len(CALLS), 'calls so far')
for c in CALLS:
    print(json.dumps(c))
