"""The two outside tools as functions, for the scripts that make the programs' input: Debian's python3-pyasn1-modules encodes anchors,
messages and replies (RFC 5914, 6010, 5934, 5652), OpenSSL signs and verifies. Nothing here reads or writes DER by itself.
"""
import functools, hashlib, os, re, subprocess, sys, tempfile
from typing import NamedTuple
import common
try:
    from pyasn1.codec.ber import encoder as ber
    from pyasn1.codec.der.decoder import decode
    from pyasn1.codec.der.encoder import encode
    from pyasn1.error import PyAsn1Error
    from pyasn1.type import univ
    from pyasn1_modules import rfc5280, rfc5652, rfc5914, rfc5934, rfc6010
except ImportError as error:
    common.missing(error)

common.need('openssl', 'openssl')
common.need('xxd', 'xxd')

KINDS = {'statusQuery': rfc5934.id_ct_TAMP_statusQuery, 'update': rfc5934.id_ct_TAMP_update,
         'communityUpdate': rfc5934.id_ct_TAMP_communityUpdate, 'seqNumAdjust': rfc5934.id_ct_TAMP_seqNumAdjust}
ED25519 = '1.3.101.112'


def type_of(kind):
    """a content type: one of the four by its name, any other by its OID"""
    return KINDS.get(kind) or univ.ObjectIdentifier(kind)


# -- trust anchors (RFC 5914, RFC 6010)

class Anchor(NamedTuple):
    key: rfc5280.SubjectPublicKeyInfo
    identifier: bytes
    title: str = None
    rights: list = None  # the entries of its content constraints; None for no extension
    critical: bool = False


def right(kind, source=True, limits=()):
    """an entry of content constraints; limits: attribute type and the values allowed, each an element"""
    return kind, source, limits


def content_constraints(rights):
    constraints = rfc6010.CMSContentConstraints()
    for e, (kind, source, limits) in enumerate(rights):
        constraints[e]['contentType'] = type_of(kind)
        if not source:
            constraints[e]['canSource'] = 'cannotSource'
        for l, (attribute, values) in enumerate(limits):
            limit = constraints[e]['attrConstraints'][l]
            limit['attrType'] = univ.ObjectIdentifier(attribute)
            limit['attrValues'].extend(values)
    return encode(constraints)


def ed25519(octets):
    """a key of any octets, for where no signature is checked"""
    key = rfc5280.SubjectPublicKeyInfo()
    key['algorithm']['algorithm'] = univ.ObjectIdentifier(ED25519)
    key['subjectPublicKey'] = univ.BitString.fromOctetString(octets)
    return key


def fill_key(place, key):
    """copies a key into a field, which may have a tag of its own"""
    place['algorithm']['algorithm'] = key['algorithm']['algorithm']
    if key['algorithm']['parameters'].isValue:
        place['algorithm']['parameters'] = key['algorithm']['parameters']
    place['subjectPublicKey'] = key['subjectPublicKey']


def fill_anchor(info, anchor):
    fill_key(info['pubKey'], anchor.key)
    info['keyId'] = anchor.identifier
    if anchor.title is not None:
        info['taTitle'] = anchor.title
    if anchor.rights is not None:
        extension = info['exts'][0]
        extension['extnID'] = rfc6010.id_pe_cmsContentConstraints
        extension['critical'] = anchor.critical
        extension['extnValue'] = content_constraints(anchor.rights)


def anchor_info(anchor):
    info = rfc5914.TrustAnchorInfo()
    fill_anchor(info, anchor)
    return encode(info)


# -- messages (RFC 5934)

def fill_reference(ref, number, **target):
    """fills a TAMPMsgRef; target: one field of TargetIdentifier"""
    (name, value), = target.items()
    if name == 'hwModules':
        for m, (hardware, entries) in enumerate(value):
            module = ref['target']['hwModules'][m]
            module['hwType'] = hardware
            for e, entry in enumerate(entries):
                if entry is None:
                    module['hwSerialEntries'][e]['all'] = ''
                elif isinstance(entry, bytes):
                    module['hwSerialEntries'][e]['single'] = entry
                else:
                    module['hwSerialEntries'][e]['block']['low'], module['hwSerialEntries'][e]['block']['high'] = entry
    elif name == 'communities':
        ref['target']['communities'].extend(value)
    elif name == 'otherName':
        ref['target']['otherName']['type-id'], ref['target']['otherName']['value'] = value
    else:
        ref['target'][name] = value
    ref['seqNum'] = number


def query(number, terse='terse', version=None, **target):
    q = rfc5934.TAMPStatusQuery()
    if version is not None:
        q['version'] = version
    q['terse'] = terse
    fill_reference(q['query'], number, **target)
    return encode(q)


def update(number, entries, numbers=(), terse='terse', **target):
    """entries: 'add' and an Anchor or a Certificate, 'remove' and a key, 'change' and a key"""
    u = rfc5934.TAMPUpdate()
    u['terse'] = terse
    fill_reference(u['msgRef'], number, **target)
    for i, (what, value) in enumerate(entries):
        entry = u['updates'][i]
        if what == 'add' and isinstance(value, Anchor):
            fill_anchor(entry['add']['taInfo'], value)
        elif what == 'add':
            entry['add']['certificate'] = value
        elif what == 'remove':
            fill_key(entry['remove'], value)
        else:
            fill_key(entry['change']['taChange']['pubKey'], value)
            entry['change']['taChange']['taTitle'] = 'changed'
    for i, (identifier, n) in enumerate(numbers):
        u['tampSeqNumbers'][i]['keyId'] = identifier
        u['tampSeqNumbers'][i]['seqNumber'] = n
    return encode(u)


def communities(number, remove=None, add=None, **target):
    c = rfc5934.TAMPCommunityUpdate()
    c['terse'] = 'terse'
    fill_reference(c['msgRef'], number, **target)
    if remove is not None:
        c['updates']['remove'].extend(remove)
    if add is not None:
        c['updates']['add'].extend(add)
    # the DER encoder leaves out empty optional lists; without a set in the type the BER encoder writes DER
    return ber.encode(c)


def adjust(number, **target):
    a = rfc5934.SequenceNumberAdjust()
    fill_reference(a['msgRef'], number, **target)
    return encode(a)


# -- replies (RFC 5934), terse

def status_response(identifiers, members, **ref):
    """members: the communities that the box is a member of"""
    r = rfc5934.TAMPStatusResponse()
    fill_reference(r['query'], **ref)
    r['response']['terseResponse']['taKeyIds'].extend(identifiers)
    if members:
        r['response']['terseResponse']['communities'].extend(members)
    return encode(r)


def update_confirm(statuses, **ref):
    r = rfc5934.TAMPUpdateConfirm()
    fill_reference(r['update'], **ref)
    r['confirm']['terseConfirm'].extend(statuses)
    return encode(r)


def community_confirm(status, **ref):
    r = rfc5934.TAMPCommunityUpdateConfirm()
    fill_reference(r['update'], **ref)
    r['commConfirm']['terseCommConfirm'] = status
    return encode(r)


def adjust_confirm(**ref):
    r = rfc5934.SequenceNumberAdjustConfirm()
    fill_reference(r['adjust'], **ref)
    r['status'] = 0
    return encode(r)


def error(kind, status, **ref):
    e = rfc5934.TAMPError()
    e['msgType'] = type_of(kind)
    e['status'] = status
    if ref:
        fill_reference(e['msgRef'], **ref)
    return encode(e)


# -- the wrapper (RFC 5652)

def attribute(type, *values):
    a = rfc5652.Attribute()
    a['attrType'] = univ.ObjectIdentifier(type)
    for i, v in enumerate(values):
        a['attrValues'][i] = univ.Any(encode(v))
    return a


def content_info(type, content):
    outer = rfc5652.ContentInfo()
    outer['contentType'] = type
    outer['content'] = content
    return encode(outer)


def set_of(attributes):
    s = rfc5652.SignedAttributes()
    s.extend(attributes)
    return encode(s)


def signed_data(kind, identifier, content, more=(), unsigned=(), digest=True, hash='sha256', sign=lambda attributes: bytes(64)):
    """a message that pyasn1 encodes, signed by an Ed25519 key: `sign` is given the octets that the signature is of (RFC 5652, 5.4)"""
    algorithm = univ.ObjectIdentifier({'sha256': '2.16.840.1.101.3.4.2.1', 'sha512': '2.16.840.1.101.3.4.2.3'}[hash])
    s = rfc5652.SignedData()
    s['version'] = 3
    s['digestAlgorithms'][0]['algorithm'] = algorithm
    s['encapContentInfo']['eContentType'] = type_of(kind)
    s['encapContentInfo']['eContent'] = content
    i = s['signerInfos'][0]
    i['version'] = 3
    i['sid']['subjectKeyIdentifier'] = identifier
    i['digestAlgorithm']['algorithm'] = algorithm
    attributes = [attribute('1.2.840.113549.1.9.3', type_of(kind))] + list(more)
    if digest:
        attributes.append(attribute('1.2.840.113549.1.9.4', univ.OctetString(hashlib.new(hash, content).digest())))
    i['signedAttrs'].extend(attributes)
    i['signatureAlgorithm']['algorithm'] = univ.ObjectIdentifier(ED25519)
    i['signature'] = sign(set_of(attributes))
    if unsigned:
        i['unsignedAttrs'].extend(unsigned)
    return content_info(rfc5652.id_signedData, s)


# -- OpenSSL

def openssl(*words, given=None):
    """what the command prints, or None where it fails"""
    done = subprocess.run(['openssl', *words], input=given, capture_output=True)
    return done.stdout if done.returncode == 0 else None


def place(octets, *path):
    """the offset of an element, as `openssl asn1parse` prints it; path: its position among the members of the one above it, and so on from the
    outermost element's members down"""
    printed = openssl('asn1parse', '-inform', 'DER', given=octets).decode()
    elements = [(int(offset), int(depth)) for offset, depth in re.findall(r'^ *(\d+):d=(\d+)', printed, re.M)]
    for depth, position in enumerate(path, 1):
        end = next((i for i, (_, d) in enumerate(elements[1:], 1) if d < depth), len(elements))
        members = [i for i in range(1, end) if elements[i][1] == depth]
        elements = elements[members[position]:end]
    return elements[0][0]


def script(name, *words, environment):
    """what tools/NAME prints"""
    done = subprocess.run([common.path('tools', name), *words], env={**os.environ, **environment}, stdout=subprocess.PIPE)
    if done.returncode:
        common.say(f'tools/{name} failed')
        sys.exit(1)
    return done.stdout


def signed(kind, identifier, content, **environment):
    """content signed by tools/sign.sh, which says what the environment may hold; the identifier in hex"""
    return bytes.fromhex(script('sign.sh', identifier, str(type_of(kind)), content.hex(), environment=environment).decode().strip())


def signed_ed25519(kind, identifier, content, key_file):
    """content signed by an Ed25519 key (RFC 8419), with `openssl pkeyutl`: `openssl cms` of OpenSSL 3.0 neither signs nor verifies with one"""
    def sign(attributes):
        with on_file(attributes) as file:
            return openssl('pkeyutl', '-sign', '-rawin', '-inkey', key_file, '-in', file.name)
    return signed_data(kind, identifier, content, hash='sha512', sign=sign)


def on_file(octets):
    file = tempfile.NamedTemporaryFile()
    file.write(octets)
    file.flush()
    return file


def verifies_ed25519(message, key_file):
    try:
        s = decode(decode(message, rfc5652.ContentInfo())[0]['content'], rfc5652.SignedData())[0]
    except PyAsn1Error:
        return False
    if not len(s['signerInfos']):
        return False
    i = s['signerInfos'][0]
    if str(i['signatureAlgorithm']['algorithm']) != ED25519:
        return False
    digest = attribute('1.2.840.113549.1.9.4', univ.OctetString(hashlib.sha512(s['encapContentInfo']['eContent'].asOctets()).digest()))
    with on_file(set_of(i['signedAttrs'])) as attributes, on_file(i['signature'].asOctets()) as signature:
        verified = openssl('pkeyutl', '-verify', '-rawin', '-inkey', key_file, '-in', attributes.name, '-sigfile', signature.name)
    return verified is not None and encode(digest) in map(encode, i['signedAttrs'])


def certificate(key_file, identifier, **environment):
    """a certificate (PEM) of the key, which is made where there is no such file"""
    return script('certificate.sh', key_file, identifier, environment=environment)


def public_key(key_file):
    return decode(openssl('pkey', '-in', key_file, '-pubout', '-outform', 'DER'), rfc5280.SubjectPublicKeyInfo())[0]


@functools.lru_cache(None)
def is_ed25519(key_file):
    return str(public_key(key_file)['algorithm']['algorithm']) == ED25519


def verifies(message, key_file, certificate_file):
    """whether the key verifies signature and message digest; the certificate is one of it"""
    if is_ed25519(key_file):
        return verifies_ed25519(message, key_file)
    options = ['-inform', 'DER', '-certfile', certificate_file, '-nointern', '-noverify', '-out', os.devnull]
    return openssl('cms', '-verify', '-binary', *options, given=message) is not None
