/* The trust anchor store of a box, one call: from message, store image and verdict to reply and next store
   (RFC 5934 and RFC 6010 in the profile of document 01; README.md, docs/DECISIONS.md).
   tools/library.sh proves the library and writes target/staticlib/libtamp.a, for x86-64. */
#ifndef TAMP_H
#define TAMP_H

#include <stddef.h>
#include <stdint.h>

/* The version of this interface, raised whenever the struct, a room, an argument or the meaning of a number changes. */
#define TAMP_INTERFACE_VERSION 2

/* The rooms that a caller must lend, in octets. More is fine; less is answered TAMP_SMALL_BUFFER. */
#define TAMP_REPLY_ROOM 10240
#define TAMP_NEXT_ROOM 33717

/* Limits. A longer message is answered TAMP_LONG_MESSAGE; an image over one of the others is none: TAMP_BAD_IMAGE. */
#define TAMP_MAX_MESSAGE 8192
#define TAMP_MAX_IMAGE 33717
#define TAMP_MAX_ANCHORS 32                     /* the octets of a verdict, too */
#define TAMP_MAX_COMMUNITIES 16
#define TAMP_MAX_ANCHOR_OCTETS 1024             /* of a TrustAnchorInfo */
#define TAMP_MAX_KEY_IDENTIFIER 32              /* octets */
#define TAMP_MAX_NAME 32                        /* octets of a hwType, a serial number, a community */
#define TAMP_MAX_SEQ_NUMBER 9223372036854775807

/* Entries of an Update; more are answered TAMP_INSUFFICIENT_MEMORY for the message as a whole. */
#define TAMP_MAX_UPDATES 16

/* A stack with so many octets to spare is enough for a call: 45,432 is the most that was measured (docs/SPEED.md, bench/run.sh). */
#define TAMP_STACK 131072

/* The numbers of an answer, and the statuses that an Update Confirm lists for the entries. */
enum tamp_number {
    /* RFC 5934, section 5, StatusCode: those that are given. */
    TAMP_SUCCESS = 0,                           /* success */
    TAMP_DECODE_FAILURE = 1,                    /* decodeFailure */
    TAMP_BAD_CONTENT_INFO = 2,                  /* badContentInfo */
    TAMP_BAD_SIGNED_DATA = 3,                   /* badSignedData */
    TAMP_BAD_ENCAP_CONTENT = 4,                 /* badEncapContent */
    TAMP_BAD_CERTIFICATE = 5,                   /* badCertificate */
    TAMP_BAD_SIGNER_INFO = 6,                   /* badSignerInfo */
    TAMP_BAD_SIGNED_ATTRS = 7,                  /* badSignedAttrs */
    TAMP_BAD_UNSIGNED_ATTRS = 8,                /* badUnsignedAttrs */
    TAMP_MISSING_CONTENT = 9,                   /* missingContent */
    TAMP_NO_TRUST_ANCHOR = 10,                  /* noTrustAnchor */
    TAMP_NOT_AUTHORIZED = 11,                   /* notAuthorized: the message; or an entry */
    TAMP_SIGNATURE_FAILURE = 16,                /* signatureFailure */
    TAMP_INSUFFICIENT_MEMORY = 17,              /* insufficientMemory: an Update or Community Update as a whole; or an entry */
    TAMP_UNSUPPORTED_TAMP_MSG_TYPE = 18,        /* unsupportedTAMPMsgType */
    TAMP_APEX_TAMP_ANCHOR = 19,                 /* apexTAMPAnchor: an entry only */
    TAMP_IMPROPER_TA_ADDITION = 20,             /* improperTAAddition: an entry only */
    TAMP_SEQ_NUM_FAILURE = 21,                  /* seqNumFailure */
    TAMP_INCORRECT_TARGET = 23,                 /* incorrectTarget */
    TAMP_COMMUNITY_UPDATE_FAILED = 24,          /* communityUpdateFailed */
    TAMP_TRUST_ANCHOR_NOT_FOUND = 25,           /* trustAnchorNotFound: an entry only */
    TAMP_MISSING_SIGNATURE = 29,                /* missingSignature */
    TAMP_VERSION_NUMBER_MISMATCH = 31,          /* versionNumberMismatch */
    TAMP_UNSUPPORTED_TRUST_ANCHOR_FORMAT = 34,  /* unsupportedTrustAnchorFormat: an entry only */
    TAMP_IMPROPER_TA_CHANGE = 35,               /* improperTAChange: an entry only */
    TAMP_MALFORMED = 36,                        /* malformed */
    TAMP_UNSUPPORTED_TARGET_IDENTIFIER = 38,    /* unsupportedTargetIdentifier */
    TAMP_OTHER = 127,                           /* other: a verbose reply is wanted */

    /* House refusals. RFC 5934 has no names for them: no message is answered, what the host gave is wrong. */
    TAMP_BAD_IMAGE = 201,                       /* the store image breaks a rule */
    TAMP_BAD_VERDICT = 202,                     /* the verdict has not an octet for each anchor, or one above 1 */
    TAMP_SMALL_BUFFER = 203,                    /* reply_room or next_room is too small */
    TAMP_LONG_MESSAGE = 204,                    /* the message is too long */
    TAMP_LONG_REPLY = 205                       /* the reply would be too long (no message leads to it) */
};

/* What a call answers: a number (enum tamp_number), how many octets of reply and next were written, and where the message
   broke.

   On a house refusal both lengths are 0 and no octet is written: the store stays the one that was given.
   On every other number the next store is written whole, and from then on it is the store. That holds for numbers that
   are not 0 too: an accepted message moves its signer's sequence number, also where it is answered 17 or 24.
   The reply is the unsigned TAMP content; the host wraps and signs it. Numbers 1 to 4 have none: reply_len is 0.
   Octets behind the lengths written stay as they were.

   0 for an Update says that the message was accepted, not that each entry was applied: the reply, a terse Update
   Confirm, lists a status for each entry in the message's order.

   offset is for numbers 1, 2, 3, 4, 6, 7, 8 and 36; for all others it is 0. It counts from the message's first octet, for 36
   too, and is the place of the first octet of the element that breaks the rule. An element that may not stand there is that
   itself; for a missing part it is the element that lacks it, for an overrun the one that overruns, for a repeat or a wrong
   order the later one. For octets behind the message's or the content's element it is the first of them. It is below
   message_len, but for an empty message: 0. */
struct tamp_answer {
    uint32_t number;
    uint64_t reply_len;
    uint64_t next_len;
    uint64_t offset;
};

#ifdef __cplusplus
extern "C" {
#endif

/* The verdict has one octet for each anchor, in store order: 1 if its key verifies signature and message digest, else 0.

   Each pointer leads to as many octets as the length or room behind it says, and is not NULL, also where that is 0.
   reply and next must not overlap each other, nor message, image or verdict: where they do, the answer may be wrong and
   nothing tells. (message, image and verdict are only read and may overlap.)
   The call keeps no state between calls, uses no heap and reads nothing but its arguments: it may be called from several
   threads at once, each with a reply and a next of its own. */
struct tamp_answer tamp_call(const uint8_t *message, size_t message_len,
                             const uint8_t *image, size_t image_len,
                             const uint8_t *verdict, size_t verdict_len,
                             uint8_t *reply, size_t reply_room,
                             uint8_t *next, size_t next_room);

#ifdef __cplusplus
}
#endif

#endif
