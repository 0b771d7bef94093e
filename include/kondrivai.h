/*
 * Kondrivai for a C host: 802.11 data frames sealed and opened by CCMP, on a record that lies in a buffer of the host's.
 * Link libkondrivai.a, which needs memcpy and memset and nothing else. docs/C-HOST.md shows how, docs/LAYOUT.md says what a buffer holds.
 *
 * What every call does: it takes any octets, ends, keeps to what it is lent, and answers a number, below. It has no state of its own,
 * allocates nothing and calls nothing back. It wipes nothing: octets of the key may be left on the stack that it used.
 *
 * What every call asks of the host, who owns every buffer:
 *
 * - No pointer is null, not even where its length is 0, and no length is over SIZE_MAX / 2. Alignment is free.
 * - What is written, the record and the output, overlaps nothing else that is lent. What is only read may overlap.
 * - Until the call returns nobody else writes what is lent, and nobody else reads the record or the output. Calls on different records may run at
 *   the same time, in different threads; two calls on one record may not.
 * - A record is changed by these calls alone. The host may copy it, store it and read it; of two copies only one is used from then on.
 */
#ifndef KONDRIVAI_H
#define KONDRIVAI_H

#include <stddef.h>
#include <stdint.h>

#ifdef __cplusplus
extern "C" {
#endif

/* The octets of each record's buffer: exactly so many, no more. */
#define KONDRIVAI_SENDER_OCTETS 31
#define KONDRIVAI_RECEIVER_OCTETS 170

#define KONDRIVAI_KEY_OCTETS 16
#define KONDRIVAI_ADDRESS_OCTETS 6

/* What sealing adds to a frame, and the octets of the longest frames. */
#define KONDRIVAI_ADDED_OCTETS 16
#define KONDRIVAI_MOST_PLAIN 7971
#define KONDRIVAI_MOST_SEALED 7987

/*
 * The sizes of a receiver's replay windows. Each priority has one, and what has no QoS Control is of priority 0. Small: a frame's packet number
 * must be above all opened in its priority. Large: it may be up to 15 below the greatest of these, if it wasn't opened. A sender numbers all its
 * frames together, whatever their priority.
 */
#define KONDRIVAI_SMALL_WINDOW 1
#define KONDRIVAI_LARGE_WINDOW 16

/* Where in a sender's buffer the last packet number used stands, 0 before the first: 6 octets, least significant first. */
#define KONDRIVAI_LAST_NUMBER_AT 25

/* Where in a receiver's buffer its counts stand: 4 octets each, least significant first. They go back to 0 after 4,294,967,295. */
#define KONDRIVAI_FORMAT_ERRORS_AT 26
#define KONDRIVAI_REPLAYS_AT 30
#define KONDRIVAI_DECRYPT_ERRORS_AT 34
#define KONDRIVAI_OPENED_AT 38

/*
 * The answers. Where several apply, it is the first of these tests: 1, 2 for fewer than 24 octets, 3, 4, 2 for fewer than the header has, 5, 6, 7,
 * and then 12 in sealing, or 8, 9, 10, 11 in opening.
 */
enum kondrivai_answer {
    KONDRIVAI_DONE = 0,
    KONDRIVAI_RECORD = 1,     /* no record of the call's kind and layout in the buffer, a wrong length, or replay windows that no call leaves */
    KONDRIVAI_SHORT = 2,      /* the frame has fewer than 24 octets, or fewer than its header */
    KONDRIVAI_KIND = 3,       /* the version is not 0, the type is not data, or the subtype has no data (0x40 in the first octet) */
    KONDRIVAI_PROTECTED = 4,  /* Protected is set in a frame to seal, or clear in one to open */
    KONDRIVAI_BODY = 5,       /* the octets after the header are not 1 to 7,935 in a frame to seal, 17 to 7,951 in one to open */
    KONDRIVAI_ROOM = 6,       /* the output is too small */
    KONDRIVAI_ADDRESS = 7,    /* A2 is not the record's address */
    KONDRIVAI_EXTENDED = 8,   /* opening: ExtIV is clear */
    KONDRIVAI_KEY_ID = 9,     /* opening: the key ID is not the record's */
    KONDRIVAI_REPLAY = 10,    /* opening: the packet number is 0, was opened before in its priority, or is too far below the greatest there */
    KONDRIVAI_INTEGRITY = 11, /* opening: the integrity code is wrong: another key, or what it protects was changed on the way */
    KONDRIVAI_SPENT = 12      /* sealing: the packet numbers are used up, the last was 2^48 - 1; take a new key */
};

/*
 * Makes a sender that has sealed nothing in the buffer `record`, whatever that held before.
 *
 * key      KONDRIVAI_KEY_OCTETS octets, secret. No sender with this address has ever used it: the numbers start at 1
 * key_id   0 to 3
 * address  the host's own, which stands in A2 of what it seals
 *
 * Answers 0. Refused, with 1, for a wrong length of record or key or a wrong key ID, it leaves the buffer as it was.
 */
uint32_t kondrivai_fresh_sender(
    uint8_t *record, size_t record_octets, const uint8_t *key, size_t key_octets, uint8_t key_id,
    const uint8_t address[KONDRIVAI_ADDRESS_OCTETS]);

/*
 * Makes a receiver that has opened nothing in the buffer `record`, whatever that held before.
 *
 * peer     the address of the one that seals, which stands in A2
 * window   KONDRIVAI_SMALL_WINDOW or KONDRIVAI_LARGE_WINDOW, the receiver's for life
 *
 * Answers 0. Refused, with 1, for a wrong length of record or key, a wrong key ID or another window, it leaves the buffer as it was. Made
 * with a key that a receiver had before, it opens frames again that were opened then.
 */
uint32_t kondrivai_fresh_receiver(
    uint8_t *record, size_t record_octets, const uint8_t *key, size_t key_octets, uint8_t key_id,
    const uint8_t peer[KONDRIVAI_ADDRESS_OCTETS], uint8_t window);

/*
 * Seals the plain frame, header and body without frame check sequence, into the first frame_octets + KONDRIVAI_ADDED_OCTETS octets of
 * `out`, under the sender's next packet number: the header with Protected set, the CCMP header, the body encrypted, the integrity code. The
 * rest of `out` is kept.
 *
 * Answers 0. Refused, with 1 to 7 or 12, it leaves `out` and `record` as they were. It never uses a number twice.
 */
uint32_t kondrivai_seal(
    uint8_t *record, size_t record_octets, const uint8_t *frame, size_t frame_octets, uint8_t *out, size_t out_octets);

/*
 * Opens the sealed frame into the first frame_octets - KONDRIVAI_ADDED_OCTETS octets of `out`: the header as it came, with Protected
 * clear, and the body. The rest of `out` is kept. Not all of a header is protected by the code: docs/C-HOST.md says what is not.
 *
 * Answers 0, and counts one frame more as opened. Refused, with 1 to 11, it leaves `out` as it was, and `record` but for one count: 2 to 5 and 7
 * to 9 are format errors, 10 is a replay, 11 a decrypt error, and 1 and 6 are not counted. It never writes a body whose integrity code is wrong, and
 * never opens a frame twice.
 */
uint32_t kondrivai_open(
    uint8_t *record, size_t record_octets, const uint8_t *frame, size_t frame_octets, uint8_t *out, size_t out_octets);

#ifdef __cplusplus
}
#endif

#endif
