/* ksi.h: verifies signatures of Keyless Signatures' Infrastructure with a
 * library that is proved in Rattle. Link with libksi.a or libksi.so.
 *
 * A pointer and a length describe that many readable bytes, which must not
 * change during the call. The pointer must not be null, even if the length is
 * 0, and the length must be below 2^63. The memory that a call writes must not
 * overlap its other arguments. No function allocates memory, keeps state
 * between calls, waits, prints or reads a file. All functions may run in
 * several threads at once, if each thread writes to its own state, answer,
 * step or digest. A call uses less than 24 KB of stack.
 */
#ifndef KSI_H
#define KSI_H

#include <stddef.h>
#include <stdint.h>

#ifdef __cplusplus
extern "C" {
#endif

/* The version of this interface. It changes if a struct or a meaning changes,
 * but not if a function is added. If you load the library at run time, compare
 * it with ksi_abi(). */
#define KSI_ABI 2

uint32_t ksi_abi(void);

/* The version of the library that this header belongs to. */
#define KSI_VERSION "0.2.0"

/* ---- Checks ---------------------------------------------------------- */

/* Statuses, equal to the exit statuses of the program `ksi`. */
enum ksi_status {
    KSI_ACCEPTED = 0,  /* the signature is accepted for the answer's second */
    KSI_REFUSED = 1,   /* a check failed: code is its number, V1 to V15 */
    KSI_MALFORMED = 3  /* a file is malformed: code is its fault, S or Q */
};

/* The malformed file, by its place in the command line of `ksi verify`; and the
 * front of ksi_check_front, in any answer but acceptance. */
enum ksi_file {
    KSI_SIGNATURE = 1,    /* codes S1 to S14 */
    KSI_PUBLICATIONS = 3, /* codes Q1 to Q9 */
    KSI_FRONT = 4         /* codes C1 to C5, or if refused F1, F2, F3 and F5 */
};

/* Checks in the order in which they run (15 runs after 6), each with the
 * fields of the answer that it sets: detail, numbers[0] and following, one and
 * other. All other fields are zero. Chains and links are counted from 0, from
 * the lowest up. */
enum ksi_check {
    KSI_WRONG_HASH = 1,           /* one: in the signature; other: given */
    KSI_INDEX_ORDER = 2,          /* numbers: chain, place, lower, higher;
                                     detail: 1 if there is a lower,
                                     plus 2 if there is a higher */
    KSI_INDEX_SHAPE = 3,          /* numbers: chain, part, shape */
    KSI_LEVEL = 4,                /* numbers: chain, link, level */
    KSI_CHAIN_BREAK = 5,          /* numbers: chain; one: computed;
                                     other: stated */
    KSI_AGGREGATION_TIMES = 6,    /* numbers: chain, first, this */
    KSI_BARE_METADATA = 15,       /* numbers: chain, link */
    KSI_NO_CALENDAR = 7,
    KSI_CALENDAR_INPUT = 8,       /* one: computed; other: stated */
    KSI_MISSED_SECOND = 9,
    KSI_CALENDAR_SHAPE = 10,      /* detail 0, too many links: place;
                                     detail 1, too few: seconds left */
    KSI_TIME_FIELD = 11,          /* numbers: field, second */
    KSI_RECORD_DIFFERS = 12,      /* detail 0, times: record, publication;
                                     detail 1, hashes: one: record;
                                     other: computed */
    KSI_NO_PUBLICATION = 13,      /* numbers: time */
    KSI_PUBLICATION_DIFFERS = 14  /* numbers: time; one: in the file;
                                     other: computed */
};

/* The checks of a front, in the order in which they run, each with the fields
 * of the answer that it sets. */
enum ksi_front_check {
    KSI_OTHER_SECONDS = 5, /* numbers: the seconds in the front */
    KSI_LENGTH = 1,        /* numbers: imprints needed, given; more than 65
                              count as 65 */
    KSI_OLD_DIFFERS = 2,   /* one: computed; other: given */
    KSI_NEW_DIFFERS = 3    /* one: computed; other: given */
};

/* The result of ksi_verify and of ksi_check_front: 120 bytes, no padding, no
 * pointers. */
struct ksi_answer {
    uint32_t status;     /* of enum ksi_status */
    uint32_t file;       /* of enum ksi_file, or 0 */
    uint32_t code;       /* of enum ksi_check or ksi_front_check, or the fault's
                            number S, Q or C; 0 if accepted */
    uint32_t detail;     /* distinguishes cases of one code */
    uint64_t second;     /* of Unix time, if a signature is accepted; else 0 */
    uint64_t numbers[4]; /* the values of the check; or those of the fault, in
                            the order of docs/FORMATS.md: a place in bytes, a
                            kind, a kind and a place, or for S10 the algorithm.
                            If a signature is accepted, numbers[0] is the second
                            of the publication that this rests on */
    uint8_t one[32];     /* SHA-256 digests, depending on the code. If a
                            signature is accepted, one is the root of that
                            publication */
    uint8_t other[32];
};

/* Verifies a signature file for the SHA-256 digest of a document, against a
 * publications file. DIGEST has 32 bytes. Writes all fields of ANSWER and
 * returns its status. */
uint32_t ksi_verify(const uint8_t *signature, size_t signature_len,
                    const uint8_t *digest,
                    const uint8_t *publications, size_t publications_len,
                    struct ksi_answer *answer);

/* Writes the second of Unix time that a signature file states to SECOND, and
 * returns KSI_ACCEPTED. If the bytes are no signature, SECOND is unchanged, and
 * the result is KSI_MALFORMED. No check of the signature runs: it need not be
 * accepted, nor published. If ksi_verify accepts it, this is its second. */
uint32_t ksi_second(const uint8_t *signature, size_t signature_len,
                    uint64_t *second);

/* Checks a front, which is a consistency proof: that the calendar of the seconds
 * from 0 to P1, with root ROOT1, is the beginning of that of the seconds from 0
 * to P2, with root ROOT2. A root is a SHA-256 digest of 32 bytes, as in the
 * answer of ksi_verify. Writes all fields of ANSWER and returns its status. If
 * it is KSI_ACCEPTED, both calendars have the same root of each second to P1, or
 * SHA-256 has a collision. */
uint32_t ksi_check_front(const uint8_t *front, size_t front_len,
                         uint64_t p1, const uint8_t *root1,
                         uint64_t p2, const uint8_t *root2,
                         struct ksi_answer *answer);

/* ---- Hashes ---------------------------------------------------------- */

/* Computes the SHA-256 of bytes. Writes 32 bytes to DIGEST. */
void ksi_hash(const uint8_t *bytes, size_t len, uint8_t *digest);

/* Computes the SHA-256 of bytes that arrive in pieces: call start, any number
 * of more, then end. 104 bytes, no padding. A state may be copied, and may be
 * updated after end. If it was never started, end writes a meaningless digest,
 * and nothing worse happens. The fields are private. */
struct ksi_hasher {
    uint32_t h[8];
    uint8_t buffer[64];
    uint64_t total;
};

void ksi_hash_start(struct ksi_hasher *state);
void ksi_hash_more(struct ksi_hasher *state, const uint8_t *bytes, size_t len);
void ksi_hash_end(const struct ksi_hasher *state, uint8_t *digest);

/* ---- Drawings -------------------------------------------------------- */

/* A link of a signature with both parts and their join: 4,200 bytes, no
 * padding. join is the SHA-256 of the node, the sibling and the byte of the
 * level; if side is 1, the sibling comes before the node. The node is hashed
 * as 33 bytes: the byte 1, then its digest. */
struct ksi_step {
    uint64_t chain;        /* of the aggregation chain, from 0 for the lowest */
    uint64_t place;        /* of the link in its chain, from 0 for the lowest */
    uint64_t size;         /* of the sibling, in bytes */
    uint32_t calendar;     /* 1: in the calendar chain, and chain is 0 */
    uint32_t side;         /* of the node: 0 left, 1 right */
    uint32_t level;        /* 1 to 255; 255 in the calendar chain */
    uint32_t raw;          /* 1: the sibling is a name or metadata */
    uint8_t node[32];      /* the result of the links below */
    uint8_t join[32];      /* the result of this link */
    uint8_t sibling[4096]; /* an imprint has 33: the byte 1, then a digest */
};

/* Writes link NUMBER of a signature file to STEP. Links are counted from 0 at
 * the document's hash: first those of the aggregation chains, then those of the
 * calendar chain. Each chain begins with its own input hash. Returns 0 if STEP
 * was written, 1 if there is no such link or if a level would exceed 255, and 3
 * if the bytes are no signature. On 1 and 3 STEP is unchanged. The result does
 * not depend on whether the signature is accepted. */
uint32_t ksi_step(const uint8_t *signature, size_t signature_len,
                  size_t number, struct ksi_step *step);

#ifdef __cplusplus
}
#endif
#endif
