/* test SAMPLES: runs the library on the stored files, row by row. Prints the first row that differs, and exits with 1. */
#include <ksi.h>
#include <stdarg.h>
#include <string.h>
#include "load.h"

static uint8_t signature[65539], document[4096], publications[65536], front[4096], calendar[4096];
static size_t signature_len, document_len, publications_len, front_len, calendar_len;

static void is(int holds, const char *form, ...) {
    if (holds) return;
    va_list words;
    va_start(words, form);
    vprintf(form, words);
    va_end(words);
    puts(" is otherwise");
    exit(1);
}

/* A row: the lengths of the prefixes of the files that are verified, and the fields of the answer. */
struct row {
    size_t signature, document, publications;
    uint32_t status, file, code;
    uint64_t second, number;
};

/* The publication that the accepted sample rests on: its second, and its root in the publications file. */
enum { PUBLISHED = 0x6553ff0f };

static void checks(void) {
    const struct row rows[] = {
        {signature_len, document_len, publications_len, KSI_ACCEPTED, 0, 0, 1700000000, PUBLISHED},
        {signature_len, document_len - 1, publications_len, KSI_REFUSED, 0, KSI_WRONG_HASH, 0, 0},
        {signature_len - 1, document_len, publications_len, KSI_MALFORMED, KSI_SIGNATURE, 1, 0, 0},
        {0, document_len, publications_len, KSI_MALFORMED, KSI_SIGNATURE, 1, 0, 0},
        {signature_len, document_len, 7, KSI_MALFORMED, KSI_PUBLICATIONS, 1, 0, 0},
        {signature_len, document_len, 8, KSI_MALFORMED, KSI_PUBLICATIONS, 5, 0, 1793},
        {0, document_len, 0, KSI_MALFORMED, KSI_SIGNATURE, 1, 0, 0},
    };
    for (size_t k = 0; k < sizeof rows / sizeof *rows; k++) {
        struct ksi_answer answer;
        uint8_t digest[32];
        memset(&answer, 0xa5, sizeof answer);
        ksi_hash(document, rows[k].document, digest);
        uint32_t status = ksi_verify(signature, rows[k].signature, digest, publications, rows[k].publications, &answer);
        is(status == rows[k].status && answer.status == status, "status of check %zu", k);
        is(answer.file == rows[k].file && answer.code == rows[k].code, "code of check %zu", k);
        is(answer.second == rows[k].second && answer.numbers[0] == rows[k].number, "value of check %zu", k);
        if (answer.status == KSI_ACCEPTED) is(!memcmp(answer.one, publications + publications_len - 79, 32), "root of check %zu", k);
        if (answer.status == KSI_REFUSED) is(!memcmp(answer.other, digest, 32) && memcmp(answer.one, digest, 32), "digests of check %zu", k);
    }
}

/* The second that a signature states, whether or not it is published. */
static void seconds(void) {
    uint64_t second = 5;
    is(ksi_second(signature, signature_len, &second) == KSI_ACCEPTED && second == 1700000000, "the second of the signature");
    is(ksi_second(signature, signature_len - 1, &second) == KSI_MALFORMED && second == 1700000000, "the second of no signature");
    is(ksi_second(publications, publications_len, &second) == KSI_MALFORMED && second == 1700000000, "the second of publications");
}

/* A row: the length of the front's prefix, a byte of it that is changed and how, both seconds, and the fields of the answer. */
struct front_row {
    size_t len, place;
    uint8_t changed;
    uint64_t p1, p2;
    uint32_t status, file, code;
    uint64_t numbers[2];
};

/* The calendar of the seconds to 1700000000 begins the one to 1700003599. Both roots are in calendar.bin. */
static void fronts(void) {
    const uint64_t p1 = 1700000000, p2 = 1700003599;
    const struct front_row rows[] = {
        {front_len, 0, 0, p1, p2, KSI_ACCEPTED, 0, 0, {0, 0}},
        {front_len - 35, 0, 0, p1, p2, KSI_REFUSED, KSI_FRONT, KSI_LENGTH, {25, 24}},
        {front_len, 0, 0, p1 + 1, p2, KSI_REFUSED, KSI_FRONT, KSI_OTHER_SECONDS, {p1, p2}},
        {front_len, 0, 0, p1, p2 - 1, KSI_REFUSED, KSI_FRONT, KSI_OTHER_SECONDS, {p1, p2}},
        {front_len, 0, 0, p2, p1, KSI_REFUSED, KSI_FRONT, KSI_OTHER_SECONDS, {p1, p2}},
        {front_len, front_len - 1, 1, p1, p2, KSI_REFUSED, KSI_FRONT, KSI_OLD_DIFFERS, {0, 0}},
        {front_len, 65, 1, p1, p2, KSI_REFUSED, KSI_FRONT, KSI_NEW_DIFFERS, {0, 0}},
        {front_len, 0, 1, p1, p2, KSI_MALFORMED, KSI_FRONT, 1, {0, 0}},
        {front_len - 1, 0, 0, p1, p2, KSI_MALFORMED, KSI_FRONT, 2, {front_len - 35, 0}},
        {14, 0, 0, p1, p2, KSI_MALFORMED, KSI_FRONT, 3, {14, 0}},
        {front_len, 22, 3, p1, p2, KSI_MALFORMED, KSI_FRONT, 4, {20, 0}},
        {0, 0, 0, p1, p2, KSI_MALFORMED, KSI_FRONT, 1, {0, 0}},
    };
    const uint8_t *old = calendar + calendar_len - 79, *new = calendar + calendar_len - 32;
    for (size_t k = 0; k < sizeof rows / sizeof *rows; k++) {
        struct ksi_answer answer;
        memset(&answer, 0xa5, sizeof answer);
        front[rows[k].place] ^= rows[k].changed;
        uint32_t status = ksi_check_front(front, rows[k].len, rows[k].p1, old, rows[k].p2, new, &answer);
        front[rows[k].place] ^= rows[k].changed;
        is(status == rows[k].status && answer.status == status, "status of front %zu", k);
        is(answer.file == rows[k].file && answer.code == rows[k].code && answer.second == 0, "code of front %zu", k);
        is(answer.numbers[0] == rows[k].numbers[0] && answer.numbers[1] == rows[k].numbers[1], "numbers of front %zu", k);
        if (status == KSI_REFUSED && answer.code == KSI_OLD_DIFFERS) is(!memcmp(answer.other, old, 32) && memcmp(answer.one, old, 32), "digests of front %zu", k);
        if (status == KSI_REFUSED && answer.code == KSI_NEW_DIFFERS) is(!memcmp(answer.other, new, 32) && memcmp(answer.one, new, 32), "digests of front %zu", k);
    }
    struct ksi_answer answer;
    is(ksi_check_front(front, front_len, p1, new, p2, new, &answer) == KSI_REFUSED && answer.code == KSI_OLD_DIFFERS, "a front from another root");
    is(ksi_check_front(front, front_len, p1, old, p2, old, &answer) == KSI_REFUSED && answer.code == KSI_NEW_DIFFERS, "a front to another root");
}

/* A front of more than 65 imprints is refused by their number, or by a fault after them. */
static void long_fronts(void) {
    static uint8_t text[4096];
    const uint8_t head[] = {'K', 'S', 'I', 'F', 'R', 'N', 'T', '1', 1, 0, 2, 1, 9};
    struct ksi_answer answer;
    size_t len = sizeof head;
    memcpy(text, head, len);
    for (int k = 0; k < 100; k++, len += 35) text[len] = 3, text[len + 1] = 33, text[len + 2] = 1;
    is(ksi_check_front(text, len, 0, calendar, 9, calendar, &answer) == KSI_REFUSED && answer.code == KSI_LENGTH, "a long front");
    is(answer.numbers[0] == 4 && answer.numbers[1] == 65, "the numbers of a long front");
    text[len - 35] = 4;
    is(ksi_check_front(text, len, 0, calendar, 9, calendar, &answer) == KSI_MALFORMED && answer.code == 3 && answer.numbers[0] == len - 35, "a fault after 99 imprints");
}

/* The one-block example of FIPS 180-4, and each length near the end of a block: as one piece, as two, and byte by byte. */
static void hashes(void) {
    static const uint8_t abc[32] = {0xba, 0x78, 0x16, 0xbf, 0x8f, 0x01, 0xcf, 0xea, 0x41, 0x41, 0x40, 0xde, 0x5d, 0xae, 0x22, 0x23,
                                    0xb0, 0x03, 0x61, 0xa3, 0x96, 0x17, 0x7a, 0x9c, 0xb4, 0x10, 0xff, 0x61, 0xf2, 0x00, 0x15, 0xad};
    uint8_t whole[32], pieces[32];
    ksi_hash((const uint8_t *)"abc", 3, whole);
    is(!memcmp(whole, abc, 32), "the hash of abc");
    for (size_t len = 0; len <= 200; len++) {
        struct ksi_hasher state, single;
        ksi_hash(signature, len, whole);
        ksi_hash_start(&state);
        ksi_hash_more(&state, signature, len / 3);
        ksi_hash_more(&state, signature + len / 3, len - len / 3);
        ksi_hash_end(&state, pieces);
        is(!memcmp(whole, pieces, 32), "the hash of %zu bytes in two pieces", len);
        ksi_hash_start(&single);
        for (size_t k = 0; k < len; k++) ksi_hash_more(&single, signature + k, 1);
        ksi_hash_end(&single, pieces);
        is(!memcmp(whole, pieces, 32), "the hash of %zu single bytes", len);
    }
}

/* Each join is the hash of its parts, each node is the join of the link below, and the last join is published. */
static void steps(void) {
    static struct ksi_step step, before;
    struct ksi_answer answer;
    uint8_t text[4200], digest[32];
    size_t count = 0, calendar = 0;
    for (; ksi_step(signature, signature_len, count, &step) == 0; count++, before = step) {
        uint8_t node[33] = {1};
        memcpy(node + 1, step.node, 32);
        size_t first = step.side == 0 ? 33 : step.size, second = step.side == 0 ? step.size : 33;
        memcpy(text, step.side == 0 ? node : step.sibling, first);
        memcpy(text + first, step.side == 0 ? step.sibling : node, second);
        text[first + second] = (uint8_t)step.level;
        ksi_hash(text, first + second + 1, digest);
        is(!memcmp(digest, step.join, 32), "the join of step %zu", count);
        is(step.calendar ? step.level == 255 : step.raw || step.size == 33, "the level of step %zu", count);
        if (count) is(!memcmp(step.node, before.join, 32), "the node of step %zu", count);
        if (count && step.place) is(step.place == before.place + 1, "the place of step %zu", count);
        calendar += step.calendar;
    }
    ksi_hash(document, document_len, digest);
    is(ksi_step(signature, signature_len, 0, &step) == 0 && !memcmp(step.node, digest, 32), "the first node");
    is(count == 32 && calendar == 24, "the number of steps, %zu and %zu,", count, calendar);
    is(!memcmp(before.join, publications + publications_len - 79, 32), "the last join");
    is(ksi_step(signature, signature_len, count, &step) == 1, "the step past the last");
    is(ksi_step(signature, signature_len - 1, 0, &step) == 3, "a step of no signature");
    is(ksi_verify(signature, signature_len, digest, publications, publications_len, &answer) == 0, "the signature of these steps");
}

int main(int count, char **words) {
    if (count != 2) return 2;
    signature_len = load(words[1], "deed.ksig", signature, sizeof signature);
    document_len = load(words[1], "deed.txt", document, sizeof document);
    publications_len = load(words[1], "publications.bin", publications, sizeof publications);
    front_len = load(words[1], "front.bin", front, sizeof front);
    calendar_len = load(words[1], "calendar.bin", calendar, sizeof calendar);
    is(ksi_abi() == KSI_ABI && sizeof(struct ksi_answer) == 120 && sizeof(struct ksi_hasher) == 104 && sizeof(struct ksi_step) == 4200, "the interface");
    checks();
    seconds();
    fronts();
    long_fronts();
    hashes();
    steps();
    puts("C: all rows as they should be");
    return 0;
}
