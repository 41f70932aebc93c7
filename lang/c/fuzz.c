/* fuzz SECONDS SEED SAMPLES calls every function on at least 200 random and mangled inputs. Each input is in a block of exactly its
 * size, so a sanitizer or valgrind detects any read outside. With GUARD the block ends at an inaccessible page, so the processor
 * detects it. Aborts if an answer contradicts itself. */
#include <ksi.h>
#include <string.h>
#include <time.h>
#include "load.h"
#ifdef GUARD
#include <sys/mman.h>
#endif

static uint64_t state;

static uint64_t draw(void) {
    state ^= state << 13;
    state ^= state >> 7;
    state ^= state << 17;
    return state;
}

static uint64_t below(uint64_t bound) { return draw() % bound; }

#ifdef GUARD

enum { ROOM = 18 * 4096, BLOCKS = 8 };

static struct { uint8_t *room, *out; } blocks[BLOCKS];

static void *taken(size_t len) {
    for (int k = 0; k < BLOCKS; k++) {
        if (blocks[k].out) continue;
        if (!blocks[k].room) {
            blocks[k].room = mmap(NULL, ROOM + 4096, PROT_READ | PROT_WRITE, MAP_PRIVATE | MAP_ANONYMOUS, -1, 0);
            if (blocks[k].room == MAP_FAILED || mprotect(blocks[k].room + ROOM, 4096, PROT_NONE)) exit(2);
        }
        return blocks[k].out = blocks[k].room + ROOM - len;
    }
    abort();
}

static void done(void *block) {
    for (int k = 0; k < BLOCKS; k++)
        if (blocks[k].out == block) { blocks[k].out = NULL; return; }
    abort();
}

#else

static void *taken(size_t len) {
    void *out = malloc(len ? len : 1);
    if (!out) exit(2);
    return out;
}

static void done(void *block) { free(block); }

#endif

static uint8_t *block(const uint8_t *bytes, size_t len) {
    uint8_t *out = taken(len);
    memcpy(out, bytes, len);
    return out;
}

/* Copies bytes and cuts, stretches or overwrites them, replaces them by random ones, or changes a few of them. */
static uint8_t *mangled(const uint8_t *bytes, size_t size, size_t *len) {
    static uint8_t room[70000];
    size_t n = size;
    memcpy(room, bytes, n);
    switch (below(8)) {
    case 0: n = below(200); for (size_t k = 0; k < n; k++) room[k] = (uint8_t)draw(); break;
    case 1: n = below(size + 1); break;
    case 2: for (size_t more = below(300); more; more--) room[n++] = (uint8_t)draw(); break;
    case 3: { size_t to = below(n), from = below(n); memmove(room + to, room + from, below(n - (to > from ? to : from))); break; }
    default: for (uint64_t k = below(4); k < 4; k++) room[below(n)] = (uint8_t)draw();
    }
    *len = n;
    return block(room, n);
}

/* The hash of the pieces is the hash of the whole. */
static void hash(const uint8_t *bytes, size_t len) {
    struct ksi_hasher *hasher = taken(sizeof *hasher);
    uint8_t whole[32], pieces[32];
    ksi_hash_start(hasher);
    for (size_t at = 0; at < len;) {
        size_t n = below(len - at + 1);
        uint8_t *piece = block(bytes + at, n);
        ksi_hash_more(hasher, piece, n);
        done(piece);
        at += n;
        if (below(4) == 0) ksi_hash_end(hasher, pieces);
    }
    ksi_hash_end(hasher, pieces);
    ksi_hash(bytes, len, whole);
    if (memcmp(whole, pieces, 32)) abort();
    done(hasher);
}

/* A front is accepted only between its own roots, and each answer has the codes of its status. */
static void fronts(const uint8_t *front, size_t len, const uint8_t *calendar, size_t calendar_len) {
    struct ksi_answer *answer = taken(sizeof *answer);
    uint8_t *old = block(calendar + calendar_len - 79, 32), *new = block(calendar + calendar_len - 32, 32);
    int is_other = below(8) == 0;
    if (is_other) old[below(32)] ^= (uint8_t)(1 + below(255));
    memset(answer, 0xa5, sizeof *answer);
    uint32_t status = ksi_check_front(front, len, 1700000000, old, 1700003599, new, answer);
    if (status != answer->status || status > 3 || status == 2 || answer->second || answer->file != (status ? KSI_FRONT : 0) || answer->code > 5) abort();
    if (status == 0 && (is_other || answer->code)) abort();
    done(answer), done(old), done(new);
}

/* Only a signature has a second. An accepted one has the answer's. */
static void seconds(const uint8_t *signature, size_t len, const struct ksi_answer *answer) {
    uint64_t *second = taken(sizeof *second);
    *second = 7;
    uint32_t found = ksi_second(signature, len, second);
    if ((found == 3) != (answer->status == KSI_MALFORMED && answer->file == KSI_SIGNATURE) || (found != 3 && found != 0)) abort();
    if (found == 3 && *second != 7) abort();
    if (answer->status == KSI_ACCEPTED && *second != answer->second) abort();
    done(second);
}

/* Only a signature has steps, and their numbers have no gaps. */
static void steps(const uint8_t *signature, size_t len, uint32_t status, uint32_t file) {
    struct ksi_step *step = taken(sizeof *step);
    size_t number = below(40);
    uint32_t found = ksi_step(signature, len, number, step);
    if ((found == 3) != (status == KSI_MALFORMED && file == KSI_SIGNATURE)) abort();
    if (found == 0 && (step->level < 1 || step->level > 255 || step->side > 1 || (!step->raw && step->size != 33))) abort();
    if (found == 0 && number && ksi_step(signature, len, below(number), step) != 0) abort();
    done(step);
}

int main(int count, char **words) {
    static uint8_t signature[65539], publications[4096], document[4096], front[4096], calendar[4096], right[32];
    if (count != 4) return 2;
    state = strtoull(words[2], 0, 10) * 0x9e3779b97f4a7c15u + 1;
    size_t signature_len = load(words[3], "deed.ksig", signature, sizeof signature);
    size_t publications_len = load(words[3], "publications.bin", publications, sizeof publications);
    ksi_hash(document, load(words[3], "deed.txt", document, sizeof document), right);
    size_t front_len = load(words[3], "front.bin", front, sizeof front), calendar_len = load(words[3], "calendar.bin", calendar, sizeof calendar);
    uint64_t calls = 0, seen[4][4][16] = {{{0}}};
    time_t end = time(0) + atol(words[1]);
    do
        for (int turn = 0; turn < 200; turn++, calls++) {
            size_t s, p;
            uint8_t *one = below(4) ? mangled(signature, signature_len, &s) : block(signature, s = signature_len);
            uint8_t *two = below(2) ? mangled(publications, publications_len, &p) : block(publications, p = publications_len);
            uint8_t *digest = block(right, 32);
            struct ksi_answer *answer = taken(sizeof *answer);
            memset(answer, 0xa5, sizeof *answer);
            if (below(8) == 0) ksi_hash(one, s, digest);
            if (below(4) == 0) hash(one, s);
            uint32_t status = ksi_verify(one, s, digest, two, p, answer);
            if (status != answer->status || status > 3 || status == 2 || answer->code > 15 || answer->file > 3) abort();
            if (below(4) == 0) steps(one, s, status, answer->file);
            seconds(one, s, answer);
            if (below(4) == 0) {
                size_t f;
                uint8_t *three = below(8) ? mangled(front, front_len, &f) : block(front, f = front_len);
                fronts(three, f, calendar, calendar_len);
                done(three);
            }
            seen[status][answer->file][answer->code]++;
            done(one), done(two), done(digest), done(answer);
        }
    while (time(0) < end);
    printf("%llu inputs without a fault\n", (unsigned long long)calls);
    for (int k = 0; k < 16; k++) {
        if (seen[0][0][k]) printf("accepted %llu\n", (unsigned long long)seen[0][0][k]);
        if (seen[1][0][k]) printf("V%d %llu\n", k, (unsigned long long)seen[1][0][k]);
        if (seen[3][1][k]) printf("S%d %llu\n", k, (unsigned long long)seen[3][1][k]);
        if (seen[3][3][k]) printf("Q%d %llu\n", k, (unsigned long long)seen[3][3][k]);
    }
    return 0;
}
