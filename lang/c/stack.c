/* stack SAMPLES prints how many bytes of stack each call uses: it runs on a stack that was filled with a pattern before. Exits with 1
 * if a call uses more than 24 KB. */
#include <ksi.h>
#include <pthread.h>
#include <string.h>
#include "load.h"

static uint8_t signature[65539], document[4096], publications[65536], digest[32];
static size_t signature_len, publications_len, front_len;
static uint8_t front[4096];
static struct ksi_answer answer;
static struct ksi_step step;
static struct ksi_hasher hasher;

static void *none(void *unused) { return unused; }
static void *verify(void *unused) { ksi_verify(signature, signature_len, digest, publications, publications_len, &answer); return unused; }
static void *hash(void *unused) { ksi_hash(signature, signature_len, digest); return unused; }
static void *more(void *unused) { ksi_hash_start(&hasher); ksi_hash_more(&hasher, signature, signature_len); ksi_hash_end(&hasher, digest); return unused; }
static void *steps(void *unused) { for (size_t k = 0; ksi_step(signature, signature_len, k, &step) == 0; k++); return unused; }

static void *fronts(void *unused) { ksi_check_front(front, front_len, 1700000000, digest, 1700003599, digest, &answer); return unused; }
static void *second(void *unused) { uint64_t at; ksi_second(signature, signature_len, &at); return unused; }

static size_t used(void *(*call)(void *)) {
    size_t size = 1 << 20, free_bytes = 0;
    uint8_t *stack = aligned_alloc(4096, size);
    pthread_attr_t how;
    pthread_t thread;
    if (!stack) exit(2);
    memset(stack, 0x5c, size);
    pthread_attr_init(&how);
    pthread_attr_setstack(&how, stack, size);
    if (pthread_create(&thread, &how, call, NULL) || pthread_join(thread, NULL)) exit(2);
    while (free_bytes < size && stack[free_bytes] == 0x5c) free_bytes++;
    free(stack);
    return size - free_bytes;
}

int main(int count, char **words) {
    if (count != 2) return 2;
    signature_len = load(words[1], "deed.ksig", signature, sizeof signature);
    publications_len = load(words[1], "publications.bin", publications, sizeof publications);
    ksi_hash(document, load(words[1], "deed.txt", document, sizeof document), digest);
    front_len = load(words[1], "front.bin", front, sizeof front);
    size_t thread = used(none), most = 0;
    struct { const char *name; void *(*call)(void *); } calls[] = {{"ksi_verify", verify}, {"ksi_hash", hash}, {"ksi_hash_more", more}, {"ksi_step", steps}, {"ksi_check_front", fronts}, {"ksi_second", second}};
    for (size_t k = 0; k < sizeof calls / sizeof *calls; k++) {
        size_t bytes = used(calls[k].call) - thread;
        printf("%s takes %zu bytes of stack\n", calls[k].name, bytes);
        if (bytes > most) most = bytes;
    }
    return most > 24576;
}
