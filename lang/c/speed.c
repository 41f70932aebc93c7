/* speed SAMPLES [CALLS] prints the nanoseconds that a call takes. */
#include <ksi.h>
#include <string.h>
#include <time.h>
#include "load.h"

static uint8_t signature[65539], document[4096], publications[65536], megabyte[1 << 20], digest[32];
static volatile uint32_t sum;

static double now(void) {
    struct timespec time;
    clock_gettime(CLOCK_MONOTONIC, &time);
    return (double)time.tv_sec * 1e9 + (double)time.tv_nsec;
}

static double verify(long calls, size_t signature_len, size_t publications_len) {
    struct ksi_answer answer;
    double begun = now();
    for (long k = 0; k < calls; k++) sum += ksi_verify(signature, signature_len, digest, publications, publications_len, &answer);
    return (now() - begun) / (double)calls;
}

int main(int count, char **words) {
    if (count < 2) return 2;
    long calls = count > 2 ? atol(words[2]) : 20000;
    size_t signature_len = load(words[1], "deed.ksig", signature, sizeof signature);
    size_t document_len = load(words[1], "deed.txt", document, sizeof document);
    size_t publications_len = load(words[1], "publications.bin", publications, sizeof publications);
    ksi_hash(document, document_len, digest);
    printf("ksi_verify: %.0f ns a call\n", verify(calls, signature_len, publications_len));
    printf("ksi_verify of no bytes: %.1f ns a call\n", verify(50 * calls, 0, publications_len));
    double begun = now();
    for (int k = 0; k < 50; k++) ksi_hash(megabyte, sizeof megabyte, digest);
    printf("ksi_hash: %.0f MB/s\n", 50 * 1048576e3 / (now() - begun));
    return 0;
}
