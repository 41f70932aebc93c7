/* verify SIGNATURE DOCUMENT PUBLICATIONS prints the second of an accepted signature, or the check that failed. */
#include <ksi.h>
#include <stdio.h>
#include <stdlib.h>

static uint8_t *load(const char *name, size_t *len) {
    FILE *file = fopen(name, "rb");
    size_t room = 65536, more;
    uint8_t *bytes = malloc(room); /* not null, even if the file is empty */
    *len = 0; /* a pipe has no size, and some files report a wrong one */
    while (file && bytes && (more = fread(bytes + *len, 1, room - *len, file)) > 0)
        if ((*len += more) == room) bytes = realloc(bytes, room *= 2);
    if (!file || !bytes || ferror(file)) { perror(name); exit(4); }
    fclose(file);
    return bytes;
}

int main(int count, char **words) {
    if (count != 4) return 2;
    size_t signature_len, document_len, publications_len;
    uint8_t *signature = load(words[1], &signature_len), *document = load(words[2], &document_len);
    uint8_t *publications = load(words[3], &publications_len), digest[32];
    struct ksi_answer answer;
    ksi_hash(document, document_len, digest);
    ksi_verify(signature, signature_len, digest, publications, publications_len, &answer);
    if (answer.status == KSI_ACCEPTED) printf("accepted %llu\n", (unsigned long long)answer.second);
    else if (answer.status == KSI_REFUSED) printf("refused V%u\n", answer.code);
    else printf("malformed %u %c%u\n", answer.file, answer.file == KSI_SIGNATURE ? 'S' : 'Q', answer.code);
    return fflush(stdout) ? 4 : (int)answer.status;
}
