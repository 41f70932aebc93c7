/* Reads files for the programs here that are not examples. */
#ifndef LOAD_H
#define LOAD_H

#include <stdint.h>
#include <stdio.h>
#include <stdlib.h>

static inline size_t load(const char *folder, const char *name, uint8_t *into, size_t room) {
    char path[4096];
    snprintf(path, sizeof path, "%s/%s", folder, name);
    FILE *file = fopen(path, "rb");
    if (!file) { perror(path); exit(2); }
    size_t len = fread(into, 1, room, file);
    fclose(file);
    return len;
}

#endif
