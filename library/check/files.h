/* Reading files, for the tests of the library. */
#ifndef FILES_H
#define FILES_H
#include <stdint.h>
#include <stdio.h>
#include <stdlib.h>

/* the bytes of a file that is open, and their number; there is a byte behind them, so that no pointer is null */
static uint8_t *read_whole(FILE *file, size_t *size) {
    uint8_t *bytes = (uint8_t *)malloc(1);
    size_t room = 1;
    *size = 0;
    for (size_t got = 1; bytes && file && got > 0; *size += got) {
        if (*size + 1 == room) bytes = (uint8_t *)realloc(bytes, room = 2 * room + 65536);
        if (!bytes) break;
        got = fread(bytes + *size, 1, room - 1 - *size, file);
    }
    if (!bytes || !file) {
        fputs("a file can't be read\n", stderr);
        exit(99);
    }
    return bytes;
}

static uint8_t *read_named(const char *name, size_t *size) {
    FILE *file = fopen(name, "rb");
    uint8_t *bytes = read_whole(file, size);
    fclose(file);
    return bytes;
}

#endif
