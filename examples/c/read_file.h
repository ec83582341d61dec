/* Reading a file of any size, for the examples. */
#ifndef READ_FILE_H
#define READ_FILE_H
#include <stdint.h>
#include <stdio.h>
#include <stdlib.h>

/* the bytes of a file, to its end, and their number; NULL if it can't be read whole */
static uint8_t *read_file(const char *name, size_t *size) {
    FILE *file = fopen(name, "rb");
    uint8_t *bytes = NULL;
    size_t room = 0, got = 1;
    for (*size = 0; file && got > 0; *size += got) {
        if (*size == room) {
            uint8_t *more = (uint8_t *)realloc(bytes, room = 2 * room + 4096);
            if (!more) break;
            bytes = more;
        }
        got = fread(bytes + *size, 1, room - *size, file);
    }
    if (!file || got > 0 || ferror(file)) {
        free(bytes);
        bytes = NULL;
    }
    if (file) fclose(file);
    return bytes;
}

#endif
