// All of standard input, for the programs that answer one input and end.
#ifndef INPUT_H
#define INPUT_H

#include <stdint.h>
#include <stdio.h>
#include <stdlib.h>

// Its bytes and their count; NULL, with the reason said, where they cannot be had.
static inline uint8_t *read_all(size_t *len) {
    size_t room = 1 << 16, got;
    uint8_t *bytes = malloc(room);
    *len = 0;
    while (bytes && (got = fread(bytes + *len, 1, room - *len, stdin)) > 0) {
        *len += got;
        if (*len < room) continue;
        uint8_t *more = realloc(bytes, room *= 2);
        if (!more) free(bytes);
        bytes = more;
    }
    if (!bytes) return fprintf(stderr, "no memory for the input\n"), NULL;
    if (!ferror(stdin)) return bytes;
    fprintf(stderr, "standard input cannot be read\n");
    free(bytes);
    return NULL;
}

#endif
