/* What the examples share: reading a file of any size, and saying why one cannot be read, written or played. */
#ifndef FILES_H
#define FILES_H

#include "lampthistle.h"
#include <errno.h>
#include <inttypes.h>
#include <stdio.h>
#include <stdlib.h>
#include <string.h>

/* How a program ends. */
enum { DONE = 0, REFUSED = 1, CANNOT = 2 };

static int cannot(const char *name) {
    fprintf(stderr, "%s: %s\n", name, strerror(errno));
    return CANNOT;
}

static int refused(const char *name, const uint64_t *answer) {
    fprintf(stderr, "%s: refused %" PRIu64 " at %" PRIu64 ": %s\n", name, answer[LAMPTHISTLE_NUMBER], answer[LAMPTHISTLE_PLACE],
            lampthistle_refusal_text(answer[LAMPTHISTLE_NUMBER]));
    return REFUSED;
}

/* All bytes from `in`, in memory that the caller frees; null where they cannot be read or there is no memory. */
static uint8_t *read_all(FILE *in, size_t *length) {
    size_t room = 0, got;
    uint8_t *bytes = NULL, *more;
    *length = 0;
    do {
        if (*length == room) {
            room = room == 0 ? 1 << 16 : 2 * room;
            more = (uint8_t *)realloc(bytes, room);
            if (!more) return free(bytes), (uint8_t *)NULL;
            bytes = more;
        }
        got = fread(bytes + *length, 1, room - *length, in);
        *length += got;
    } while (got > 0);
    if (ferror(in)) return free(bytes), (uint8_t *)NULL;
    return bytes;
}

/* A file's bytes; null, with the reason told, where there are none to be had. */
static uint8_t *read_file(const char *name, size_t *length) {
    FILE *in = fopen(name, "rb");
    uint8_t *bytes = in ? read_all(in, length) : NULL;
    if (!bytes) cannot(name);
    if (in) fclose(in);
    return bytes;
}

#endif
