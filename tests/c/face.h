/*
 * What the programs that try the functions of yearbook.h have in common:
 * expectations, canary bytes and whole files.
 */
#ifndef FACE_H
#define FACE_H

#include <stdint.h>
#include <stdio.h>
#include <stdlib.h>
#include <string.h>

#define CANARY 0xA5
#define SURPLUS 64
#define UNTOLD UINT64_C(0x0123456789ABCDEF)

/* The journal that is tried, for the messages. */
static const char *tried = "no journal";

static void expect(int holds, const char *what)
{
    if (!holds) {
        fprintf(stderr, "c_face: %s: %s\n", tried, what);
        exit(1);
    }
}

/* Whether these bytes are as they were. */
static int kept(const uint8_t *bytes, size_t size)
{
    for (size_t i = 0; i < size; i++) {
        if (bytes[i] != CANARY) {
            return 0;
        }
    }
    return 1;
}

/* All bytes of the journal that is tried, to be freed. */
static uint8_t *read_journal(size_t *size)
{
    FILE *file = fopen(tried, "rb");
    expect(file != NULL, "no such journal");
    expect(fseek(file, 0, SEEK_END) == 0, "no size");
    long end = ftell(file);
    expect(end >= 0, "no size");
    rewind(file);
    *size = (size_t)end;
    uint8_t *bytes = malloc(*size + 1);
    expect(bytes != NULL, "no memory");
    expect(fread(bytes, 1, *size, file) == *size, "not read");
    fclose(file);
    return bytes;
}

#endif
