/*
 * Prints the listing of a journal, or says where a file cannot be read or the
 * listing not be written. What is wrong with the journal itself is told by the
 * program: yearbook replies.
 *
 * usage: yearbook JOURNAL
 */
#include <errno.h>
#include <inttypes.h>
#include <stdio.h>
#include <stdlib.h>
#include <string.h>

#include "yearbook.h"

/* Says what is wrong with a file, in the system's words. */
static int wrong(const char *name)
{
    fprintf(stderr, "yearbook: %s: %s\n", name, strerror(errno));
    return 1;
}

/* All bytes of a file, to be freed; NULL, with errno, if they are not read. */
static uint8_t *read_whole(FILE *file, size_t *len)
{
    size_t room = 65536;
    uint8_t *bytes = malloc(room);

    *len = 0;
    while (bytes != NULL) {
        *len += fread(bytes + *len, 1, room - *len, file);
        if (*len < room)
            break;
        room *= 2;
        uint8_t *more = realloc(bytes, room);
        if (more == NULL)
            free(bytes);
        bytes = more;
    }
    if (bytes != NULL && ferror(file)) {
        free(bytes);
        bytes = NULL;
    }
    return bytes;
}

int main(int argc, char **argv)
{
    static uint8_t listing[YEARBOOK_LISTING_MAX];
    uint64_t written;
    size_t journal_len;

    if (argc != 2) {
        fprintf(stderr, "usage: yearbook JOURNAL\n");
        return 2;
    }
    FILE *file = fopen(argv[1], "rb");
    if (file == NULL)
        return wrong(argv[1]);
    uint8_t *journal = read_whole(file, &journal_len);
    if (journal == NULL)
        return wrong(argv[1]);
    fclose(file);

    uint32_t number = yearbook_list(journal, journal_len,
                                    listing, sizeof listing, &written);
    free(journal);
    if (number != YEARBOOK_OK) {
        fprintf(stderr, "yearbook: refused with number %" PRIu32 "\n", number);
        return 1;
    }
    if (fwrite(listing, 1, (size_t)written, stdout) != written
        || fflush(stdout) != 0)
        return wrong("standard output");
    return 0;
}
