/*
 * Writes the journal on standard input to standard output where programs that
 * know consumers 1 to 64 alone can read it, or says why they cannot. It takes a
 * journal of any length.
 *
 * usage: narrow <JOURNAL >JOURNAL
 */
#include <errno.h>
#include <inttypes.h>
#include <stdio.h>
#include <stdlib.h>
#include <string.h>

#include "yearbook.h"

/* Says what is wrong with a file, in the system's words. */
static int wrong(const char *name)
{
    fprintf(stderr, "narrow: %s: %s\n", name, strerror(errno));
    return 1;
}

/* All bytes of a file, to be freed; NULL, with errno, if they are not read. */
static uint8_t *read_whole(FILE *file, size_t *len)
{
    size_t room = 65536;
    uint8_t *bytes = malloc(room);

    *len = 0;
    while (bytes != NULL) {
        *len += fread(bytes + *len, 1, room - *len, file);
        if (*len < room)
            break;
        room *= 2;
        uint8_t *more = realloc(bytes, room);
        if (more == NULL)
            free(bytes);
        bytes = more;
    }
    if (bytes != NULL && ferror(file)) {
        free(bytes);
        bytes = NULL;
    }
    return bytes;
}

/* The numbers of a journal that is refused, in words. */
static const char *words(uint32_t number)
{
    switch (number) {
    case YEARBOOK_CUT_SHORT:
        return "record cut short";
    case YEARBOOK_UNKNOWN_MARK:
        return "unknown mark";
    case YEARBOOK_WIDE_MARK:
        return "mark for consumers above 64";
    default:
        return "buffer too short";
    }
}

int main(void)
{
    size_t journal_len;
    uint8_t *journal = read_whole(stdin, &journal_len);
    if (journal == NULL)
        return wrong("standard input");

    /* One byte more, so that there is a buffer for an empty journal too. */
    uint8_t *out = malloc(journal_len + 1);
    if (out == NULL)
        return wrong("standard input");
    uint32_t number = yearbook_narrow(journal, journal_len, out, journal_len);
    free(journal);
    if (number != YEARBOOK_OK) {
        free(out);
        fprintf(stderr, "narrow: no journal for 64 consumers: %" PRIu32 " %s\n",
                number, words(number));
        return 1;
    }
    size_t written = fwrite(out, 1, journal_len, stdout);
    free(out);
    if (written != journal_len || fflush(stdout) != 0)
        return wrong("standard output");
    return 0;
}
