/*
 * Prints the printed close of a journal, or says why there is none. It takes
 * up to 65,536 bytes, as the program does; examples/yearbook.c reads a journal
 * of any length.
 *
 * usage: page JOURNAL
 */
#include <errno.h>
#include <inttypes.h>
#include <stdio.h>
#include <string.h>

#include "yearbook.h"

/* Says what is wrong with a file, in the system's words. */
static int wrong(const char *name)
{
    fprintf(stderr, "page: %s: %s\n", name, strerror(errno));
    return 1;
}

int main(int argc, char **argv)
{
    static uint8_t journal[65536], page[YEARBOOK_PAGE_MAX];
    size_t length;

    if (argc != 2) {
        fprintf(stderr, "usage: page JOURNAL\n");
        return 2;
    }
    FILE *file = fopen(argv[1], "rb");
    if (file == NULL)
        return wrong(argv[1]);
    size_t journal_len = fread(journal, 1, sizeof journal, file);
    int is_longer = fgetc(file) != EOF;
    if (ferror(file))
        return wrong(argv[1]);
    fclose(file);
    if (is_longer) {
        fprintf(stderr, "page: %s: longer than 65536 bytes\n", argv[1]);
        return 1;
    }

    uint32_t number = yearbook_page(journal, journal_len,
                                    page, sizeof page, &length);
    if (number == YEARBOOK_STAGE) {
        fprintf(stderr, "page: no page, the year is not closed: "
                        "4 not in this stage\n");
        return 1;
    }
    if (number != YEARBOOK_OK) {
        fprintf(stderr, "page: refused with number %" PRIu32 "\n", number);
        return 1;
    }
    if (fwrite(page, 1, length, stdout) != length || fflush(stdout) != 0)
        return wrong("standard output");
    return 0;
}
