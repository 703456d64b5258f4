/*
 * Prints the figures of a journal's run: the counts, where the reading stopped,
 * and the first refused record. It takes a journal of any length, and says
 * where a file cannot be read or the figures not be written.
 *
 * usage: run JOURNAL
 */
#include <errno.h>
#include <inttypes.h>
#include <stdio.h>
#include <stdlib.h>
#include <string.h>

#include "yearbook.h"

/* Says what is wrong with a file, in the system's words. */
static int wrong(const char *name)
{
    fprintf(stderr, "run: %s: %s\n", name, strerror(errno));
    return 1;
}

/* All bytes of a file, to be freed; NULL, with errno, if they are not read. */
static uint8_t *read_whole(FILE *file, size_t *len)
{
    size_t room = 65536;
    uint8_t *bytes = malloc(room);

    *len = 0;
    while (bytes != NULL) {
        *len += fread(bytes + *len, 1, room - *len, file);
        if (*len < room)
            break;
        room *= 2;
        uint8_t *more = realloc(bytes, room);
        if (more == NULL)
            free(bytes);
        bytes = more;
    }
    if (bytes != NULL && ferror(file)) {
        free(bytes);
        bytes = NULL;
    }
    return bytes;
}

/* The number of 8 bytes, low byte first, at a place of the figures. */
static uint64_t number_at(const uint8_t *figures, size_t place)
{
    uint64_t number = 0;

    for (size_t i = 8; i > 0; i--)
        number = number << 8 | figures[place + i - 1];
    return number;
}

/* Prints the eight figures, in the order in which they stand. */
static void print(const uint8_t *figures)
{
    printf("read %" PRIu64 "\n", number_at(figures, 0));
    printf("accepted %" PRIu64 "\n", number_at(figures, 8));
    printf("refused %" PRIu64 "\n", number_at(figures, 16));
    printf("stop %" PRIu64 " at byte %" PRIu64 "\n",
           number_at(figures, 24), number_at(figures, 32));
    if (number_at(figures, 40) == 1)
        printf("first refused record at byte %" PRIu64 ", number %" PRIu64 "\n",
               number_at(figures, 48), number_at(figures, 56));
    else
        printf("first refused record: none\n");
}

int main(int argc, char **argv)
{
    uint8_t figures[YEARBOOK_RUN_SIZE];
    size_t journal_len;

    if (argc != 2) {
        fprintf(stderr, "usage: run JOURNAL\n");
        return 2;
    }
    FILE *file = fopen(argv[1], "rb");
    if (file == NULL)
        return wrong(argv[1]);
    uint8_t *journal = read_whole(file, &journal_len);
    if (journal == NULL)
        return wrong(argv[1]);
    fclose(file);

    uint32_t number = yearbook_run(journal, journal_len,
                                   figures, sizeof figures);
    free(journal);
    if (number != YEARBOOK_OK) {
        fprintf(stderr, "run: refused with number %" PRIu32 "\n", number);
        return 1;
    }
    print(figures);
    if (ferror(stdout) || fflush(stdout) != 0)
        return wrong("standard output");
    return 0;
}
