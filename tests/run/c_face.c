/*
 * Writes, for each journal, the eight figures of its run that yearbook_run
 * gives, in decimal on a line. Before that it tries buffers around their size:
 * none, one byte, one byte short, exact, and with one byte and more to spare.
 * Canary bytes stand in front of each buffer and behind it. An empty journal
 * and an empty buffer are lent as NULL. Ends with status 1 and a message where
 * an answer or a byte is not what yearbook.h says.
 *
 * usage: c_face JOURNAL..
 */
#include <inttypes.h>

#include "../c/face.h"
#include "yearbook.h"

/* So many canaries stand in front of a buffer, which is then not aligned. */
#define FRONT 63
#define NUMBER_SIZE 8

static uint8_t whole[YEARBOOK_RUN_SIZE];
static _Alignas(NUMBER_SIZE) uint8_t ground[FRONT + YEARBOOK_RUN_SIZE + 2 * SURPLUS];

/* A buffer of this room gets the bytes of whole, or is refused and keeps all. */
static void try_room(const uint8_t *journal, size_t size, size_t room)
{
    uint8_t *buffer = ground + FRONT;
    int is_short = room < YEARBOOK_RUN_SIZE;
    size_t written = is_short ? 0 : YEARBOOK_RUN_SIZE;
    memset(ground, CANARY, sizeof ground);
    uint32_t answer = yearbook_run(journal, size, room ? buffer : NULL, room);
    expect(answer == (is_short ? YEARBOOK_SHORT : YEARBOOK_OK), "another number in another buffer");
    expect(memcmp(buffer, whole, written) == 0, "other figures in another buffer");
    expect(kept(ground, FRONT), "a byte in front of the buffer was written");
    expect(kept(buffer + written, sizeof ground - FRONT - written), "a byte behind the figures, or of a refusal, was written");
}

/* The number of 8 bytes, low byte first. */
static uint64_t decoded(const uint8_t *bytes)
{
    uint64_t number = 0;
    for (size_t i = NUMBER_SIZE; i > 0; i--) {
        number = number << 8 | bytes[i - 1];
    }
    return number;
}

static void try_journal(void)
{
    size_t size;
    uint8_t *bytes = read_journal(&size);
    const uint8_t *journal = size ? bytes : NULL;

    memset(whole, CANARY, sizeof whole);
    expect(yearbook_run(journal, size, whole, sizeof whole) == YEARBOOK_OK, "the exact buffer was refused");
    size_t rooms[] = {0, 1, YEARBOOK_RUN_SIZE - 1, YEARBOOK_RUN_SIZE, YEARBOOK_RUN_SIZE + 1, YEARBOOK_RUN_SIZE + SURPLUS};
    for (size_t k = 0; k < sizeof rooms / sizeof *rooms; k++) {
        try_room(journal, size, rooms[k]);
    }

    for (size_t place = 0; place < sizeof whole; place += NUMBER_SIZE) {
        printf(place ? " %" PRIu64 : "%" PRIu64, decoded(whole + place));
    }
    printf("\n");
    free(bytes);
}

int main(int argc, char **argv)
{
    expect(argc >= 2, "usage: c_face JOURNAL..");
    for (int k = 1; k < argc; k++) {
        tried = argv[k];
        try_journal();
    }
    expect(!ferror(stdout) && fflush(stdout) == 0, "not written");
    return 0;
}
