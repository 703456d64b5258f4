/*
 * Writes, for each journal, the number that yearbook_narrow answers, the
 * length of the journal for 64 consumers, 0 where there is none, and its
 * bytes. Before that it tries buffers around this length: none, a half, one
 * byte short, exact, and with one byte and more to spare. Canary bytes stand
 * in front of each buffer and behind it. An empty journal and an empty buffer
 * are lent as NULL. Ends with status 1 and a message where an answer or a byte
 * is not what yearbook.h says.
 *
 * usage: c_face JOURNAL..
 */
#include <inttypes.h>

#include "../c/face.h"
#include "yearbook.h"

/* So many canaries stand in front of a buffer, which is then not aligned. */
#define FRONT 63

/* The journal that is tried, and a copy of it that is lent. */
static uint8_t *own, *lent;
static size_t size;

/* The ground on which a buffer of this room stands, all canaries. */
static uint8_t *ground_of(size_t room)
{
    uint8_t *ground = malloc(FRONT + room + SURPLUS);
    expect(ground != NULL, "no memory");
    memset(ground, CANARY, FRONT + room + SURPLUS);
    return ground;
}

/* What is answered with a buffer of this room, which gets the journal's own bytes, or keeps all. */
static uint32_t narrow(uint8_t *ground, size_t room)
{
    uint8_t *buffer = ground + FRONT;
    uint32_t answer = yearbook_narrow(size ? lent : NULL, size, room ? buffer : NULL, room);
    size_t written = answer == YEARBOOK_OK ? size : 0;
    expect(written <= room, "a short buffer was taken");
    expect(memcmp(buffer, own, written) == 0, "other bytes than the journal's own");
    expect(memcmp(lent, own, size) == 0, "a byte of the journal was written");
    expect(kept(ground, FRONT), "a byte in front of the buffer was written");
    expect(kept(buffer + written, room + SURPLUS - written), "a byte behind the journal, or of a refusal, was written");
    return answer;
}

static void try_journal(void)
{
    own = read_journal(&size);
    lent = malloc(size + 1);
    expect(lent != NULL, "no memory");
    memcpy(lent, own, size);

    uint8_t *whole = ground_of(size);
    uint32_t number = narrow(whole, size);
    expect(number != YEARBOOK_SHORT, "the exact buffer was refused");
    size_t rooms[] = {0, size / 2, size - (size > 0), size + 1, size + SURPLUS};
    for (size_t k = 0; k < sizeof rooms / sizeof *rooms; k++) {
        uint8_t *ground = ground_of(rooms[k]);
        uint32_t expected = number == YEARBOOK_OK && rooms[k] < size ? YEARBOOK_SHORT : number;
        expect(narrow(ground, rooms[k]) == expected, "another number in another buffer");
        free(ground);
    }

    size_t length = number == YEARBOOK_OK ? size : 0;
    printf("%" PRIu32 " %zu\n", number, length);
    expect(fwrite(whole + FRONT, 1, length, stdout) == length, "not written");
    free(whole);
    free(lent);
    free(own);
}

int main(int argc, char **argv)
{
    expect(argc >= 2, "usage: c_face JOURNAL..");
    for (int k = 1; k < argc; k++) {
        tried = argv[k];
        try_journal();
    }
    expect(!ferror(stdout) && fflush(stdout) == 0, "not written");
    return 0;
}
