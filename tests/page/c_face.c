/*
 * Writes, for each journal, the number that yearbook_page answers, the length
 * of the text, 0 where there is none, and the text. Before that it tries
 * buffers around this length: none, one byte short, exact, and with room to
 * spare; where the year is not closed, none and one of 64 bytes. Canary bytes
 * stand in front of each buffer and behind it. An empty journal and an empty
 * buffer are lent as NULL. Ends with status 1 and a message where an answer, a
 * length or a byte is not what yearbook.h says.
 *
 * usage: c_face JOURNAL..
 */
#include <inttypes.h>

#include "../c/face.h"
#include "yearbook.h"

/* So many canaries stand in front of a buffer, which is then not aligned. */
#define FRONT 63
#define NO_LENGTH ((size_t)UNTOLD)

static uint8_t whole[YEARBOOK_PAGE_MAX];
static uint8_t ground[FRONT + YEARBOOK_PAGE_MAX + 2 * SURPLUS];

/* A buffer of this room gets the first bytes of whole, or is refused with its number and keeps all. */
static void try_room(const uint8_t *journal, size_t size, size_t room, uint32_t number, size_t length)
{
    uint8_t *buffer = ground + FRONT;
    size_t told = NO_LENGTH;
    memset(ground, CANARY, sizeof ground);
    uint32_t answer = yearbook_page(journal, size, room ? buffer : NULL, room, &told);
    if (number == YEARBOOK_OK && room < length) {
        number = YEARBOOK_SHORT;
    }
    expect(answer == number, "another number in another buffer");
    size_t written = number == YEARBOOK_OK ? length : 0;
    expect(told == (number == YEARBOOK_OK ? length : NO_LENGTH), "another length, or one with a refusal");
    expect(memcmp(buffer, whole, written) == 0, "another text");
    expect(kept(ground, FRONT), "a byte in front of the buffer was written");
    expect(kept(buffer + written, sizeof ground - FRONT - written), "a byte behind the text, or of a refusal, was written");
}

static void try_journal(void)
{
    size_t size;
    uint8_t *bytes = read_journal(&size);
    const uint8_t *journal = size ? bytes : NULL;

    size_t length = NO_LENGTH;
    memset(whole, CANARY, sizeof whole);
    uint32_t number = yearbook_page(journal, size, whole, sizeof whole, &length);
    if (number == YEARBOOK_OK) {
        expect(length > 0 && length <= sizeof whole, "an empty text, or one above the bound");
        size_t rooms[] = {0, length - 1, length, length + 1, length + SURPLUS};
        for (size_t k = 0; k < sizeof rooms / sizeof *rooms; k++) {
            try_room(journal, size, rooms[k], number, length);
        }
    } else {
        expect(number == YEARBOOK_STAGE, "the largest buffer was refused");
        expect(length == NO_LENGTH, "a length with a refusal");
        length = 0;
        try_room(journal, size, 0, number, length);
        try_room(journal, size, SURPLUS, number, length);
    }
    expect(kept(whole + length, sizeof whole - length), "a byte of the largest buffer was written");

    printf("%" PRIu32 " %zu\n", number, length);
    expect(fwrite(whole, 1, length, stdout) == length, "not written");
    free(bytes);
}

int main(int argc, char **argv)
{
    expect(argc >= 2, "usage: c_face JOURNAL..");
    for (int k = 1; k < argc; k++) {
        tried = argv[k];
        try_journal();
    }
    expect(fflush(stdout) == 0, "not written");
    return 0;
}
