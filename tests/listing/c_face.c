/*
 * Writes the listing of a journal through yearbook_list, after trying buffers
 * around the length that it takes: none, one byte short, exact, and with room
 * to spare. An empty journal and an empty buffer are lent as NULL. Ends with
 * status 1 and a message where an answer, a length or a byte is not what
 * yearbook.h says.
 *
 * usage: c_face JOURNAL
 */
#include "../c/face.h"
#include "yearbook.h"

static uint8_t whole[YEARBOOK_LISTING_MAX];
static uint8_t buffer[YEARBOOK_LISTING_MAX + SURPLUS];

int main(int argc, char **argv)
{
    expect(argc == 2, "usage: c_face JOURNAL");
    tried = argv[1];
    size_t size;
    uint8_t *bytes = read_journal(&size);
    const uint8_t *journal = size ? bytes : NULL;

    uint64_t length = UNTOLD;
    expect(yearbook_list(journal, size, whole, sizeof whole, &length) == YEARBOOK_OK, "the largest buffer was refused");
    expect(length <= sizeof whole, "a listing above the bound");

    size_t rooms[] = {0, (size_t)length - 1, (size_t)length, (size_t)length + 1, (size_t)length + SURPLUS};
    for (size_t k = 0; k < sizeof rooms / sizeof *rooms; k++) {
        size_t room = rooms[k];
        uint64_t told = UNTOLD;
        memset(buffer, CANARY, sizeof buffer);
        uint32_t number = yearbook_list(journal, size, room ? buffer : NULL, room, &told);
        if (room < length) {
            expect(number == YEARBOOK_SHORT, "a short buffer was taken");
            expect(told == UNTOLD, "a length was told");
            expect(kept(buffer, sizeof buffer), "a byte was written");
        } else {
            expect(number == YEARBOOK_OK, "a buffer was refused");
            expect(told == length, "another length");
            expect(memcmp(buffer, whole, (size_t)length) == 0, "another listing");
            expect(kept(buffer + length, sizeof buffer - (size_t)length), "a byte behind the listing was written");
        }
    }

    expect(fwrite(whole, 1, (size_t)length, stdout) == length, "not written");
    free(bytes);
    return 0;
}
