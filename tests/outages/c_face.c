/*
 * Reads outage logs from standard input, each behind its length of two bytes,
 * low byte first, and writes a line for each: 0 and the four figures that
 * plant_outages writes for it, or the number alone that it meets. Before that
 * it tries the limits of plant.h on logs of its own.
 *
 * Each log is tried with a figures buffer of every length from 0 to one byte
 * above the figures, and with one of many bytes more. Log and buffer begin at a
 * fence, memory that nobody can reach, and then end at one; on the other side of
 * the buffer are canary bytes, and the log's memory can only be read. So both
 * have every alignment. No bytes are lent as NULL, and as a pointer to none. The
 * figures of a log that is accepted must add up to its window.
 *
 * Ends with status 1 and a message where an answer or a byte is not what plant.h
 * says, and by a signal where a fence is touched or a log is written.
 */
#define _DEFAULT_SOURCE
#include <inttypes.h>
#include <stdio.h>
#include <stdlib.h>
#include <string.h>
#include <sys/mman.h>
#include <unistd.h>

#include "plant.h"

#define CANARY 0xA5
#define SURPLUS 64
#define NUMBER_SIZE 4

/* The log that is tried, and its place among those that were read, from 1. */
static uint8_t lent[UINT16_MAX];
static size_t size;
static unsigned long place;

static void expect(int holds, const char *what)
{
    if (!holds) {
        if (place > 0) {
            fprintf(stderr, "c_face: log %lu: %s\n", place, what);
        } else {
            fprintf(stderr, "c_face: the limits of plant.h: %s\n", what);
        }
        exit(1);
    }
}

/* ---- Memory */

/* Memory between two fences. */
struct fenced {
    uint8_t *start, *end;
};

static struct fenced fenced(size_t least)
{
    size_t page = (size_t)sysconf(_SC_PAGESIZE), inside = (least + page - 1) / page * page;
    uint8_t *fence = mmap(NULL, inside + 2 * page, PROT_NONE, MAP_PRIVATE | MAP_ANONYMOUS, -1, 0);
    expect(fence != MAP_FAILED, "no memory");
    expect(mprotect(fence + page, inside, PROT_READ | PROT_WRITE) == 0, "no memory");
    return (struct fenced){fence + page, fence + page + inside};
}

/* For two copies of a log, and for a figures buffer. */
static struct fenced logs, buffers;

static void open_logs(int rights)
{
    expect(mprotect(logs.start, (size_t)(logs.end - logs.start), rights) == 0, "no rights");
}

static uint32_t number_at(const uint8_t *bytes)
{
    return bytes[0] | (uint32_t)bytes[1] << 8 | (uint32_t)bytes[2] << 16 | (uint32_t)bytes[3] << 24;
}

/* Whether these bytes are as they were. */
static int kept(const uint8_t *bytes, const uint8_t *end)
{
    while (bytes < end && *bytes == CANARY) {
        bytes++;
    }
    return bytes == end;
}

/* ---- One log */

/* The number for a log that is lent and a figures buffer of this length, which must get the expected bytes or keep its own. */
static void try_buffer(const uint8_t *log, uint8_t *figures, size_t length, uint32_t number, const uint8_t *expected)
{
    uint8_t *first = figures == buffers.start ? figures : figures - SURPLUS, *last = first + length + SURPLUS;
    int none = figures == buffers.start && length == 0;
    size_t written = number == PLANT_OK ? PLANT_FIGURES_SIZE : 0;

    memset(first, CANARY, length + SURPLUS);
    expect(plant_outages(log, size, none ? NULL : figures, length) == number, "another number with another buffer");
    expect(memcmp(figures, expected, written) == 0, "other figures in another buffer");
    expect(kept(first, figures), "a byte before the buffer was written");
    expect(kept(figures + written, last), "a byte behind the figures, or by a refusal, was written");
}

/* The same for a log and a buffer that begin at a fence, and for both where they end at one. */
static void try_length(size_t length, uint32_t number, const uint8_t *expected)
{
    try_buffer(size ? logs.start : NULL, buffers.start, length, number, expected);
    try_buffer(logs.end - size, buffers.end - length, length, number, expected);
}

/* The log's number; where it is 0, figures get them. */
static uint32_t try_log(uint8_t *figures)
{
    open_logs(PROT_READ | PROT_WRITE);
    memcpy(logs.start, lent, size);
    memcpy(logs.end - size, lent, size);
    open_logs(PROT_READ);

    memset(figures, CANARY, PLANT_FIGURES_SIZE);
    uint32_t number = plant_outages(size ? logs.start : NULL, size, figures, PLANT_FIGURES_SIZE);
    expect(number == PLANT_OK || number == PLANT_RANGE || number == PLANT_ORDER, "no number of a log");
    for (size_t length = 0; length < PLANT_FIGURES_SIZE; length++) {
        try_length(length, number == PLANT_OK ? PLANT_SHORT : number, figures);
    }
    try_length(PLANT_FIGURES_SIZE, number, figures);
    try_length(PLANT_FIGURES_SIZE + 1, number, figures);
    try_length(PLANT_FIGURES_SIZE + SURPLUS, number, figures);

    if (number == PLANT_OK) {
        uint64_t sum = 0;
        for (size_t i = 0; i < 3; i++) {
            sum += number_at(figures + i * NUMBER_SIZE);
        }
        expect(size >= PLANT_LOG_HEAD_SIZE, "figures of a log without a head");
        expect(sum == number_at(lent + 4) - number_at(lent), "HD, HMP and HIF do not add up to the window");
        expect(number_at(figures + 12) == number_at(lent + 8), "another HED than the log's");
    }
    return number;
}

/* ---- The limits of plant.h */

/* A window and HED, and entries of a minute each from the window's start on. */
static const struct {
    uint32_t start, end, hed, entries, kind, number;
} limits[] = {
    {0, PLANT_MINUTES_MAX, 0, 0, 0, PLANT_OK},
    {0, PLANT_MINUTES_MAX + 1, 0, 0, 0, PLANT_ORDER},
    {0, 1, PLANT_MINUTES_MAX, 0, 0, PLANT_OK},
    {0, 1, PLANT_MINUTES_MAX + 1, 0, 0, PLANT_RANGE},
    {PLANT_MINUTE_MAX - 1, PLANT_MINUTE_MAX, 0, 1, PLANT_FORCED, PLANT_OK},
    {PLANT_MINUTE_MAX - 1, PLANT_MINUTE_MAX, 0, 2, PLANT_FORCED, PLANT_RANGE},
    {PLANT_MINUTE_MAX, PLANT_MINUTE_MAX + 1, 0, 0, 0, PLANT_RANGE},
    {0, 2 * PLANT_LOG_ENTRIES_MAX, 0, PLANT_LOG_ENTRIES_MAX, PLANT_PLANNED, PLANT_OK},
    {0, 2 * PLANT_LOG_ENTRIES_MAX, 0, PLANT_LOG_ENTRIES_MAX + 1, PLANT_PLANNED, PLANT_RANGE},
    {0, 1, 0, 1, PLANT_PLANNED - 1, PLANT_RANGE},
    {0, 1, 0, 1, PLANT_FORCED + 1, PLANT_RANGE},
};

static void add(uint32_t number, size_t bytes)
{
    for (size_t i = 0; i < bytes; i++) {
        lent[size++] = (uint8_t)(number >> 8 * i);
    }
}

static void try_limits(void)
{
    uint8_t figures[PLANT_FIGURES_SIZE];

    for (size_t k = 0; k < sizeof limits / sizeof *limits; k++) {
        size = 0;
        add(limits[k].start, NUMBER_SIZE);
        add(limits[k].end, NUMBER_SIZE);
        add(limits[k].hed, NUMBER_SIZE);
        expect(size == PLANT_LOG_HEAD_SIZE, "another size of the head");
        for (uint32_t minute = 0; minute < limits[k].entries; minute++) {
            add(limits[k].start + minute, NUMBER_SIZE);
            add(limits[k].start + minute + 1, NUMBER_SIZE);
            add(limits[k].kind, 1);
        }
        expect(size == PLANT_LOG_HEAD_SIZE + limits[k].entries * PLANT_LOG_ENTRY_SIZE, "another size of an entry");
        expect(try_log(figures) == limits[k].number, "another answer than the limits have");
        if (limits[k].number == PLANT_OK) {
            size_t kind = limits[k].kind == PLANT_PLANNED ? 4 : 8;
            expect(number_at(figures + kind) == limits[k].entries, "the minutes of one kind are not those of the entries");
        }
    }
}

int main(void)
{
    uint8_t length[2], figures[PLANT_FIGURES_SIZE];
    size_t got;

    logs = fenced(2 * sizeof lent);
    buffers = fenced(PLANT_FIGURES_SIZE + 2 * SURPLUS);
    try_limits();
    while ((got = fread(length, 1, sizeof length, stdin)) == sizeof length) {
        place++;
        size = length[0] | (size_t)length[1] << 8;
        expect(fread(lent, 1, size, stdin) == size, "cut short");
        uint32_t number = try_log(figures);
        printf("%" PRIu32, number);
        for (size_t i = 0; number == PLANT_OK && i < sizeof figures; i += NUMBER_SIZE) {
            printf(" %" PRIu32, number_at(figures + i));
        }
        printf("\n");
        expect(fflush(stdout) == 0, "not written");
    }
    expect(got == 0 && !ferror(stdin), "not read to the end");
    return 0;
}
