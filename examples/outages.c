/*
 * Prints the four figures of an outage log in a line, HD HMP HIF HED, as they
 * stand behind `availability UNIT COMPONENT` in the text of a journal; or says
 * which line of the log is wrong, and why. The log is text: first a line for
 * the window, then a line for each entry, in minutes.
 *
 *   window START END HED
 *   planned START END
 *   forced START END
 *
 * Blanks and tabs separate. # starts a comment, which goes to the end of the
 * line, and a line may be empty. It ends with a line feed, before which a
 * carriage return may stand; the last one may lack its line feed. A byte-order
 * mark before the first is taken.
 *
 * usage: outages [LOG]
 */
#include <errno.h>
#include <inttypes.h>
#include <stdio.h>
#include <string.h>

#include "plant.h"

/* The longest line that is taken, in bytes without its line feed. */
#define LINE_SIZE 1024

/* One entry more than a log may have: it meets 3, as any more would. */
#define ENTRIES (PLANT_LOG_ENTRIES_MAX + 1)

/* The parts of a log: its window, and each entry. */
#define PARTS (1 + ENTRIES)

struct log {
    uint8_t bytes[PLANT_LOG_HEAD_SIZE + ENTRIES * PLANT_LOG_ENTRY_SIZE];
    uint64_t lines[PARTS]; /* the line in which each part stands */
    size_t parts;          /* how many there are */
};

/* A line: its word, an entry's kind or 0, and how many numbers follow. */
struct form {
    const char *word;
    uint8_t kind;
    size_t numbers;
    const char *otherwise; /* what is wrong with fewer or more */
};

static const struct form forms[] = {
    {"window", 0, 3, "window has 3 fields, START END HED"},
    {"planned", PLANT_PLANNED, 2, "planned has 2 fields, START END"},
    {"forced", PLANT_FORCED, 2, "forced has 2 fields, START END"},
};

#define FORMS (sizeof forms / sizeof forms[0])

/* The most numbers in a line; what is wrong where one of them is none. */
#define NUMBERS 3
static const char *const no_number[NUMBERS] = {
    "START is not a number", "END is not a number", "HED is not a number",
};

struct field {
    const char *text;
    size_t len;
};

/* A word, its numbers, and one field more than any line has. */
#define FIELDS (1 + NUMBERS + 1)

/* Says what is wrong with a file, in the system's words. */
static int wrong(const char *name)
{
    fprintf(stderr, "outages: %s: %s\n", name, strerror(errno));
    return 1;
}

static void put_number(uint8_t *at, uint32_t number)
{
    for (int i = 0; i < 4; i++)
        at[i] = (uint8_t)(number >> 8 * i);
}

static uint32_t get_number(const uint8_t *at)
{
    uint32_t number = 0;

    for (int i = 0; i < 4; i++)
        number |= (uint32_t)at[i] << 8 * i;
    return number;
}

/* Where a part begins: behind as many bytes as the parts before it have. */
static size_t place_of(size_t part)
{
    if (part == 0)
        return 0;
    return PLANT_LOG_HEAD_SIZE + (part - 1) * PLANT_LOG_ENTRY_SIZE;
}

/*
 * Reads the next line, without its line feed, and of a longer one LINE_SIZE + 1
 * bytes. 0 if there is none, or if it cannot be read.
 */
static int read_line(FILE *file, char *text, size_t *len)
{
    int c = 0;

    *len = 0;
    while (*len <= LINE_SIZE && (c = getc(file)) != EOF && c != '\n')
        text[(*len)++] = (char)c;
    return !ferror(file) && (c != EOF || *len > 0);
}

/* Finds the fields before the comment: how many, at most FIELDS. */
static size_t split(const char *text, size_t len, struct field *fields)
{
    size_t count = 0;
    int was_blank = 1;

    for (size_t i = 0; i < len && text[i] != '#'; i++) {
        int is_blank = text[i] == ' ' || text[i] == '\t';
        if (was_blank && !is_blank) {
            if (count == FIELDS)
                break;
            fields[count].text = text + i;
            fields[count++].len = 0;
        }
        if (!is_blank)
            fields[count - 1].len++;
        was_blank = is_blank;
    }
    return count;
}

/* The form with this word, or NULL. */
static const struct form *form_of(const struct field *word)
{
    for (size_t i = 0; i < FORMS; i++)
        if (strlen(forms[i].word) == word->len
            && memcmp(forms[i].word, word->text, word->len) == 0)
            return &forms[i];
    return NULL;
}

/*
 * Whether a field is a number, in decimal. One that 4 bytes cannot hold is
 * handed on as the greatest that they hold, which meets 3 as well.
 */
static int is_number(const struct field *field, uint32_t *number)
{
    uint64_t n = 0;

    for (size_t i = 0; i < field->len; i++) {
        if (field->text[i] < '0' || field->text[i] > '9')
            return 0;
        n = n * 10 + (uint64_t)(field->text[i] - '0');
        if (n > UINT32_MAX)
            n = UINT32_MAX;
    }
    *number = (uint32_t)n;
    return 1;
}

/* Puts a part behind the others, while there is room for one. */
static void put_part(struct log *log, uint64_t line, uint8_t kind,
                     const uint32_t *numbers)
{
    if (log->parts == PARTS)
        return;
    uint8_t *at = log->bytes + place_of(log->parts);
    put_number(at, numbers[0]);
    put_number(at + 4, numbers[1]);
    if (kind == 0)
        put_number(at + 8, numbers[2]);
    else
        at[8] = kind;
    log->lines[log->parts++] = line;
}

/* Takes a line into the log: what is wrong with it, or NULL. */
static const char *take_line(struct log *log, uint64_t line,
                             const char *text, size_t len)
{
    struct field fields[FIELDS];
    uint32_t numbers[NUMBERS];

    if (len > LINE_SIZE)
        return "longer than 1024 bytes";
    if (len > 0 && text[len - 1] == '\r')
        len--;
    if (line == 1 && len >= 3 && memcmp(text, "\xEF\xBB\xBF", 3) == 0) {
        text += 3; /* a byte-order mark */
        len -= 3;
    }
    size_t count = split(text, len, fields);
    if (count == 0)
        return NULL;
    const struct form *form = form_of(&fields[0]);
    if (form == NULL)
        return "unknown word; the words are window, planned and forced";
    if (form->kind == 0 && log->parts > 0)
        return "a second window";
    if (form->kind != 0 && log->parts == 0)
        return "an entry before the window";
    if (count != 1 + form->numbers)
        return form->otherwise;
    for (size_t i = 0; i < form->numbers; i++)
        if (!is_number(&fields[1 + i], &numbers[i]))
            return no_number[i];
    put_part(log, line, form->kind, numbers);
    return NULL;
}

/* Reads a log: what is wrong with it, or NULL, and in which line. */
static const char *read_log(FILE *file, struct log *log, uint64_t *line)
{
    char text[LINE_SIZE + 1];
    size_t len;

    for (*line = 1; read_line(file, text, &len); ++*line) {
        const char *reason = take_line(log, *line, text, len);
        if (reason != NULL)
            return reason;
    }
    return log->parts == 0 ? "the log ends without a window" : NULL;
}

/* Why a part meets 3 or 17, in plain words. */
static const char *reason_of(const struct log *log, size_t part,
                             uint32_t number)
{
    uint32_t start = get_number(log->bytes + place_of(part));
    uint32_t end = get_number(log->bytes + place_of(part) + 4);

    if (number == PLANT_ORDER && end <= start)
        return "END is not after START";
    if (number == PLANT_ORDER)
        return part == 0 ? "the window has more than 1,052,640 minutes"
                         : "the entry before it has not ended";
    if (part > PLANT_LOG_ENTRIES_MAX)
        return "more than 1,000 entries";
    if (start > PLANT_MINUTE_MAX)
        return "START is above 4,000,000,000";
    if (end > PLANT_MINUTE_MAX)
        return "END is above 4,000,000,000";
    return "HED is above 1,052,640";
}

/* Says which part is the first to meet the number, with those before it. */
static int refused(const struct log *log, uint32_t number)
{
    uint8_t figures[PLANT_FIGURES_SIZE];
    size_t part = 0;

    while (plant_outages(log->bytes, place_of(part + 1),
                         figures, sizeof figures) != number)
        part++;
    fprintf(stderr, "outages: line %" PRIu64 ": %" PRIu32 " %s: %s\n",
            log->lines[part], number,
            number == PLANT_RANGE ? "field outside its range"
                                  : "outage log out of order",
            reason_of(log, part, number));
    return 1;
}

int main(int argc, char **argv)
{
    static struct log log;
    uint8_t figures[PLANT_FIGURES_SIZE];
    uint64_t line;

    if (argc > 2) {
        fprintf(stderr, "usage: outages [LOG]\n");
        return 2;
    }
    const char *name = argc == 2 ? argv[1] : "standard input";
    FILE *file = argc == 2 ? fopen(name, "rb") : stdin;
    if (file == NULL)
        return wrong(name);
    const char *reason = read_log(file, &log, &line);
    if (ferror(file))
        return wrong(name);
    fclose(file);
    if (reason != NULL) {
        fprintf(stderr, "outages: line %" PRIu64 ": %s\n", line, reason);
        return 1;
    }

    uint32_t number = plant_outages(log.bytes, place_of(log.parts),
                                    figures, sizeof figures);
    if (number != PLANT_OK)
        return refused(&log, number);
    if (printf("%" PRIu32 " %" PRIu32 " %" PRIu32 " %" PRIu32 "\n",
               get_number(figures), get_number(figures + 4),
               get_number(figures + 8), get_number(figures + 12)) < 0
        || fflush(stdout) != 0)
        return wrong("standard output");
    return 0;
}
