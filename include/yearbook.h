/*
 * yearbook.h: a journal's listing, its printed close, the figures of its run,
 * and the same journal for 64 consumers.
 *
 * A journal is a sequence of records, each a call on the firm capacity book of
 * one year. The run takes them one after the other, from a fresh book: a call
 * is accepted or refused, and a refused one changes nothing. The reading stops
 * at the first record whose mark is unknown or which is cut short; what was
 * read before keeps its effect.
 *
 * The listing has these lines, with the figures of the book after the run:
 *
 *   U unit offer efficient-offer       enrolled units, once the year is fixed
 *   P producer efficient-total sum     producers with a unit, and the sum of
 *                                      their balances, once it is fixed
 *   D consumer firm-demand             declared consumers, once it is fixed
 *   S consumer adjustment cents        declared consumers, once it is closed
 *   T charges credits undistributed    once it is closed
 *   R read accepted refused            always: the records that were read
 *
 * in this order, numbers ascending. Power is in kW, money in cents: a charge
 * is negative, a credit positive. Each line ends with a line feed.
 *
 * The printed close is there once the year is closed. It has a line of 36
 * columns for each declared consumer, numbers ascending:
 *
 *   columns  1 to  3    the consumer
 *   columns  5 to 11    its firm demand, as in line D
 *   columns 13 to 20    its adjustment, as in line S
 *   columns 22 to 36    its cents, as in line S
 *
 * Figures are right-aligned, a minus sign directly before the first digit; the
 * columns between are blank. A page has a heading and then 50 consumers, the
 * last one 1 to 50. The heading is PAGE, a blank, the number of the page from
 * 1 on in 4 columns, right-aligned, and blanks to column 36. Each line ends
 * with a line feed, the heading too.
 *
 * The figures of the run are eight numbers, there for every journal: the
 * records read, accepted and refused, where and why the reading stopped, and
 * the first refused record with the number that it met.
 *
 * A journal for 64 consumers is for programs that know consumers 1 to 64 alone:
 * none of its records has a mark for consumers above 64, whatever its fields
 * hold. It is the given journal itself, byte for byte, and there is none where
 * such a mark occurs, or where the reading stops.
 *
 * Link with libyearbook.a, or by pkg-config:
 *
 *   cc .. $(pkg-config --cflags --libs yearbook)
 *
 * Besides it only the C library is needed.
 */
#ifndef YEARBOOK_H
#define YEARBOOK_H

#include <stddef.h>
#include <stdint.h>

#ifdef __cplusplus
extern "C" {
#endif

/* No listing is longer: a buffer of this size is never too short. */
#define YEARBOOK_LISTING_MAX 45288

/* No printed close is longer: 300 lines and 6 headings of 37 bytes each. */
#define YEARBOOK_PAGE_MAX 11322

/* The figures of every run have this size: 8 numbers of 8 bytes each. */
#define YEARBOOK_RUN_SIZE 64

/* What the functions return; yearbook_narrow may return 1, 2 and 18 too. */
#define YEARBOOK_OK 0     /* what was asked for was written */
#define YEARBOOK_STAGE 4  /* yearbook_page alone: the year is not closed */
#define YEARBOOK_SHORT 15 /* the buffer is too short for it */

/*
 * The other numbers, as yearbook_run tells them: why the reading stopped, and
 * what the first refused record met, which may be YEARBOOK_STAGE too. It never
 * tells 18, since a run takes records with such a mark as it takes the others.
 */
#define YEARBOOK_CUT_SHORT 1       /* record cut short: a stop */
#define YEARBOOK_UNKNOWN_MARK 2    /* unknown mark: a stop */
#define YEARBOOK_RANGE 3           /* field outside its range */
#define YEARBOOK_ENROLLED 5        /* unit already enrolled */
#define YEARBOOK_NOT_ENROLLED 6    /* unit not enrolled */
#define YEARBOOK_COMPONENT 7       /* component foreign to kind */
#define YEARBOOK_COUNT 8           /* count of readings against the full time */
#define YEARBOOK_MINUTES 9         /* minutes that cannot be */
#define YEARBOOK_UNDECLARED 10     /* consumer not declared */
#define YEARBOOK_OFFERS 11         /* above the producer's efficient offers */
#define YEARBOOK_BALANCE 12        /* above the pair's balance */
#define YEARBOOK_NO_WEIGHT 13      /* weights sum to 0 */
#define YEARBOOK_ADJUSTED 14       /* adjusted demand above 3,000,000 kW */
#define YEARBOOK_NO_REAL_DEMAND 16 /* consumer without a reading or a mean */
#define YEARBOOK_WIDE_MARK 18      /* mark for consumers above 64: no run meets it */
#define YEARBOOK_CHARGES 19        /* charges above 6,000,000,000,000 cents */

/*
 * Each function takes a journal and a buffer. yearbook_list and yearbook_page
 * write a text, and take besides a pointer to where its length in bytes is
 * told; the text has no 0 byte at its end. yearbook_run writes the figures of
 * the run, always YEARBOOK_RUN_SIZE bytes, and tells no length, and neither
 * does yearbook_narrow, which writes as many bytes as the journal has.
 *
 * On YEARBOOK_OK the bytes of the buffer behind what was written are kept. On
 * any other answer no byte of the buffer is written, and the length is left as
 * it was. The journal is only read.
 *
 * All but yearbook_narrow run the journal, and then a refused record and a stop
 * are no error of the call. Line R of the listing counts the refused records; a
 * stop shows in neither text, since line R counts only what was read.
 * yearbook_run tells both, of a journal of any length: where and why the
 * reading stopped, and the first refused record with its number. The reply to
 * each record is told by the program, of a journal of up to 65,536 bytes:
 * yearbook replies.
 *
 * journal must point to journal_len bytes that can be read. It may be NULL
 * where journal_len is 0: the journal is then empty, and the book a fresh one.
 *
 * The buffer, listing, page, figures or out, must point to as many bytes that
 * can be written as its length says. It may be NULL where this is 0: the answer
 * is then never YEARBOOK_OK, since neither a text nor the figures are empty,
 * but that yearbook_narrow has nothing to write of an empty journal.
 *
 * The pointer to the length, written or length, must be aligned for its type;
 * journal and buffer may have any alignment. It must never be NULL, not even
 * where no length is told: nothing tests it, and the behaviour is undefined, as
 * with any invalid pointer.
 *
 * Journal, buffer and length may not overlap, no two of them.
 *
 * There is no state and no allocation; less than 200 kB of stack are used.
 * Calls may run in parallel as long as no thread writes to a buffer that
 * another one's call was given.
 */

/*
 * Runs the journal and writes its listing.
 *
 *   journal      the records, any bytes
 *   journal_len  the length of journal in bytes, of any size
 *   listing      the buffer that receives the listing
 *   listing_len  the length of this buffer in bytes
 *   written      receives the length of the listing in bytes
 *
 * Returns:
 *
 *   YEARBOOK_SHORT  listing_len is less than the length of the listing
 *   YEARBOOK_OK     the first *written bytes of the buffer hold the listing
 *
 * The listing of an empty journal is "R 0 0 0" and a line feed.
 */
uint32_t yearbook_list(const uint8_t *journal, size_t journal_len,
                       uint8_t *listing, size_t listing_len,
                       uint64_t *written);

/*
 * Runs the journal and writes its printed close.
 *
 *   journal      the records, any bytes
 *   journal_len  the length of journal in bytes, of any size
 *   page         the buffer that receives the printed close, all its pages
 *   page_len     the length of this buffer in bytes
 *   length       receives the length of the printed close in bytes
 *
 * Returns the first of these that applies:
 *
 *   YEARBOOK_STAGE  the run has not closed the year, whatever page_len is
 *   YEARBOOK_SHORT  page_len is less than the length of the printed close
 *   YEARBOOK_OK     the first *length bytes of the buffer hold it
 *
 * An empty journal closes no year, and neither does one whose close was refused
 * or whose reading stopped before it: the answer is YEARBOOK_STAGE.
 */
uint32_t yearbook_page(const uint8_t *journal, size_t journal_len,
                       uint8_t *page, size_t page_len,
                       size_t *length);

/*
 * Runs the journal and writes the figures of the run.
 *
 *   journal      the records, any bytes
 *   journal_len  the length of journal in bytes, of any size
 *   figures      the buffer that receives the figures
 *   figures_len  the length of this buffer in bytes
 *
 * The figures are eight numbers of 8 bytes each, low byte first:
 *
 *   byte  0    records read; one at which the reading stopped is in no count
 *   byte  8    records accepted
 *   byte 16    records refused
 *   byte 24    the stop's number: 1 record cut short, 2 unknown mark; 0 without
 *              a stop
 *   byte 32    the stop's place; without a stop the journal's length
 *   byte 40    1 if a refused record is named, else 0
 *   byte 48    the place of the record named, else 0
 *   byte 56    the number that it met, else 0
 *
 * A place is the offset of a record's first byte in the journal. 0 is a place
 * too, so the number at byte 40 tells whether a record is named.
 *
 * The record named is the first refused one in the journal: every record read
 * before it was accepted. If none is named, no record read was refused. What
 * each number means is told by yearbook(1).
 *
 * Returns:
 *
 *   YEARBOOK_SHORT  figures_len is less than YEARBOOK_RUN_SIZE
 *   YEARBOOK_OK     the first YEARBOOK_RUN_SIZE bytes of the buffer hold them
 *
 * The figures of an empty journal are all 0.
 */
uint32_t yearbook_run(const uint8_t *journal, size_t journal_len,
                      uint8_t *figures, size_t figures_len);

/*
 * Writes the journal for programs that know consumers 1 to 64 alone, if it is
 * one for them. Nothing is run: no range, no stage and no figure is looked at.
 *
 *   journal      the records, any bytes
 *   journal_len  the length of journal in bytes, of any size
 *   out          the buffer that receives the journal
 *   out_len      the length of this buffer in bytes
 *
 * Marks for consumers above 64 are 64 6D, 63 6D, 72 6C, 6D 74 and 61 74,
 * hexadecimal, of declare, commit, release, meter and mean.
 *
 * Returns what the first record meets that meets one of the first three, and
 * where none does, one of the last two:
 *
 *   YEARBOOK_CUT_SHORT     the journal ends inside the record
 *   YEARBOOK_UNKNOWN_MARK  no mark stands where the record should begin
 *   YEARBOOK_WIDE_MARK     the record is whole, and its mark is one of these
 *   YEARBOOK_SHORT         out_len is less than journal_len
 *   YEARBOOK_OK            the first journal_len bytes of out are the journal's
 *
 * An empty journal is one for 64 consumers. A consumer above 64 in a record
 * without such a mark is out of its range, which is not looked at either.
 */
uint32_t yearbook_narrow(const uint8_t *journal, size_t journal_len,
                         uint8_t *out, size_t out_len);

#ifdef __cplusplus
}
#endif

#endif
