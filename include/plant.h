/*
 * plant.h: the card of the least counts for a valid test, and availability from
 * the outage log.
 *
 * A test of a plant has a full time TC, in quarter hours, and one reading for
 * each quarter hour that it ran; their number is its count. A test that tripped
 * is valid if it reached 80 % of TC; below, it is void, unless it is a second
 * trip of the plant's own doing. Test engineers carry a card that shows for each
 * TC from 4 to 96 the least count that reaches 80 %.
 *
 * The card's count reaches 80 % of TC, and the count below it does not:
 *
 *   5 * count >= 4 * TC    and    5 * (count - 1) < 4 * TC
 *
 * Exactly 80 % counts as reached. A tripped test, ending 1 or 2, has fewer
 * readings than TC. At TC 4 the card's count is 4, so no tripped test of that
 * full time reaches it.
 *
 * Plants send their outages as a log: a window, and the outages in order, each
 * with its start, its end and its kind, planned or forced. plant_outages adds
 * up the minutes within the window: HMP are those of planned maintenance, HIF
 * those of forced outage, and HD, available, is the rest of the window. HED,
 * equivalent degradation, is given with the log. These four are the figures of
 * an availability, for the call of this name.
 *
 * Link with libplant.a, or by pkg-config:
 *
 *   cc .. $(pkg-config --cflags --libs plant)
 *
 * Besides it nothing is needed, not even the C library.
 */
#ifndef PLANT_H
#define PLANT_H

#include <stddef.h>
#include <stdint.h>

#ifdef __cplusplus
extern "C" {
#endif

/* Full times of the card in quarter hours, inclusive. */
#define PLANT_TIME_MIN 4
#define PLANT_TIME_MAX 96

/*
 * The card's count for a full time.
 *
 *   tc  the full time TC in quarter hours, any number
 *
 * Returns:
 *
 *   0        tc is below PLANT_TIME_MIN or above PLANT_TIME_MAX: the card does
 *            not have it
 *   4 to 77  the least count that reaches 80 % of tc
 *
 * 0 is no count of the card: a caller who compares a test's count with the
 * answer asks first whether it is 0.
 *
 * There is no state, no allocation and no pointer. Calls may run in parallel.
 */
uint32_t plant_least_count(uint32_t tc);

/* Limits of an outage log, inclusive. */
#define PLANT_MINUTE_MAX UINT32_C(4000000000) /* a start or an end */
#define PLANT_MINUTES_MAX UINT32_C(1052640)   /* the window's length, and HED */
#define PLANT_LOG_ENTRIES_MAX 1000

/* The kinds of an entry. */
#define PLANT_PLANNED 1
#define PLANT_FORCED 2

/* Bytes of the window with HED, of one entry, and of the four figures. */
#define PLANT_LOG_HEAD_SIZE 12
#define PLANT_LOG_ENTRY_SIZE 9
#define PLANT_FIGURES_SIZE 16

/* What plant_outages returns. */
#define PLANT_OK 0     /* the figures were written */
#define PLANT_RANGE 3  /* field outside its range, or the number of entries */
#define PLANT_SHORT 15 /* the figures buffer is too short */
#define PLANT_ORDER 17 /* outage log out of order */

/*
 * Adds up the minutes of an outage log and writes the four figures.
 *
 *   log          the window, HED, and then n entries, as below
 *   log_len      the length of log in bytes: 12 + 9 * n, n from 0 to
 *                PLANT_LOG_ENTRIES_MAX
 *   figures      the buffer that receives the figures
 *   figures_len  the length of this buffer in bytes: PLANT_FIGURES_SIZE or more
 *
 * The log's numbers have 4 bytes each, low byte first, and a kind has one. Its
 * head, PLANT_LOG_HEAD_SIZE bytes:
 *
 *   byte  0    the window's start, 0 to PLANT_MINUTE_MAX
 *   byte  4    the window's end, 0 to PLANT_MINUTE_MAX
 *   byte  8    HED, 0 to PLANT_MINUTES_MAX
 *
 * Each entry, PLANT_LOG_ENTRY_SIZE bytes, the first directly behind the head:
 *
 *   byte  0    its start, 0 to PLANT_MINUTE_MAX
 *   byte  4    its end, 0 to PLANT_MINUTE_MAX
 *   byte  8    its kind, PLANT_PLANNED or PLANT_FORCED
 *
 * Starts and ends are minutes, all counted from one and the same minute 0. No
 * end is included: from 10 to 15 are the five minutes 10 to 14, and an entry
 * may begin in the very minute in which the one before it ends.
 *
 * The figures are four numbers of 4 bytes each, low byte first, in the order of
 * an availability:
 *
 *   byte  0    HD, available: the minutes of the window in no entry
 *   byte  4    HMP, planned maintenance: those in entries of PLANT_PLANNED
 *   byte  8    HIF, forced outage: those in entries of PLANT_FORCED
 *   byte 12    HED, equivalent degradation, as the log gives it
 *
 * An entry counts only with its minutes within the window, with none if it lies
 * outside. HD, HMP and HIF add up to the window.
 *
 * Returns the first of these that applies:
 *
 *   PLANT_RANGE  log_len is not 12 + 9 * n, n is above PLANT_LOG_ENTRIES_MAX,
 *                a start or an end is above PLANT_MINUTE_MAX, HED is above
 *                PLANT_MINUTES_MAX, or a kind is neither PLANT_PLANNED nor
 *                PLANT_FORCED
 *   PLANT_ORDER  the window's end is not after its start, the window is longer
 *                than PLANT_MINUTES_MAX, an entry's end is not after its start,
 *                or an entry begins before the one before it has ended
 *   PLANT_SHORT  figures_len is less than PLANT_FIGURES_SIZE
 *   PLANT_OK     the first PLANT_FIGURES_SIZE bytes of figures hold the figures
 *
 * Each is tested over the whole log before the next is, and entries outside the
 * window are tested like the others. HED is not compared with the window: an
 * availability with these figures may still be refused, with 9, where HED is
 * above HD + HMP.
 *
 * On PLANT_OK the bytes of figures behind the first PLANT_FIGURES_SIZE are
 * kept; on any other answer no byte of figures is written. The log is only
 * read.
 *
 * log must point to log_len bytes that can be read. It may be NULL where
 * log_len is 0: the answer is then PLANT_RANGE.
 *
 * figures must point to figures_len bytes that can be written. It may be NULL
 * where figures_len is 0: the answer is then PLANT_SHORT, or an earlier one of
 * the list, and never PLANT_OK.
 *
 * Any other NULL is an invalid pointer: nothing tests it, and the behaviour is
 * undefined. Both may have any alignment, and they must not overlap.
 *
 * There is no state and no allocation. Calls may run in parallel as long as
 * no thread writes to a buffer that another one's call was given.
 */
uint32_t plant_outages(const uint8_t *log, size_t log_len,
                       uint8_t *figures, size_t figures_len);

#ifdef __cplusplus
}
#endif

#endif
