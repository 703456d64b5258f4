/*
 * share.h: division of a total by shares.
 *
 * A total T is divided in whole units among participants 1 to n in proportion
 * to their weights. With W the sum of the weights, participant i gets
 * T * weight(i) / W rounded down. The units left over, always fewer than n, go
 * singly to the participants with the largest remainders of that division;
 * among equal remainders the lower number goes first.
 *
 * The amounts add up to T, each differs from the exact share by less than one
 * unit, and a weight of 0 gets 0.
 *
 * Link with libshare.a, or by pkg-config:
 *
 *   cc .. $(pkg-config --cflags --libs share)
 *
 * Besides it only the C library is needed.
 */
#ifndef SHARE_H
#define SHARE_H

#include <stddef.h>
#include <stdint.h>

#ifdef __cplusplus
extern "C" {
#endif

/* Limits, inclusive. */
#define SHARE_TOTAL_MAX UINT64_C(6000000000000)
#define SHARE_WEIGHT_MAX UINT32_C(3000000)
#define SHARE_COUNT_MAX 300

/* Bytes of one weight and of one amount. */
#define SHARE_WEIGHT_SIZE 4
#define SHARE_AMOUNT_SIZE 8

/* What share_divide returns. */
#define SHARE_OK 0       /* divided */
#define SHARE_RANGE 3    /* total, a weight, or the number of weights out of range */
#define SHARE_NO_SUM 13  /* the weights sum to 0 */
#define SHARE_SHORT 15   /* the amounts buffer is too short */

/*
 * Divides total by weights and writes the amounts.
 *
 *   total        the units to divide, 0 to SHARE_TOTAL_MAX
 *   weights      n weights of 4 bytes each, low byte first, each 0 to
 *                SHARE_WEIGHT_MAX; participant 1 comes first
 *   weights_len  the length of weights in bytes: 4 * n, n from 1 to
 *                SHARE_COUNT_MAX
 *   amounts      the buffer that receives n amounts of 8 bytes each, low byte
 *                first, in the order of the weights
 *   amounts_len  the length of this buffer in bytes: 8 * n or more
 *
 * Returns the first of these that applies:
 *
 *   SHARE_RANGE   total is above SHARE_TOTAL_MAX, weights_len is no multiple
 *                 of 4, n is 0 or above SHARE_COUNT_MAX, or a weight is above
 *                 SHARE_WEIGHT_MAX
 *   SHARE_NO_SUM  the weights sum to 0
 *   SHARE_SHORT   amounts_len is less than 8 * n
 *   SHARE_OK      the first 8 * n bytes of amounts hold the amounts
 *
 * On SHARE_OK the bytes of amounts behind the first 8 * n are kept; on any
 * other answer no byte of amounts is written. The weights are only read.
 *
 * weights must point to weights_len bytes that can be read. It may be NULL
 * where weights_len is 0: the answer is then SHARE_RANGE.
 *
 * amounts must point to amounts_len bytes that can be written. It may be NULL
 * where amounts_len is 0: the answer is then SHARE_SHORT, or an earlier one of
 * the list, and never SHARE_OK.
 *
 * Any other NULL is an invalid pointer: nothing tests it, and the behaviour is
 * undefined. Both may have any alignment, and they must not overlap.
 *
 * There is no state and no allocation. Calls may run in parallel as long as
 * no thread writes to a buffer that another one's call was given.
 */
uint32_t share_divide(uint64_t total,
                      const uint8_t *weights, size_t weights_len,
                      uint8_t *amounts, size_t amounts_len);

#ifdef __cplusplus
}
#endif

#endif
