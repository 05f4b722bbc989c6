/*
 * lowline: a figure that one component of an interval linear system is never below.
 *
 * Link with liblowline.a; nothing else is needed besides the C library. C and C++.
 */
#ifndef LOWLINE_H
#define LOWLINE_H

#include <stddef.h>
#include <stdint.h>

#ifdef __cplusplus
extern "C" {
#endif

/* The bytes that lowline_solve writes. */
#define LOWLINE_FRAME 40

/* Why the search stopped: the last eight bytes of an answer. */
#define LOWLINE_SETTLED 1
#define LOWLINE_FULL 2
#define LOWLINE_BUDGET 3

/* The number for want of memory. */
#define LOWLINE_NO_MEMORY 30

/*
 * Reads a job and searches its system for one component, by elimination under
 * one sweep, splitting the widest entry, until the search is settled, 512 boxes
 * wait or the budget of splits is used.
 *
 *   job, job_len   the job's bytes
 *   component      counted from 1
 *   budget         the most splits, 0 to 2^32 - 1
 *   out, out_len   room for the answer, 40 bytes or more
 *
 * Answers 0 and writes five numbers into the first 40 bytes of out, eight bytes
 * each, two's complement, the highest byte first:
 *
 *    0  low      in grains (16384 make one); no solution of any system inside
 *                the job's has the component below it
 *    8  high     in grains; one solution has the component at most at it
 *   16  waiting  how many boxes wait
 *   24  splits   how many splits were made
 *   32  stop     1 settled, 2 full, 3 budget
 *
 * Later bytes of out are left as they are. Any other answer is the number of a
 * refusal, and then every byte of out is as it was. Looked at in this order:
 *
 *   1, 2, 3, 4, 9, 10, 11, 12, 13   the job cannot be read
 *   14   out has fewer than 40 bytes
 *   5    the component is not from 1 to the size
 *   6    a pivot contains 0
 *   7    a step of the arithmetic leaves the span of figures
 *   30   there is no memory for a search
 *
 * Neither pointer may be null, also where its length is 0, and the two must not
 * overlap. The call keeps nothing between calls and may be made from several
 * threads at once, as far as malloc and free may.
 */
uint32_t lowline_solve(const uint8_t *job, size_t job_len, uint32_t component,
                       uint32_t budget, uint8_t *out, size_t out_len);

#ifdef __cplusplus
}
#endif

#endif
