/* The carton desk: for packers who write no rules. A job has 1 to 16 cartons, each with its label; labels come out in order, and a void takes all of them back.
 *
 * Each call takes the number of cartons and the log, and returns the number of its refusal, 0 for none. The slot is always written, with 0 on a refusal.
 *
 * The log: 0 to 63 bytes, one step each. With C cartons, step 0 prints label 1, and so on up to step C - 1, which prints label C; step C is a void. A print out of
 * order is accepted, and counts.
 *
 * What a program must see to: pointers are valid and aligned for what they point to (the log's also where it has no step); the slot overlaps nothing else that is passed.
 *
 * What a call may cost: with the longest log about half a microsecond, and less than a kilobyte of stack; no heap. Nothing is kept between calls, so any number of threads may
 * call at once, each with a slot of its own.
 */
#ifndef CARTON_DESK_H
#define CARTON_DESK_H

#include <stddef.h>
#include <stdint.h>

#define DESK_VERSION "0.1.0"

#ifdef __cplusplus
extern "C" {
#endif

/* The most cartons, and the longest log. */
enum { DESK_CARTON_LIMIT = 16, DESK_LOG_LIMIT = 63 };

/* The refusals: the number of cartons or the label is out of its range; the log is too long, or has a step above the void. The first comes before the second. */
enum { DESK_REFUSED_BAD_NUMBER = 3, DESK_REFUSED_BAD_LOG = 5 };

/* Whether the label, 1 to cartons, may be printed now: 1 or 0 in the slot. It may exactly if each lower label was printed after the last void, or since the start if
 * there is none. A label that is out may be printed again. */
uint8_t desk_may_print(size_t cartons, const uint8_t *log, size_t log_len, size_t label, uint8_t *yes);

/* The lowest label that is not out; 0 where all are. */
uint8_t desk_lowest(size_t cartons, const uint8_t *log, size_t log_len, size_t *label);

#ifdef __cplusplus
}
#endif

#endif
