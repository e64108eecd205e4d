/* The two questions that a C program asks of the result ring.
 *
 * Link with the static library that `bash c/run` puts at target/staticlib/libquestions.a (the crate questions_c).
 * An answer is an identifier, below 65,536. A refusal is RESULT_RING_REFUSED plus its number:
 *   4  the size is not 1 to 65,536
 *   5  the copies are not 1 to 8, or do not divide the size
 *   6  the item or the identifier is not below the size
 *   7  the replica is 0 or above the copies
 *   8  the member list has an odd number of bytes, or a member that is not below the size
 *  12  there is no member
 * Of several that apply, the smallest number is given.
 */
#ifndef RESULT_RING_H
#define RESULT_RING_H

#include <stdint.h>

#define RESULT_RING_REFUSED 100000u

#ifdef __cplusplus
extern "C" {
#endif

/* The place of an item for a replica, counted from 1. Refused by 4, 5, 6 and 7. */
uint64_t result_ring_place(uint64_t size, uint64_t copies, uint64_t item, uint64_t replica);

/* The member that owns an identifier. `members` points to `length` bytes, two for each member, the high
 * byte first; a member may stand there twice. Refused by 4, 6, 8 and 12. */
uint64_t result_ring_owner(uint64_t size, uint64_t identifier, const uint8_t *members, uint64_t length);

#ifdef __cplusplus
}
#endif

#endif
