/* The verdict on a routine, for a C program. Link with target/staticlib/libverdict.a (make staticlib). */
#ifndef MOMENTGOAT_VERDICT_H
#define MOMENTGOAT_VERDICT_H

#include <stddef.h>
#include <stdint.h>

/* The bytes of a slip: a word in 8 columns, four numbers of 11 columns each, a newline. There is no zero byte at the end. */
#define VERDICT_SLIP_BYTES 53

/* What verdict answers. */
#define VERDICT_WRITTEN 0
#define VERDICT_NO_ROOM 16

/*
 * Judges a listing under two levels, for a public listener, in the baseline model, and writes the slip:
 *
 *   CLEAR   0 0 0 0                       nothing leaks
 *   LEAK    node operand bound name       the leak that is named (docs/RULES.md)
 *   REFUSED number line field 0           why there is no answer (docs/REFUSALS.md)
 *
 * levels   one byte for each scalar and then each array of the listing: '0' public, '1' secret
 * listing  the bytes of the listing (docs/FORMATS.md)
 * out      room for the slip
 *
 * Answers VERDICT_WRITTEN, with the slip in the first 53 bytes of out and the bytes beyond as they were; or VERDICT_NO_ROOM where
 * out_length is below 53, and then out is as it was. Any bytes may be passed, and nothing is kept after the call. A length may be 0;
 * the pointer is then not read, but must not be null. The three ranges must not overlap out.
 */
uint32_t verdict(const uint8_t *levels, size_t levels_length,
                 const uint8_t *listing, size_t listing_length,
                 uint8_t *out, size_t out_length);

#endif
