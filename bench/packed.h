// The ways of `C best`: over GF(2) with 64 coefficients in a word (packed.c), and the free way over the other fields
// with numbers of 16 bits (sums.c). Input is accepted already.
#ifndef PACKED_H
#define PACKED_H
#include "checks.h"

// the shortest recurrence of the terms, in the answer, and its degree
size_t packed_free(const uint8_t *terms, size_t count, uint8_t *answer);
size_t sums_free(uint32_t p, const uint8_t *terms, size_t count, uint8_t *answer);

// the least power of f that annihilates the endless repetition of the terms, where the power q does; else false
bool packed_period(slice f, size_t q, slice terms, uint64_t *power);

// the powers of the factors, or false where the product to the upper powers does not annihilate the terms
bool packed_set(const slice *factors, size_t count, const uint64_t *uppers, slice terms, uint64_t *powers);

// the product of the factors to these powers, in the answer, and its degree
size_t packed_product(const slice *factors, size_t count, const uint64_t *powers, uint8_t *answer);
#endif
