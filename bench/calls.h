// The calls that the rater (gobashe.h) is measured beside, over GF(p): its C versions, `plain`, with bytes and a
// remainder at each product; `bytes`, with sums in wider numbers and remainders without a division; and `best`, in
// words over GF(2) and with numbers of 16 bits else; and `before`, the rater of a tree from before gobashe.h, whose
// functions were so declared. They answer as the rater does, and leave the same in the lent bytes. A slice passes as
// its start and length.
#ifndef CALLS_H
#define CALLS_H
#include <stdbool.h>
#include <stddef.h>
#include <stdint.h>

// Each call answers 0, or the number of its refusal. Factors of a set stand one after the other, `lengths` has the
// number of coefficients of each. Lengths, upper powers and powers of a set are numbers of eight bytes each, the least
// significant first, as x86-64 has them. As many of the 64 bytes of eight powers as were lent are written.
#define DECLARE_CALLS(VERSION)                                                                                        \
    uint64_t VERSION##_rate_period(uint64_t p, const uint8_t *factor, size_t coefficients, const uint8_t *terms,      \
                                   size_t count, uint8_t *answer, size_t answer_bytes, uint8_t *work,                 \
                                   size_t work_bytes, uint64_t *power, uint64_t *degree, uint64_t *repeat);           \
    uint64_t VERSION##_rate_with_factors(uint64_t p, const uint8_t *factors, size_t factors_bytes,                    \
                                         const uint8_t *lengths, size_t lengths_bytes, const uint8_t *uppers,         \
                                         size_t uppers_bytes, const uint8_t *terms, size_t count, uint8_t *answer,    \
                                         size_t answer_bytes, uint8_t *work, size_t work_bytes, uint8_t *powers,      \
                                         size_t powers_bytes, uint64_t *degree, uint64_t *repeat);                    \
    uint64_t VERSION##_rate_free(uint64_t p, const uint8_t *terms, size_t count, uint8_t *answer,                     \
                                 size_t answer_bytes, uint8_t *work, size_t work_bytes, uint64_t *degree,             \
                                 uint8_t *unique);                                                                    \
    uint64_t VERSION##_is_irreducible(uint64_t p, const uint8_t *f, size_t coefficients, uint8_t *yes);               \
    uint64_t VERSION##_continue_sequence(uint64_t p, const uint8_t *polynomial, size_t coefficients,                  \
                                         const uint8_t *start, size_t count, uint8_t *buffer, size_t bytes,           \
                                         size_t place);

#ifdef __cplusplus
extern "C" {
#endif
DECLARE_CALLS(plain)
DECLARE_CALLS(bytes)
DECLARE_CALLS(best)
DECLARE_CALLS(before)
#ifdef __cplusplus
}
#endif
#endif
