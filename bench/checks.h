// The conditions of the numbered list of refusals that the C versions of the calls share, one function each.
#ifndef CHECKS_H
#define CHECKS_H
#include <stdbool.h>
#include <stddef.h>
#include <stdint.h>

typedef struct {
    const uint8_t *at;
    size_t length;
} slice;

// 6: p is not a prime from 2 to 251
static inline bool not_prime(uint64_t p) {
    if (p < 2 || p > 251) return true;
    for (uint64_t d = 2; d * d <= p; d++)
        if (p % d == 0) return true;
    return false;
}

// 7
static inline bool count_out_of_range(size_t n) { return n == 0 || n > 4096; }

// 8: a number is p or more
static inline bool out_of_field(uint64_t p, slice s) {
    uint8_t largest = 0;
    for (size_t i = 0; i < s.length; i++)
        if (s.at[i] > largest) largest = s.at[i];
    return s.length != 0 && largest >= p;
}

// 10
static inline bool degree_out_of_range(uint64_t p, slice f) {
    if (f.length == 0) return false;
    size_t d = f.length - 1;
    if (d == 0 || d > 32) return true;
    uint64_t power = 1;
    for (size_t i = 0; i < d / 2; i++) {
        power *= p;
        if (power > 65536) return true;
    }
    return false;
}

// 11, for the monic factors that all jobs have
static inline bool not_monic(uint64_t p, slice f) {
    return f.length == 0 || out_of_field(p, f) || f.at[f.length - 1] != 1;
}

// 13: two factors are equal
static inline bool two_equal(const slice *factors, size_t count) {
    for (size_t i = 0; i < count; i++)
        for (size_t j = i + 1; j < count; j++) {
            size_t k = 0, n = factors[i].length;
            if (n != factors[j].length) continue;
            while (k < n && factors[i].at[k] == factors[j].at[k]) k++;
            if (k == n) return true;
        }
    return false;
}

// the total degree of the upper powers, or 4,097 where it is larger
static inline size_t total_degree(const slice *factors, size_t count, const uint64_t *uppers) {
    size_t sum = 0;
    for (size_t i = 0; i < count; i++) {
        size_t d = factors[i].length - 1;
        if (uppers[i] > 4096 / d) return 4097;
        sum += uppers[i] * d;
        if (sum > 4096) return 4097;
    }
    return sum;
}

// 14: an upper power is 0, or the total degree exceeds 4,096
static inline bool uppers_out_of_range(const slice *factors, size_t count, const uint64_t *uppers) {
    for (size_t i = 0; i < count; i++)
        if (uppers[i] == 0) return true;
    return total_degree(factors, count, uppers) > 4096;
}

// 16
static inline bool lent_too_short(size_t answer, size_t work) { return answer < 4097 || work < 8192; }
#endif
