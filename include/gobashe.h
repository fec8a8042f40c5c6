/* gobashe.h: how complex a sequence over a finite field is, and which linear recurrence generates it.
 *
 * The functions declared here are proved: for every input each returns what its contract says
 * (crates/meaning/specs/Exports.antt), and crates/theorems derives the promises from the contracts. This
 * header, its inline helpers and its words are not part of the proof.
 *
 * CONVENTIONS
 *
 * Symbols      One byte each. Over GF(p) they are 0 to p - 1; over GF(2^n) bit i of the byte is the
 *              coefficient of y^i.
 * Polynomials  Arrays of coefficients, the constant one first; a polynomial of degree d has d + 1 of
 *              them. Where an input polynomial is not monic, its monic multiple is meant.
 * Arrays       A pointer and a count. The pointer may be NULL if the count is 0. An array that a call
 *              writes to must not overlap any other argument.
 * Buffers      A rating writes the coefficients of its polynomial, complexity + 1 of them, to the front
 *              of `answer` and leaves the rest alone. `work` is scratch: its first GOBASHE_WORK bytes are
 *              zero after an accepted call, whatever was there before. Shorter buffers than
 *              GOBASHE_ANSWER and GOBASHE_WORK are refused by 16.
 * Status       0 if the call is accepted, else the number of the one refusal that applies. The input
 *              alone decides; of several that apply it is always the first to be checked: 6 or 20, 7, 8,
 *              and so on upwards. In a route file the first bad record decides.
 * Refusals     All other numbers in the result are 0. The buffers are as before the call, except that 17
 *              and 19 leave the first GOBASHE_WORK bytes of `work` zero.
 * Threads      Nothing is allocated, kept, printed or locked. Calls with different buffers may run at the
 *              same time. */
#ifndef GOBASHE_H
#define GOBASHE_H

#include <stdbool.h>
#include <stddef.h>
#include <stdint.h>

#ifdef __cplusplus
extern "C" {
#endif

/* What `gobashe_version` returns in a library that fits this header. */
#define GOBASHE_VERSION 4

/* Limits. */
enum gobashe_limit {
    GOBASHE_ANSWER = 4097,       /* bytes of `answer` */
    GOBASHE_WORK = 8192,         /* bytes of `work` */
    GOBASHE_TERMS = 4096,        /* terms that a call rates, or places that it fills */
    GOBASHE_FACTORS = 8,         /* factors of a set */
    GOBASHE_FACTOR_DEGREE = 32,  /* degree of a factor; its field may allow less */
    GOBASHE_REPEAT = 65536,      /* repeat length that the set way finds */
    GOBASHE_LARGEST_PRIME = 251, /* p of GF(p) */
    GOBASHE_LARGEST_DEGREE = 8,  /* n of GF(2^n); the smallest is 2 */
    GOBASHE_FILE = 16384,        /* bytes of a route file */
    GOBASHE_CATALOGUE = 226,     /* entries of the catalogue */
    GOBASHE_PROFILE_ENTRY = 4    /* bytes of a profile for each term */
};

/* Why a call is refused. */
enum gobashe_refusal {
    GOBASHE_OK = 0,
    GOBASHE_FILE_TOO_LONG = 1,              /* the file has more than GOBASHE_FILE bytes */
    GOBASHE_UNKNOWN_KIND = 2,               /* the kind of a record is not 1 to 9 */
    GOBASHE_FILE_CUT_SHORT = 3,             /* the file ends inside a record, or without the end record */
    GOBASHE_RECORD_OUT_OF_PLACE = 4,        /* a record may not stand where it does */
    GOBASHE_MODE_UNSUITED = 5,              /* the mode is not 1 to 3, or the file's factors do not suit it */
    GOBASHE_NOT_PRIME = 6,                  /* GF(p): p is not a prime up to 251 */
    GOBASHE_COUNT_OUT_OF_RANGE = 7,         /* no terms or places, or more than GOBASHE_TERMS, or no such place */
    GOBASHE_TERM_OUT_OF_FIELD = 8,          /* a term is not a symbol of the field */
    GOBASHE_FACTOR_COUNT = 9,               /* no factor, or more than GOBASHE_FACTORS */
    GOBASHE_DEGREE_OUT_OF_RANGE = 10,       /* the degree of a polynomial is 0 or too large */
    GOBASHE_COEFFICIENT_OUT_OF_RANGE = 11,  /* a coefficient is no symbol, or the leading one is 0 */
    GOBASHE_REDUCIBLE = 12,                 /* a factor is reducible */
    GOBASHE_EQUAL_FACTORS = 13,             /* two factors have the same monic multiple */
    GOBASHE_UPPER_POWERS = 14,              /* an upper power is 0, or the total degree is above 4,096 */
    GOBASHE_TOO_FEW_TERMS = 15,             /* too few terms; starting terms not as many as the degree */
    GOBASHE_LENT_TOO_SHORT = 16,            /* `answer` or `work` is too short */
    GOBASHE_NOT_ANNIHILATED = 17,           /* no allowed product of the factors generates the terms */
    GOBASHE_METER_FULL = 18,                /* a profile's meter already holds GOBASHE_TERMS terms */
    GOBASHE_NO_ENTRY = 19,                  /* no power of any entry of the catalogue generates the period */
    GOBASHE_NOT_BINARY_FIELD = 20           /* GF(2^n): n is not 2 to 8, or the number does not suit it */
};

/* A field by two numbers: GF(number) if the degree is 0, else GF(2^degree) with the reducing polynomial
 * y^degree + the bits of number. Any numbers may be passed; those of no field are refused, by 6 if the
 * degree is 0 and else by 20. */
typedef struct {
    uint64_t degree, number;
} gobashe_field;

/* A polynomial or another array, where a call takes several. */
typedef struct {
    const uint8_t *data;
    size_t length;
} gobashe_bytes;

/* What a rating returns. */
typedef struct {
    uint64_t status;     /* 0, or the refusal */
    uint64_t complexity; /* the degree of the polynomial in `answer` */
    uint64_t repeat;     /* least period of the sequence; 0: none up to GOBASHE_REPEAT. Free way: 0 */
    uint64_t word;       /* free way: 1 if no other polynomial of this degree fits, 2 if one may; else 0 */
    uint64_t powers[8];  /* the power of each factor, in their order, then zeros */
} gobashe_rating;

/* What a question returns: yes is 1 or 0. */
typedef struct {
    uint64_t status, yes;
} gobashe_answer;

/* What the search of the catalogue returns. */
typedef struct {
    uint64_t status, entry, power;
} gobashe_entry;

/* What the reader of route files returns: the body of the record is the `length` bytes of the file that
 * begin at file[from]. */
typedef struct {
    uint64_t status, kind, from, length;
} gobashe_found;

/* GF(p). */
static inline gobashe_field gobashe_prime(uint64_t p) {
    gobashe_field field;
    field.degree = 0;
    field.number = p;
    return field;
}

/* GF(2^n), reduced by y^n + the bits of low: gobashe_binary(8, 27) is the field of AES. An n of 0 is
 * passed on as 1, so that it does not name a prime field; 20 refuses both. */
static inline gobashe_field gobashe_binary(uint64_t n, uint64_t low) {
    gobashe_field field;
    field.degree = n == 0 ? 1 : n;
    field.number = low;
    return field;
}

/* The number of the interface that the library has; compare it with GOBASHE_VERSION. Never refused. */
uint64_t gobashe_version(void);

/* Whether the number is a prime from 2 to GOBASHE_LARGEST_PRIME. Never refused. */
bool gobashe_prime_in_range(uint64_t number);

/* Whether a polynomial is irreducible over the field. Its degree d is at most 32, and q^(d/2), with d/2
 * rounded down, at most 65,536 in a field of q elements. Refused by 6 or 20, 10, 11. */
gobashe_answer gobashe_is_irreducible(gobashe_field field, const uint8_t *polynomial, size_t length);

/* Rates a period, which is meant to repeat without end: finds the least power of an irreducible factor
 * that generates it. The power is powers[0]. Refused by 6 or 20, 7, 8, 10, 11, 12, 16, 17. */
gobashe_rating gobashe_rate_period(gobashe_field field, const uint8_t *factor, size_t factor_length,
                                   const uint8_t *terms, size_t count, uint8_t *answer,
                                   size_t answer_length, uint8_t *work, size_t work_length);

/* Rates terms that go on as the product of the factors, each to its upper power, generates them: finds
 * the least powers that do. Upper power i belongs to factor i; a missing one counts as 0 and further ones
 * are not read. Refused by 6 or 20, 7 to 17. */
gobashe_rating gobashe_rate_set(gobashe_field field, const gobashe_bytes *factors, size_t factor_count,
                                const uint64_t *uppers, size_t upper_count, const uint8_t *terms,
                                size_t count, uint8_t *answer, size_t answer_length, uint8_t *work,
                                size_t work_length);

/* Rates known terms alone: finds the shortest linear recurrence that fits them. If several polynomials of
 * this degree do, `answer` has the first of them, by their coefficients from the highest down. Refused by
 * 6 or 20, 7, 8, 16. */
gobashe_rating gobashe_rate_free(gobashe_field field, const uint8_t *terms, size_t count, uint8_t *answer,
                                 size_t answer_length, uint8_t *work, size_t work_length);

/* The linear complexity after each term, as the free way would rate the terms so far. Writes
 * GOBASHE_PROFILE_ENTRY bytes for each term, for as many terms as there is room: the status of the term,
 * the complexity in two bytes with the less significant first, and 1 if one polynomial fits or 0 if
 * several do. A term of status 8 or 18 is passed over: its entry repeats the figures from before. Returns
 * the status of the call; refused by 6 or 20, and `profile` is then as before. */
uint64_t gobashe_profile(gobashe_field field, const uint8_t *terms, size_t count, uint8_t *profile,
                         size_t profile_length);

/* Entry i of the catalogue of irreducible polynomials over GF(2) of degree 1 to 10, in rising order: the
 * bits of the number are the coefficients. 0 from GOBASHE_CATALOGUE on. Never refused. */
uint64_t gobashe_catalogue_entry(size_t i);

/* Searches the catalogue for the first entry with a power that generates a period over GF(2), and returns
 * it with the least such power. Refused by 7, 8, 16, 19. */
gobashe_entry gobashe_find_entry(const uint8_t *terms, size_t count, uint8_t *work, size_t work_length);

/* Continues a sequence: fills the buffer from `place` on with what the polynomial generates from the
 * starting terms, which come first and are as many as its degree; what stands before `place` stays.
 * Returns the status; refused by 6 or 20, 7 (no place or more than 4,096 to fill, or `place` beyond the
 * buffer), 8, 10 (a degree above 4,096), 11, 15. */
uint64_t gobashe_continue_sequence(gobashe_field field, const uint8_t *polynomial, size_t length,
                                   const uint8_t *start, size_t start_length, uint8_t *buffer,
                                   size_t buffer_length, size_t place);

/* Record n of a route file, counted from 0; beyond the last it is the end record, of kind 8 and with no
 * body. Refused by 1 to 5, which concern the file and not the record. */
gobashe_found gobashe_record(const uint8_t *file, size_t length, size_t n);

/* A status in words, for messages; NULL for a number that no call returns. */
static inline const char *gobashe_reason(uint64_t status) {
    static const char *const reasons[] = {
        "accepted",
        "the file has more than 16,384 bytes",
        "the kind of a record is not 1 to 9",
        "the file ends inside a record or without the end record",
        "a record is out of place",
        "the mode is unknown, or the factors do not suit it",
        "p is not a prime from 2 to 251",
        "there are no terms or places, or more than 4,096, or the place is beyond the buffer",
        "a term is not an element of the field",
        "there is no factor, or there are more than eight",
        "a degree is out of range",
        "a coefficient is not an element of the field, or the leading one is 0 or missing",
        "a factor is reducible",
        "two factors are equal",
        "an upper power is 0, or the total degree is above 4,096",
        "there are too few terms, or not as many starting terms as the degree",
        "the answer or the work bytes are too short",
        "no allowed product of the factors annihilates the terms",
        "the meter already holds 4,096 terms",
        "no entry of the catalogue has a power that annihilates the period",
        "n is not 2 to 8, or the reducing polynomial has a bit at or above n or is reducible",
    };
    return status < sizeof reasons / sizeof *reasons ? reasons[status] : NULL;
}

#ifdef __cplusplus
}
#endif
#endif
