// The C versions and, where it is at hand, an earlier rater as contestants: the same code for each, over the calls of
// calls.h, which know GF(p) alone.
#include "calls.h"
#include "jobs.h"
#include <stdlib.h>
#include <string.h>

typedef struct {
    const job *job;
    answer found;
    uint8_t work[8192];
} task;

static void *prepare(const job *j) {
    if (j->binary != 0) return NULL;
    task *t = aligned_alloc(64, (sizeof(task) + 63) / 64 * 64);
    memset(t, 0, sizeof *t);
    t->job = j;
    return t;
}

static void tell(void *task_, answer *a) {
    task *t = task_;
    *a = t->found;
}

#define CONTESTANT(VERSION)                                                                                           \
    static void run_##VERSION(void *task_) {                                                                          \
        task *t = task_;                                                                                              \
        const job *j = t->job;                                                                                        \
        answer *a = &t->found;                                                                                        \
        uint64_t degree = 0;                                                                                          \
        uint8_t yes = 0;                                                                                              \
        switch (j->way) {                                                                                             \
        case FREE:                                                                                                    \
            a->status = VERSION##_rate_free(j->p, j->terms, j->count, a->polynomial, sizeof a->polynomial, t->work,   \
                                            sizeof t->work, &degree, &a->unique);                                     \
            break;                                                                                                    \
        case PERIOD:                                                                                                  \
            a->status = VERSION##_rate_period(j->p, j->coefficients, j->bytes, j->terms, j->count, a->polynomial,     \
                                              sizeof a->polynomial, t->work, sizeof t->work, a->powers, &degree,      \
                                              &a->repeat);                                                            \
            break;                                                                                                    \
        case SET:                                                                                                     \
            a->status = VERSION##_rate_with_factors(                                                                  \
                j->p, j->coefficients, j->bytes, (const uint8_t *)j->lengths, 8 * j->factors,                         \
                (const uint8_t *)j->uppers, 8 * j->factors, j->terms, j->count, a->polynomial,                        \
                sizeof a->polynomial, t->work, sizeof t->work, (uint8_t *)a->powers, sizeof a->powers, &degree,       \
                &a->repeat);                                                                                          \
            break;                                                                                                    \
        case IRREDUCIBLE:                                                                                             \
            a->status = VERSION##_is_irreducible(j->p, j->coefficients, j->bytes, &yes);                              \
            break;                                                                                                    \
        case CONTINUE:                                                                                                \
            a->status = VERSION##_continue_sequence(j->p, j->polynomial, j->degree + 1, j->terms, j->degree,          \
                                                    a->polynomial, j->count, 0);                                      \
            degree = j->count - 1;                                                                                    \
            break;                                                                                                    \
        }                                                                                                             \
        a->degree = degree;                                                                                           \
        a->yes = yes;                                                                                                 \
    }                                                                                                                 \
    const contestant VERSION = {#VERSION, prepare, run_##VERSION, tell, free};

CONTESTANT(plain)
CONTESTANT(bytes)
CONTESTANT(best)
#ifdef BEFORE_GOBASHE
CONTESTANT(before)
#endif
