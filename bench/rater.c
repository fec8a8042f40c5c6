// The rater as a contestant, over the calls of gobashe.h. NAME is what it is called: the rater of this tree, or an
// earlier one whose functions have other names by then (bench/run).
#include "gobashe.h"
#include "jobs.h"
#include <stdlib.h>
#include <string.h>

typedef struct {
    const job *job;
    gobashe_field field;
    gobashe_bytes factors[8];
    answer found;
    uint8_t work[GOBASHE_WORK], profile[GOBASHE_PROFILE_ENTRY * GOBASHE_TERMS];
} task;

static void *prepare(const job *j) {
    task *t = aligned_alloc(64, (sizeof(task) + 63) / 64 * 64);
    memset(t, 0, sizeof *t);
    t->job = j;
    t->field = j->binary != 0 ? gobashe_binary(j->binary, j->low) : gobashe_prime(j->p);
    for (size_t i = 0, at = 0; i < j->factors; at += j->lengths[i++])
        t->factors[i] = (gobashe_bytes){j->coefficients + at, j->lengths[i]};
    return t;
}

static void tell(void *task_, answer *a) {
    task *t = task_;
    *a = t->found;
}

static void rated(answer *a, gobashe_rating r) {
    a->status = r.status;
    a->degree = r.complexity;
    a->repeat = r.repeat;
    a->unique = r.word == 1;
    memcpy(a->powers, r.powers, sizeof a->powers);
}

static void run(void *task_) {
    task *t = task_;
    const job *j = t->job;
    answer *a = &t->found;
    switch (j->way) {
    case FREE:
        rated(a, gobashe_rate_free(t->field, j->terms, j->count, a->polynomial, sizeof a->polynomial, t->work,
                                   sizeof t->work));
        break;
    case PERIOD:
        rated(a, gobashe_rate_period(t->field, j->coefficients, j->bytes, j->terms, j->count, a->polynomial,
                                     sizeof a->polynomial, t->work, sizeof t->work));
        break;
    case SET:
        rated(a, gobashe_rate_set(t->field, t->factors, j->factors, j->uppers, j->factors, j->terms, j->count,
                                  a->polynomial, sizeof a->polynomial, t->work, sizeof t->work));
        break;
    case IRREDUCIBLE: {
        gobashe_answer said = gobashe_is_irreducible(t->field, j->coefficients, j->bytes);
        a->status = said.status;
        a->yes = said.yes;
        break;
    }
    case CONTINUE:
        a->status = gobashe_continue_sequence(t->field, j->polynomial, j->degree + 1, j->terms, j->degree,
                                              a->polynomial, j->count, 0);
        a->degree = j->count - 1;
        break;
    }
}

#define WORD_(NAME) #NAME
#define WORD(NAME) WORD_(NAME)
const contestant NAME = {WORD(NAME), prepare, run, tell, free};

#ifndef EARLIER
// ---- the profile, whose last entry has the figures that the free way answers

static void *prepare_profile(const job *j) {
    return j->way == FREE && j->count == 4096 && !j->compared && !j->beside ? prepare(j) : NULL;
}

static void run_profile(void *task_) {
    task *t = task_;
    const job *j = t->job;
    const uint8_t *last = t->profile + GOBASHE_PROFILE_ENTRY * (j->count - 1);
    t->found.status = gobashe_profile(t->field, j->terms, j->count, t->profile, sizeof t->profile);
    t->found.degree = last[1] + 256 * last[2];
    t->found.unique = last[3];
}

const contestant profile = {"profile", prepare_profile, run_profile, tell, free};
#endif
