// The jobs with FLINT: nmod_poly over Z/pZ.
#include "jobs.h"
#include <flint/nmod_poly.h>
#include <stdlib.h>

typedef struct {
    const job *job;
    nmod_poly_t factors[8], terms, reversed, modulus, found;
    nmod_berlekamp_massey_t massey;
    mp_limb_t *points;
    slong count, degree;
    int yes, agree;
} task;

static void set_terms(nmod_poly_t s, const job *j, size_t n, int reversed) {
    for (size_t i = 0; i < n; i++) nmod_poly_set_coeff_ui(s, reversed ? n - 1 - i : i, j->terms[i]);
}

static void *prepare(const job *j) {
    if (j->way == CONTINUE || j->binary != 0) return NULL;
    task *t = calloc(1, sizeof *t);
    size_t at = 0, degree = 0;
    t->job = j;
    for (size_t i = 0; i < j->factors; at += j->lengths[i++]) {
        nmod_poly_init(t->factors[i], j->p);
        for (size_t k = 0; k < j->lengths[i]; k++) nmod_poly_set_coeff_ui(t->factors[i], k, j->coefficients[at + k]);
        degree += j->uppers[i] * (j->lengths[i] - 1);
    }
    size_t n = j->count;
    nmod_poly_init(t->terms, j->p);
    nmod_poly_init(t->reversed, j->p);
    nmod_poly_init(t->modulus, j->p);
    nmod_poly_init(t->found, j->p);
    set_terms(t->terms, j, n, 0);
    set_terms(t->reversed, j, n, 1);
    nmod_poly_set_coeff_ui(t->modulus, n, 1);
    nmod_poly_set_coeff_ui(t->modulus, 0, j->p - 1);
    nmod_berlekamp_massey_init(t->massey, j->p);
    t->count = n;
    t->degree = degree;
    t->agree = 1;
    t->points = calloc(2 * n + 1, sizeof *t->points);
    for (size_t i = 0; i < n; i++) t->points[i] = t->points[n + i] = j->terms[i];
    return t;
}

static void *prepare_twice(const job *j) { return j->way == FREE || j->way == IRREDUCIBLE ? NULL : prepare(j); }

static void finish(void *task_) {
    task *t = task_;
    for (size_t i = 0; i < t->job->factors; i++) nmod_poly_clear(t->factors[i]);
    nmod_poly_clear(t->terms);
    nmod_poly_clear(t->reversed);
    nmod_poly_clear(t->modulus);
    nmod_poly_clear(t->found);
    nmod_berlekamp_massey_clear(t->massey);
    free(t->points);
    free(t);
}

static void product(task *t, nmod_poly_t all) {
    nmod_poly_t one;
    nmod_poly_init(one, t->job->p);
    nmod_poly_one(all);
    for (size_t i = 0; i < t->job->factors; i++) {
        nmod_poly_pow(one, t->factors[i], t->job->uppers[i]);
        nmod_poly_mul(all, all, one);
    }
    nmod_poly_clear(one);
}

static void massey(task *t, const mp_limb_t *points, slong count) {
    nmod_berlekamp_massey_start_over(t->massey);
    nmod_berlekamp_massey_add_points(t->massey, points, count);
    nmod_berlekamp_massey_reduce(t->massey);
    nmod_poly_make_monic(t->found, nmod_berlekamp_massey_V_poly(t->massey));
}

// the modulus over its common divisor with a
static void cancel(task *t, const nmod_poly_t modulus, const nmod_poly_t a) {
    nmod_poly_t common;
    nmod_poly_init(common, t->job->p);
    nmod_poly_gcd(common, modulus, a);
    nmod_poly_div(t->found, modulus, common);
    nmod_poly_make_monic(t->found, t->found);
    nmod_poly_clear(common);
}

static void run(void *task_) {
    task *t = task_;
    nmod_poly_t all, numerator;
    switch (t->job->way) {
    case FREE:
        massey(t, t->points, t->count);
        break;
    case PERIOD:
        cancel(t, t->modulus, t->reversed);
        break;
    case SET:
        nmod_poly_init(all, t->job->p);
        nmod_poly_init(numerator, t->job->p);
        product(t, all);
        nmod_poly_mul(numerator, all, t->reversed);
        nmod_poly_set(t->found, numerator);
        nmod_poly_truncate(t->found, t->count);
        t->agree = nmod_poly_degree(t->found) < t->degree;
        nmod_poly_shift_right(numerator, numerator, t->count);
        cancel(t, all, numerator);
        nmod_poly_clear(all);
        nmod_poly_clear(numerator);
        break;
    case IRREDUCIBLE:
        t->yes = nmod_poly_is_irreducible(t->factors[0]);
        break;
    }
}

// The period is repeated; the first D terms of a portion go on to twice their number by a power series, and all terms
// are held to it.
static void run_twice(void *task_) {
    task *t = task_;
    slong d = t->degree, n = 2 * d > t->count ? 2 * d : t->count;
    if (t->job->way == PERIOD) {
        massey(t, t->points, 2 * t->count);
        return;
    }
    nmod_poly_t all, series;
    nmod_poly_init(all, t->job->p);
    nmod_poly_init(series, t->job->p);
    product(t, all);
    nmod_poly_reverse(all, all, d + 1);
    nmod_poly_mullow(series, all, t->terms, d);
    nmod_poly_inv_series(all, all, n);
    nmod_poly_mullow(series, series, all, n);
    nmod_poly_set(all, series);
    nmod_poly_truncate(all, t->count);
    t->agree = nmod_poly_equal(all, t->terms);
    for (slong i = 0; i < 2 * d; i++) t->points[i] = nmod_poly_get_coeff_ui(series, i);
    massey(t, t->points, 2 * d);
    nmod_poly_clear(all);
    nmod_poly_clear(series);
}

static void tell(void *task_, answer *a) {
    task *t = task_;
    a->yes = t->yes;
    a->status = t->agree ? 0 : 17;
    if (t->job->way == IRREDUCIBLE) return;
    a->degree = nmod_poly_is_zero(t->found) ? 0 : nmod_poly_degree(t->found);
    for (size_t i = 0; i <= a->degree; i++) a->polynomial[i] = nmod_poly_get_coeff_ui(t->found, i);
}

const contestant flint = {"FLINT", prepare, run, tell, finish};
const contestant flint_twice = {"FLINT twice", prepare_twice, run_twice, tell, finish};
