// The jobs with PARI: F2x over GF(2), Flx over other fields of p elements, F2xqX over those of 2^n (the free way
// alone). PARI has no call for the minimal polynomial of a sequence of numbers; it is the cofactor that half of
// Euclid's algorithm finds on x^n and the terms, highest power first.
#include "jobs.h"
#include <pari/pari.h>
#include <stdlib.h>

typedef struct {
    const job *job;
    GEN factors[8], terms, reversed, twice, modulus, twice_power, power, found;
    long count, degree;
    int yes, agree;
} task;

// ---- the same operations over both

static GEN flx(long length) {
    GEN x = cgetg(length + 2, t_VECSMALL);
    for (long i = 1; i < length + 2; i++) x[i] = 0;
    return x;
}

static GEN packed(GEN x, ulong p) {
    x = Flx_renormalize(x, lg(x));
    return p == 2 ? Flx_to_F2x(x) : x;
}

static GEN mul(GEN a, GEN b, ulong p) { return p == 2 ? F2x_mul(a, b) : Flx_mul(a, b, p); }
static GEN quotient(GEN a, GEN b, ulong p) { return p == 2 ? F2x_div(a, b) : Flx_div(a, b, p); }
static GEN common(GEN a, GEN b, ulong p) { return p == 2 ? F2x_gcd(a, b) : Flx_gcd(a, b, p); }
static GEN shift(GEN a, long n, ulong p) { return p == 2 ? F2x_shift(a, n) : Flx_shift(a, n); }
static GEN cut(GEN a, long n, ulong p) { return p == 2 ? F2xn_red(a, n) : Flxn_red(a, n); }
static long degree_of(GEN a, ulong p) { return p == 2 ? F2x_degree(a) : degpol(a); }
static GEN monic(GEN a, ulong p) { return p == 2 ? a : Flx_normalize(a, p); }

static GEN to_power(GEN f, ulong e, ulong p) {
    if (p != 2) return Flx_powu(f, e, p);
    GEN all = pol1_F2x(0);
    for (long bit = BITS_IN_LONG - 1; bit >= 0; bit--) {
        all = F2x_sqr(all);
        if (e >> bit & 1) all = F2x_mul(all, f);
    }
    return all;
}

// ---- the free way over GF(2^n)

// the element with these bits
static GEN element(ulong bits) {
    GEN x = cgetg(bits != 0 ? 3 : 2, t_VECSMALL);
    x[1] = evalvarn(0);
    if (bits != 0) x[2] = bits;
    return x;
}

static GEN zeros_over(long length) {
    GEN x = cgetg(length + 2, t_POL);
    x[1] = evalvarn(1) | evalsigne(1);
    for (long i = 0; i < length; i++) gel(x, 2 + i) = element(0);
    return x;
}

static void prepare_binary(const job *j, GEN *power, GEN *reversed, GEN *modulus) {
    long n = j->count;
    GEN x = zeros_over(n + 1), s = zeros_over(n);
    gel(x, 2 + n) = element(1);
    for (long i = 0; i < n; i++) gel(s, 2 + n - 1 - i) = element(j->terms[i]);
    *power = gclone(x);
    *reversed = gclone(F2xX_renormalize(s, n + 2));
    *modulus = gclone(element(j->p | j->low));
}

static GEN half_binary(GEN x_to_n, GEN s, GEN reducing) {
    GEN m = F2xqX_halfgcd(x_to_n, s, reducing);
    return F2xqX_normalize(gcoeff(m, 2, 2), reducing);
}

// ---- a job

static GEN terms_of(const job *j, long n, int reversed, int times) {
    GEN s = flx(n * times);
    for (long i = 0; i < n * times; i++) s[2 + (reversed ? n * times - 1 - i : i)] = j->terms[i % n];
    return packed(s, j->p);
}

static GEN power_of_x(long n, ulong p) {
    GEN x = flx(n + 1);
    x[2 + n] = 1;
    return packed(x, p);
}

static void *prepare(const job *j) {
    if (j->way == CONTINUE || (j->binary != 0 && j->way != FREE)) return NULL;
    static int begun;
    if (!begun) {
        pari_init_opts(1 << 28, 0, INIT_DFTm);
        begun = 1;
    }
    task *t = calloc(1, sizeof *t);
    size_t at = 0, degree = 0;
    t->job = j;
    for (size_t i = 0; i < j->factors; at += j->lengths[i++]) {
        GEN f = flx(j->lengths[i]);
        for (size_t k = 0; k < j->lengths[i]; k++) f[2 + k] = j->coefficients[at + k];
        t->factors[i] = gclone(packed(f, j->p));
        degree += j->uppers[i] * (j->lengths[i] - 1);
    }
    long n = t->count = j->count;
    t->degree = degree;
    t->agree = 1;
    if (j->binary != 0) {
        prepare_binary(j, &t->power, &t->reversed, &t->modulus);
        set_avma(pari_mainstack->top);
        return t;
    }
    if (n == 0) return t;
    t->terms = gclone(terms_of(j, n, 0, 1));
    t->reversed = gclone(terms_of(j, n, 1, 1));
    t->twice = gclone(terms_of(j, n, 1, 2));
    t->power = gclone(power_of_x(n, j->p));
    t->twice_power = gclone(power_of_x(2 * (j->way == PERIOD ? n : t->degree), j->p));
    GEN modulus = flx(n + 1);
    modulus[2] = j->p - 1;
    modulus[2 + n] = 1;
    t->modulus = gclone(packed(modulus, j->p));
    set_avma(pari_mainstack->top);
    return t;
}

static void *prepare_twice(const job *j) { return j->way == FREE || j->way == IRREDUCIBLE ? NULL : prepare(j); }

static void finish(void *task_) {
    task *t = task_;
    for (size_t i = 0; i < t->job->factors; i++) gunclone(t->factors[i]);
    if (t->job->binary != 0) {
        gunclone(t->power);
        gunclone(t->reversed);
        gunclone(t->modulus);
    } else if (t->count != 0) {
        gunclone(t->terms);
        gunclone(t->reversed);
        gunclone(t->twice);
        gunclone(t->power);
        gunclone(t->twice_power);
        gunclone(t->modulus);
    }
    free(t);
}

// the cofactor of s where Euclid's algorithm on x^n and s is halfway
static GEN half(GEN x_to_n, GEN s, ulong p) {
    GEN m = p == 2 ? F2x_halfgcd(x_to_n, s) : Flx_halfgcd(x_to_n, s, p);
    return monic(gcoeff(m, 2, 2), p);
}

static GEN product(task *t) {
    GEN all = to_power(t->factors[0], t->job->uppers[0], t->job->p);
    for (size_t i = 1; i < t->job->factors; i++)
        all = mul(all, to_power(t->factors[i], t->job->uppers[i], t->job->p), t->job->p);
    return all;
}

static void run(void *task_) {
    task *t = task_;
    ulong p = t->job->p;
    set_avma(pari_mainstack->top);
    switch (t->job->way) {
    case FREE:
        t->found = t->job->binary != 0 ? half_binary(t->power, t->reversed, t->modulus)
                                       : half(t->power, t->reversed, p);
        break;
    case PERIOD:
        t->found = monic(quotient(t->modulus, common(t->modulus, t->reversed, p), p), p);
        break;
    case SET: {
        GEN all = product(t), whole = mul(all, t->reversed, p), numerator = shift(whole, -t->count, p);
        t->agree = degree_of(cut(whole, t->count, p), p) < t->degree;
        t->found = monic(quotient(all, common(all, numerator, p), p), p);
        break;
    }
    case IRREDUCIBLE:
        t->yes = p == 2 ? F2x_is_irred(t->factors[0]) : Flx_is_irred(t->factors[0], p);
        break;
    case CONTINUE:
        break;
    }
}

// The period is repeated; the first D terms of a portion go on to twice their number by a power series, and all terms
// are held to it.
static void run_twice(void *task_) {
    task *t = task_;
    ulong p = t->job->p;
    long d = t->degree, n = 2 * d > t->count ? 2 * d : t->count;
    set_avma(pari_mainstack->top);
    if (t->job->way == PERIOD) {
        t->found = half(t->twice_power, t->twice, p);
        return;
    }
    GEN all = product(t), series, reversed;
    if (p == 2) {
        all = F2x_recip(all);
        series = F2xn_red(F2x_mul(all, F2xn_red(t->terms, d)), d);
        series = F2xn_red(F2x_mul(series, F2xn_inv(all, n)), n);
        t->agree = F2x_equal(F2xn_red(series, t->count), t->terms);
        series = F2xn_red(series, 2 * d);
        reversed = F2x_shift(F2x_recip(series), 2 * d - 1 - F2x_degree(series));
    } else {
        all = Flx_recip(all);
        series = Flxn_mul(all, t->terms, d, p);
        series = Flxn_mul(series, Flxn_inv(all, n, p), n, p);
        t->agree = Flx_equal(Flxn_red(series, t->count), t->terms);
        series = Flxn_red(series, 2 * d);
        reversed = Flx_shift(Flx_recip(series), 2 * d - 1 - degpol(series));
    }
    t->found = half(t->twice_power, reversed, p);
}

static void tell(void *task_, answer *a) {
    task *t = task_;
    a->yes = t->yes;
    a->status = t->agree ? 0 : 17;
    if (t->job->way == IRREDUCIBLE) return;
    GEN f = t->job->p == 2 ? F2x_to_Flx(t->found) : t->found;
    a->degree = degpol(f) < 0 ? 0 : degpol(f);
    for (size_t i = 0; i <= a->degree && degpol(f) >= 0; i++) {
        GEN c = t->job->binary != 0 ? gel(f, 2 + i) : NULL;
        a->polynomial[i] = c == NULL ? f[2 + i] : lg(c) > 2 ? c[2] : 0;
    }
}

const contestant pari = {"PARI", prepare, run, tell, finish};
const contestant pari_twice = {"PARI twice", prepare_twice, run_twice, tell, finish};
