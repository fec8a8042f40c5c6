// The jobs with NTL: GF2X over GF(2), zz_pX over other fields.
#include "jobs.h"
#include <NTL/GF2XFactoring.h>
#include <NTL/lzz_pXFactoring.h>
#include <NTL/vec_GF2.h>
#include <NTL/vec_lzz_p.h>

using namespace NTL;

namespace {

struct task {
    const job *made_for;
    bool yes = false, agree = true;
    explicit task(const job *j) : made_for(j) {}
    virtual ~task() {}
    virtual void run() = 0;
    virtual void run_twice() = 0;
    virtual void tell(answer *) = 0;
};

// the field's setting, which zz_p has and GF2 does not need
struct no_setting {
    explicit no_setting(long) {}
    void restore() const {}
};

// X are the polynomials, V the vectors
template <class X, class V, class Setting> struct work : task {
    Setting setting;
    X factors[8], terms, reversed, modulus, found;
    V known, points;
    long count, degree = 0;

    explicit work(const job *j) : task(j), setting(j->p) {
        setting.restore();
        size_t at = 0;
        for (size_t i = 0; i < j->factors; at += j->lengths[i++]) {
            for (size_t k = 0; k < j->lengths[i]; k++) SetCoeff(factors[i], k, (long)j->coefficients[at + k]);
            degree += j->uppers[i] * (j->lengths[i] - 1);
        }
        count = j->count;
        for (long i = 0; i < count; i++) {
            SetCoeff(terms, i, (long)j->terms[i]);
            SetCoeff(reversed, count - 1 - i, (long)j->terms[i]);
        }
        SetCoeff(modulus, count, 1L);
        SetCoeff(modulus, 0, (long)j->p - 1);
        known.SetLength(count);
        points.SetLength(2 * count);
        for (long i = 0; i < count; i++) {
            typename X::coeff_type c;
            conv(c, (long)j->terms[i]);
            known.put(i, c);
            points.put(i, c);
            points.put(count + i, c);
        }
    }

    X product() {
        X all, one;
        set(all);
        for (size_t i = 0; i < made_for->factors; i++) {
            power(one, factors[i], (long)made_for->uppers[i]);
            mul(all, all, one);
        }
        return all;
    }

    // the modulus over its common divisor with a
    void cancel(const X &m, const X &a) {
        X common;
        GCD(common, m, a);
        div(found, m, common);
    }

    void run() override {
        setting.restore();
        switch (made_for->way) {
        case FREE:
            MinPolySeq(found, known, count / 2);
            break;
        case PERIOD:
            cancel(modulus, reversed);
            break;
        case SET: {
            X all = product(), numerator;
            mul(numerator, all, reversed);
            trunc(found, numerator, count);
            agree = deg(found) < degree;
            RightShift(numerator, numerator, count);
            cancel(all, numerator);
            break;
        }
        case IRREDUCIBLE:
            yes = IterIrredTest(factors[0]);
            break;
        }
    }

    // The period is repeated; the first D terms of a portion go on to twice their number by a power series, and all
    // terms are held to it.
    void run_twice() override {
        setting.restore();
        if (made_for->way == PERIOD) {
            MinPolySeq(found, points, count);
            return;
        }
        long n = 2 * degree > count ? 2 * degree : count;
        X all = product(), inverse, series;
        reverse(all, all, degree);
        MulTrunc(series, all, terms, degree);
        InvTrunc(inverse, all, n);
        MulTrunc(series, series, inverse, n);
        trunc(inverse, series, count);
        agree = inverse == terms;
        VectorCopy(points, series, 2 * degree);
        MinPolySeq(found, points, degree);
    }

    void tell(answer *a) override {
        setting.restore();
        a->yes = yes;
        a->status = agree ? 0 : 17;
        if (made_for->way == IRREDUCIBLE) return;
        a->degree = deg(found) < 0 ? 0 : deg(found);
        for (size_t i = 0; i <= a->degree; i++) a->polynomial[i] = conv<long>(coeff(found, i));
    }
};

void *prepare(const job *j) {
    if (j->way == CONTINUE || j->binary != 0) return nullptr;
    task *t;
    if (j->p == 2) t = new work<GF2X, vec_GF2, no_setting>(j);
    else t = new work<zz_pX, vec_zz_p, zz_pContext>(j);
    return t;
}

void *prepare_twice(const job *j) { return j->way == FREE || j->way == IRREDUCIBLE ? nullptr : prepare(j); }

void run(void *t) { static_cast<task *>(t)->run(); }
void run_twice(void *t) { static_cast<task *>(t)->run_twice(); }
void tell(void *t, answer *a) { static_cast<task *>(t)->tell(a); }
void finish(void *t) { delete static_cast<task *>(t); }

} // namespace

extern "C" {
extern const contestant ntl = {"NTL", prepare, run, tell, finish};
extern const contestant ntl_twice = {"NTL twice", prepare_twice, run_twice, tell, finish};
}
