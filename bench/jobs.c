// The jobs: their inputs are made here from fixed seeds.
#include "jobs.h"
#include "reference.h"
#include <stdio.h>
#include <string.h>

#define MOST 128
static job list[MOST];
static size_t listed;

static uint64_t seed;
static uint32_t below(uint32_t n) {
    seed = seed * 6364136223846793005ull + 1442695040888963407ull;
    return (seed >> 33) % n;
}

// 1234 as 1,234
static const char *grouped(size_t n) {
    static char text[4][32];
    static int turn;
    char *t = text[turn++ % 4];
    if (n < 1000) snprintf(t, 32, "%zu", n);
    else snprintf(t, 32, "%zu,%03zu", n / 1000, n % 1000);
    return t;
}

static job *add(const char *family, enum way way, uint32_t p) {
    job *j = &list[listed++];
    j->family = family;
    j->way = way;
    j->p = p;
    seed = listed;
    return j;
}

static void add_factor(job *j, const uint8_t *f, size_t degree, uint64_t upper) {
    memcpy(j->coefficients + j->bytes, f, degree + 1);
    j->bytes += degree + 1;
    j->lengths[j->factors] = degree + 1;
    j->uppers[j->factors++] = upper;
}

static void random_terms(job *j, size_t from, size_t to) {
    for (size_t i = from; i < to; i++) j->terms[i] = below(j->p);
}

// the terms from `from` on, as the polynomial continues those before
static void continue_terms(job *j, const uint8_t *f, size_t degree, size_t from) {
    for (size_t n = from; n < j->count; n++) {
        uint32_t sum = 0;
        for (size_t i = 0; i < degree; i++) sum += (j->p - f[i]) * j->terms[n - degree + i];
        j->terms[n] = sum % j->p;
    }
}

size_t product_of_powers(const job *j, uint8_t *into) {
    size_t n = 0, at = 0;
    into[0] = 1;
    for (size_t i = 0; i < j->factors; i++) {
        const uint8_t *f = j->coefficients + at;
        size_t d = j->lengths[i] - 1;
        for (uint64_t r = 0; r < j->uppers[i]; r++, n += d)
            for (size_t k = n + d + 1; k-- > 0;) {
                uint32_t sum = 0;
                for (size_t c = 0; c <= d && c <= k; c++)
                    if (k - c <= n) sum += f[c] * into[k - c];
                into[k] = sum % j->p;
            }
        at += d + 1;
    }
    return n;
}

// a product in GF(2^n), bit by bit
static uint32_t binary_product(const job *j, uint32_t a, uint32_t b) {
    uint32_t sum = 0;
    for (; b != 0; b >>= 1) {
        if (b & 1) sum ^= a;
        a <<= 1;
        if (a >> j->binary & 1) a ^= j->p | j->low;
    }
    return sum;
}

// the sum of f[i] times term k + i, the terms repeated
static uint32_t acted(const job *j, const uint8_t *f, size_t degree, size_t k) {
    uint32_t sum = 0;
    for (size_t i = 0; i <= degree; i++) {
        uint8_t t = j->terms[(k + i) % j->count];
        if (j->binary != 0) sum ^= binary_product(j, f[i], t);
        else sum += f[i] * t;
    }
    return j->binary != 0 ? sum : sum % j->p;
}

bool annihilates(const job *j, const uint8_t *f, size_t degree) {
    for (size_t k = 0; k + degree < j->count; k++)
        if (acted(j, f, degree, k) != 0) return false;
    return true;
}

bool annihilates_period(const job *j, const uint8_t *f, size_t degree) {
    for (size_t k = 0; k < j->count; k++)
        if (acted(j, f, degree, k) != 0) return false;
    return true;
}

// ---- the ways

static void free_random(const char *family, uint32_t p, size_t n) {
    job *j = add(family, FREE, p);
    j->count = n;
    random_terms(j, 0, n);
    snprintf(j->name, sizeof j->name, "free way, %s random terms, GF(%u)", grouped(n), p);
}

// the same over GF(2^n)
static void free_binary(const char *family, uint32_t n, uint32_t low, size_t count) {
    job *j = add(family, FREE, 1u << n);
    j->binary = n;
    j->low = low;
    j->count = count;
    random_terms(j, 0, count);
    snprintf(j->name, sizeof j->name, "free way, %s random terms, GF(2^%u)", grouped(count), n);
}

static void free_beside(const char *family, uint32_t p, size_t n) {
    free_random(family, p, n);
    job *j = &list[listed - 1];
    j->beside = true;
    snprintf(j->name, sizeof j->name, "free way, %s random terms, GF(%u), beside GF(2^8)", grouped(n), p);
}

static void free_register(const char *family, uint32_t p, size_t n, size_t degree) {
    job *j = add(family, FREE, p);
    uint8_t f[4097];
    j->count = n;
    f[0] = 1 + below(p - 1);
    for (size_t i = 1; i < degree; i++) f[i] = below(p);
    random_terms(j, 0, degree);
    continue_terms(j, f, degree, degree);
    snprintf(j->name, sizeof j->name, "free way, %s terms of a register of degree %s, GF(%u)", grouped(n),
             grouped(degree), p);
}

// Several polynomials fit: the last term of a register is changed.
static void free_changed(const char *family, uint32_t p, size_t n, size_t degree) {
    free_register(family, p, n, degree);
    job *j = &list[listed - 1];
    j->terms[n - 1] = (j->terms[n - 1] + 1) % p;
    snprintf(j->name, sizeof j->name, "free way, %s terms of a register of degree %s, the last changed, GF(%u)",
             grouped(n), grouped(degree), p);
}

static void free_digits(const char *terms) {
    job *j = add("few terms", FREE, 2);
    j->compared = true;
    j->count = strlen(terms);
    for (size_t i = 0; i < j->count; i++) j->terms[i] = terms[i] - '0';
    snprintf(j->name, sizeof j->name, "free way, the terms %s, GF(2)", terms);
}

// A period of n terms whose least power of x − 1 is r: differences of q random terms with a sum other than 0, which
// have the power q of p, are repeated.
static void period(const char *family, uint32_t p, const char *shown, size_t n, size_t q, size_t r) {
    job *j = add(family, PERIOD, p);
    uint32_t sum = 0;
    add_factor(j, (uint8_t[]){p - 1, 1}, 1, 0);
    j->count = n;
    random_terms(j, 0, q);
    for (size_t i = 0; i < q; i++) sum += j->terms[i];
    if (sum % p == 0) j->terms[0] = (j->terms[0] + 1) % p;
    for (size_t k = q; k > r; k--) {
        uint8_t first = j->terms[0];
        for (size_t i = 0; i < q; i++)
            j->terms[i] = ((i + 1 < q ? j->terms[i + 1] : first) + p - j->terms[i]) % p;
    }
    for (size_t i = q; i < n; i++) j->terms[i] = j->terms[i - q];
    snprintf(j->name, sizeof j->name, "period of %s terms, (%s)^%s over GF(%u)", grouped(n), shown, grouped(r), p);
}

// a set of one factor, f to the power v, with n terms that are random as far as they may be
static void one_factor(const char *family, uint32_t p, const char *shown, const uint8_t *f, size_t d, uint64_t v,
                       size_t n) {
    job *j = add(family, SET, p);
    uint8_t all[4097];
    add_factor(j, f, d, v);
    j->count = n;
    random_terms(j, 0, d * v);
    continue_terms(j, all, product_of_powers(j, all), d * v);
    snprintf(j->name, sizeof j->name, "set of one factor, %s terms, (%s)^%s over GF(%u)", grouped(n), shown, grouped(v),
             p);
}

static void binary_set(void) {
    static const struct {
        uint8_t f[6], d;
        uint16_t upper;
    } parts[8] = {{{1, 1}, 1, 512},          {{1, 1, 1}, 2, 256},       {{1, 1, 0, 1}, 3, 171},
                  {{1, 0, 1, 1}, 3, 171},    {{1, 1, 0, 0, 1}, 4, 128}, {{1, 0, 0, 1, 1}, 4, 128},
                  {{1, 1, 1, 1, 1}, 4, 128}, {{1, 0, 1, 0, 0, 1}, 5, 102}};
    job *j = add("set", SET, 2);
    for (int i = 0; i < 8; i++) add_factor(j, parts[i].f, parts[i].d, parts[i].upper);
    j->count = 4096;
    random_terms(j, 0, 4096);
    snprintf(j->name, sizeof j->name, "set of eight factors of degrees 1 to 5, 4,096 terms, GF(2)");
}

static void linear_set(uint32_t p) {
    job *j = add("set", SET, p);
    for (uint32_t a = 1; a <= 8; a++) add_factor(j, (uint8_t[]){p - a, 1}, 1, 512);
    j->count = 4096;
    random_terms(j, 0, 4096);
    snprintf(j->name, sizeof j->name, "set of eight factors of degree 1, powers 512, 4,096 terms, GF(%u)", p);
}

static void random_irreducible(uint32_t p, uint8_t *f, size_t degree) {
    f[degree] = 1;
    do {
        for (size_t i = 0; i < degree; i++) f[i] = below(p);
    } while (!c_irreducible_ben_or(p, f, degree));
}

// one random factor of this degree to the power v, with n terms
static void random_factor(const char *family, uint32_t p, size_t degree, uint64_t v, size_t n) {
    uint8_t f[33];
    char shown[32];
    random_irreducible(p, f, degree);
    snprintf(shown, sizeof shown, "f of degree %zu", degree);
    one_factor(family, p, shown, f, degree, v, n);
}

// eight of them, and as many terms as their total degree
static void random_set(const char *family, uint32_t p, size_t degree, uint64_t v) {
    job *j = add(family, SET, p);
    for (int i = 0; i < 8; i++) {
        uint8_t f[33];
        bool again;
        do {
            random_irreducible(p, f, degree);
            again = false;
            for (int k = 0; k < i; k++) again |= memcmp(j->coefficients + k * (degree + 1), f, degree + 1) == 0;
        } while (again);
        add_factor(j, f, degree, v);
    }
    j->count = 8 * degree * v;
    random_terms(j, 0, j->count);
    snprintf(j->name, sizeof j->name, "set of eight factors of degree %zu, powers %zu, %s terms, GF(%u)", degree,
             (size_t)v, grouped(j->count), p);
}

// The last job, of D terms, again with one more, as the product of the upper powers continues those before; its name says
// so, since another job may have as many terms.
static void one_more(void) {
    const job *last = &list[listed - 1];
    job *j = add(last->family, SET, last->p);
    *j = *last;
    uint8_t all[4097];
    j->count++;
    continue_terms(j, all, product_of_powers(j, all), last->count);
    char name[sizeof last->name];
    memcpy(name, last->name, sizeof name);
    char *number = strstr(name, grouped(last->count)), *rest = number + strlen(grouped(last->count));
    snprintf(j->name, sizeof j->name, "%.*sD + 1 = %s%s", (int)(number - name), name, grouped(j->count), rest);
}

// an irreducible polynomial, so that no common divisor ends the test
static void irreducibility(uint32_t p, size_t degree) {
    job *j = add("irreducible", IRREDUCIBLE, p);
    uint8_t f[33];
    random_irreducible(p, f, degree);
    add_factor(j, f, degree, 0);
    snprintf(j->name, sizeof j->name, "irreducible or not, degree %zu over GF(%u)", degree, p);
}

// 4,096 terms of a register, from its random starting terms
static void continuation(uint32_t p, size_t degree) {
    job *j = add("continuation", CONTINUE, p);
    j->count = 4096;
    j->degree = degree;
    j->polynomial[0] = 1 + below(p - 1);
    for (size_t i = 1; i < degree; i++) j->polynomial[i] = below(p);
    j->polynomial[degree] = 1;
    random_terms(j, 0, degree);
    snprintf(j->name, sizeof j->name, "continuation to 4,096 terms, degree %zu over GF(%u)", degree, p);
}

static const size_t sizes[4] = {512, 1024, 2048, 4096};

static void fill(void) {
    static const struct {
        uint32_t p;
        const char *random, *of_register;
    } fields[3] = {{2, "free way, random, GF(2)", "free way, register, GF(2)"},
                   {3, "free way, random, GF(3)", "free way, register, GF(3)"},
                   {251, "free way, random, GF(251)", "free way, register, GF(251)"}};
    static const uint8_t f[4] = {1, 1, 0, 1};
    static const uint64_t uppers[4] = {170, 341, 682, 1365};
    static const size_t binary[4] = {9, 17, 33, 63}, ternary[4] = {7, 13, 26, 50};
    for (int i = 0; i < 3; i++) {
        for (int k = 0; k < 4; k++) free_random(fields[i].random, fields[i].p, sizes[k]);
        for (int k = 0; k < 4; k++) free_register(fields[i].of_register, fields[i].p, sizes[k], sizes[k] * 1000 / 4096);
    }
    for (int k = 0; k < 4; k++) free_binary("free way, random, GF(2^2)", 2, 3, sizes[k]);
    for (int k = 0; k < 4; k++) free_binary("free way, random, GF(2^8)", 8, 27, sizes[k]);
    free_beside("free way, random, GF(2^8)", 251, 4096);
    for (int k = 0; k < 4; k++) one_factor("one factor, all powers", 2, "x^3+x+1", f, 3, uppers[k], sizes[k]);
    for (int k = 0; k < 4; k++) one_factor("one factor, powers up to 170", 2, "x^3+x+1", f, 3, 170, sizes[k]);
    for (int k = 0; k < 4; k++) period("period, GF(2)", 2, "x+1", sizes[k], sizes[k], sizes[k] - 1);
    for (int k = 0; k < 4; k++) period("period, GF(2), powers up to 64", 2, "x+1", 64 * binary[k], 64, 63);
    period("period, GF(3)", 3, "x+2", 729, 729, 728);
    period("period, GF(3)", 3, "x+2", 2187, 2187, 2186);
    for (int k = 0; k < 4; k++) period("period, GF(3), powers up to 81", 3, "x+2", 81 * ternary[k], 81, 80);
    period("period, GF(251)", 251, "x+250", 251, 251, 251);
    for (size_t k = 1; k <= 16; k *= 2) period("period, GF(251), powers up to 251", 251, "x+250", 251 * k, 251, 250);
    binary_set();
    linear_set(251);
    static const struct {
        uint32_t p;
        size_t degree;
    } large[5] = {{2, 32}, {3, 21}, {7, 11}, {13, 9}, {251, 5}};
    for (int k = 0; k < 5; k++)
        random_factor("one factor, large degree", large[k].p, large[k].degree, 4096 / large[k].degree, 4096);
    for (int k = 0; k < 5; k++)
        random_set("set, large degrees", large[k].p, large[k].degree, 4096 / (8 * large[k].degree));
    irreducibility(2, 32);
    irreducibility(3, 21);
    irreducibility(5, 13);
    irreducibility(7, 11);
    irreducibility(251, 5);
    for (size_t degree = 8; degree <= 512; degree *= 8) {
        continuation(2, degree);
        continuation(251, degree);
    }
    free_digits("10");
    free_digits("01");
    free_digits("001");
    free_digits("1000");
    free_changed("free way, several fit, GF(2)", 2, 4096, 1024);
    free_changed("free way, several fit, GF(3)", 3, 4096, 1024);
    free_changed("free way, several fit, GF(251)", 251, 4096, 1024);
    // exactly as many terms as the total degree D, which the upper powers annihilate as none is left, and one more
    one_factor("one factor, D terms or D + 1", 2, "x^3+x+1", f, 3, 1365, 4095);
    one_more();
    random_factor("one factor, D terms or D + 1", 2, 32, 127, 4064);
    one_more();
    // powers with large digits: 2^10 - 1, 3^6 - 1, 13^3 - 1, 4 * 251 + 250, 2 * 251 + 250
    one_factor("one factor, large digits", 2, "x^3+x+1", f, 3, 1023, 4096);
    random_factor("one factor, large digits", 3, 5, 728, 4096);
    random_factor("one factor, large digits", 13, 1, 2196, 4096);
    random_factor("one factor, large digits", 251, 3, 1254, 4096);
    random_factor("one factor, large digits", 251, 5, 752, 3760);
    random_set("set, large digits", 2, 8, 63);
    one_more();
    random_set("set, large digits", 3, 6, 80);
    random_set("set, large digits", 13, 3, 168);
    random_set("set, large digits", 251, 1, 250);
    random_set("set, large digits", 251, 3, 170);
    one_more();
}

const job *all_jobs(size_t *count) {
    if (listed == 0) fill();
    *count = listed;
    return list;
}
