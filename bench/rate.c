// The rating program in C, for a comparison of whole processes: reads one route file on standard input and prints what
// the rating program prints. VERSION chooses the calls, as in ways.c.
#include "calls.h"
#include <stdio.h>
#include <string.h>

#define JOINED(a, b) a##_##b
#define NAMED(a, b) JOINED(a, b)
#define CALL(name) NAMED(VERSION, name)

#define LONGEST 16384

static uint8_t file[LONGEST + 1], terms[LONGEST], answer[4097], work[8192], factors[8 * 34];
static size_t size, count, factor_count, factor_bytes;
static uint64_t lengths[8], uppers[8], powers[8], degree, repeat;
static uint8_t p, mode, unique;

// A factor's record as a list: one that the call turns down by 10 or 11 where the record is to be.
static void take_factor(const uint8_t *body) {
    size_t d = body[0] < 33 ? body[0] : 33;
    uint8_t *f = factors + factor_bytes;
    if (factor_count == 8) return;
    memset(f, 0, d + 1);
    memcpy(f, body + 3, d < 32 ? d : 32);
    f[d] = 1;
    for (size_t i = d; i < 32; i++)
        if (body[3 + i] != 0) f[d] = 0;
    lengths[factor_count] = d + 1;
    uppers[factor_count] = body[1] << 8 | body[2];
    factor_bytes += d + 1;
}

// 1 to 5, and what the records hold
static uint64_t read_records(void) {
    static const uint8_t bodies[9] = {0, 4, 1, 1, 35, 64, 1, 8, 0};
    size_t at = 0;
    int last = 0;
    if (size > LONGEST) return 1;
    while (1) {
        if (at == size) {
            if (last != 8) return 3;
            break;
        }
        int kind = file[at++];
        if (kind < 1 || kind > 8) return 2;
        if (size - at < bodies[kind]) return 3;
        const uint8_t *body = file + at;
        at += bodies[kind];
        int order = kind == 6 ? 5 : kind;
        if (last == 8 || (kind == 7 && last == 0)) return 4;
        if (kind == 7) continue;
        bool next = order == last + 1 || (order == last && last >= 4) || (order >= 4 && last >= 3 && order > last);
        if (!next) return 4;
        last = order;
        if (kind == 2) p = body[0];
        if (kind == 3) mode = body[0];
        if (kind == 4) {
            take_factor(body);
            factor_count++;
        }
        if (order == 5) {
            memcpy(terms + count, body, bodies[kind]);
            count += bodies[kind];
        }
    }
    if (mode == 1) return factor_count == 1 && uppers[0] == 0 ? 0 : 5;
    if (mode == 2) return factor_count >= 1 && factor_count <= 8 ? 0 : 5;
    return mode == 3 && factor_count == 0 ? 0 : 5;
}

static uint64_t rate(void) {
    uint64_t refusal = read_records();
    if (refusal != 0) return refusal;
    switch (mode) {
    case 1:
        return CALL(rate_period)(p, factors, factor_bytes, terms, count, answer, sizeof answer, work, sizeof work,
                                 powers, &degree, &repeat);
    case 2:
        return CALL(rate_with_factors)(p, factors, factor_bytes, (const uint8_t *)lengths, 8 * factor_count,
                                       (const uint8_t *)uppers, 8 * factor_count, terms, count, answer,
                                       sizeof answer, work, sizeof work, (uint8_t *)powers, sizeof powers, &degree,
                                       &repeat);
    default:
        return CALL(rate_free)(p, terms, count, answer, sizeof answer, work, sizeof work, &degree, &unique);
    }
}

// ---- what is printed stands in a buffer first: a coefficient takes four characters at most

static char output[4097 * 4 + 512];
static size_t written;

static void put(const char *text) {
    while (*text != 0) output[written++] = *text++;
}

static void put_number(uint64_t n) {
    char digits[20];
    int at = 20;
    do digits[--at] = '0' + n % 10;
    while ((n /= 10) > 0);
    memcpy(output + written, digits + at, 20 - at);
    written += 20 - at;
}

static void put_rating(void) {
    put(" ok ");
    put_number(degree);
    put("/");
    put_number(mode == 1 ? repeat : count);
    put(" ");
    if (mode == 3) put(unique ? "one" : "some");
    for (size_t i = 0; i < factor_count; i++) {
        if (i > 0) put(",");
        put_number(powers[i]);
    }
    put("\npoly");
    for (size_t i = 0; i <= degree; i++) {
        output[written++] = ' ';
        if (answer[i] < 10) output[written++] = '0' + answer[i];
        else put_number(answer[i]);
    }
    put("\n");
}

int main(void) {
    size = fread(file, 1, sizeof file, stdin);
    unsigned box = size >= 5 && size <= LONGEST && file[0] == 1
                       ? (unsigned)file[1] << 24 | file[2] << 16 | file[3] << 8 | file[4]
                       : 0;
    uint64_t refusal = rate();
    put("box result density powers\n");
    put_number(box);
    if (refusal == 0) {
        put_rating();
    } else {
        put(" refused ");
        put_number(refusal);
        put("\n");
    }
    return fwrite(output, 1, written, stdout) == written && fflush(stdout) == 0 ? 0 : 3;
}
