// Runs every job by all contestants in alternation, compares their answers, and writes a line for each of what was
// found, fields separated by tabs:
//   job NUMBER WAY P TERMS FAMILY NAME      time NUMBER CONTESTANT ROUND NANOSECONDS
//   answer NUMBER CONTESTANT VERDICT WORDS  stack CALL BYTES
// With --terms NUMBER it prints the input of a job instead, and with --route NUMBER its route file.
#include "gobashe.h"
#include "jobs.h"
#include <stdio.h>
#include <stdlib.h>
#include <string.h>
#include <time.h>

static const contestant *const contestants[] = {
    &rater, &plain, &bytes, &best, &profile,
#ifdef WITH_BEFORE
    &before,
#endif
#ifdef WITH_NTL
    &ntl, &ntl_twice,
#endif
#ifdef WITH_FLINT
    &flint, &flint_twice,
#endif
#ifdef WITH_PARI
    &pari, &pari_twice,
#endif
};
#define MEMBERS 8
#define CONTESTANTS (sizeof contestants / sizeof contestants[0])

// ---- time: that of this thread, so that what others do on the same core is not counted

static double now(void) {
    struct timespec t;
    clock_gettime(CLOCK_THREAD_CPUTIME_ID, &t);
    return t.tv_sec * 1e9 + t.tv_nsec;
}

static double batch(const contestant *c, void *task, long times) {
    double begun = now();
    for (long k = 0; k < times; k++) c->run(task);
    return (now() - begun) / times;
}

// So many calls that they take this long together, found by doubling, which warms up as well, and no more rounds than
// take `LONGEST` together, but one.
#define BATCH 4e5
#define LONGEST 6e7
static int plan(const contestant *c, void *task, int rounds, long *times) {
    double taken;
    for (*times = 1; (taken = batch(c, task, *times) * *times) < BATCH / 2 && *times < 1 << 20;) *times *= 2;
    if (taken < BATCH) {
        *times *= 2;
        taken *= 2;
    }
    double most = LONGEST / taken;
    return most >= rounds ? rounds : most < 1 ? 1 : (int)most;
}

// ---- answers

static const char *verdict(const job *j, const answer *ours, const answer *theirs, char *words, size_t room) {
    words[0] = 0;
    if (j->way == IRREDUCIBLE) {
        if (ours->status == theirs->status && ours->yes == theirs->yes) return "same";
        snprintf(words, room, "%s", theirs->yes ? "irreducible" : "reducible");
        return "different";
    }
    if (j->way == CONTINUE) return "same"; // held to the last term by `hold`
    if (theirs->status != ours->status) {
        snprintf(words, room, "status %d", (int)theirs->status);
        return "different";
    }
    bool fits = j->way == PERIOD ? annihilates_period(j, theirs->polynomial, theirs->degree)
                                 : annihilates(j, theirs->polynomial, theirs->degree);
    if (theirs->degree == ours->degree && memcmp(theirs->polynomial, ours->polynomial, ours->degree + 1) == 0)
        return fits ? "same" : "wrong";
    if (theirs->degree == ours->degree && fits && j->way == FREE && 2 * ours->degree > j->count) return "other";
    int n = snprintf(words, room, "degree %zu, ours has %zu", theirs->degree, ours->degree);
    if (theirs->degree < 9) {
        n += snprintf(words + n, room - n, ": coefficients");
        for (size_t i = 0; i <= theirs->degree; i++) n += snprintf(words + n, room - n, " %d", theirs->polynomial[i]);
    }
    snprintf(words + n, room - n, "; it %s the terms", fits ? "annihilates" : "does not annihilate");
    return "different";
}

static bool is_before(const contestant *c) {
#ifdef WITH_BEFORE
    return c == &before;
#else
    (void)c;
    return false;
#endif
}

// those with the calls of the rater
static bool same_calls(const contestant *c) {
    return is_before(c) || c == &plain || c == &bytes || c == &best || c == &profile;
}

// The C versions must agree with the rater to the last number, and the last entry of the profile in its figures. An earlier
// tree may have a bound in place of the exact repeat length, which is not compared.
static void hold(const job *j, const contestant *c, const answer *ours, const answer *theirs) {
    bool same = ours->status == theirs->status && ours->degree == theirs->degree && ours->unique == theirs->unique &&
                memcmp(ours->powers, theirs->powers, sizeof ours->powers) == 0;
    if (!is_before(c)) same = same && ours->repeat == theirs->repeat;
    if (c != &profile && j->way != IRREDUCIBLE && ours->status == 0)
        same = same && memcmp(ours->polynomial, theirs->polynomial, ours->degree + 1) == 0;
    if (same) return;
    fprintf(stderr, "%s: %s and the rater differ\n", j->name, c->name);
    exit(1);
}

// ---- one job

static const char *const ways[] = {"free", "period", "set", "irreducible", "continue"};

// A job and its contestants: tasks, calls in a batch, and rounds to take part in.
typedef struct {
    void *task[CONTESTANTS];
    long times[CONTESTANTS];
    int rounds[CONTESTANTS];
} state;

static void begin(const job *j, size_t number, int rounds, state *s) {
    static answer ours, theirs;
    printf("job\t%zu\t%s\t%u\t%zu\t%s\t%s\n", number, ways[j->way], j->p, j->count, j->family, j->name);
    for (size_t i = 0; i < CONTESTANTS; i++) {
        const contestant *c = contestants[i];
        char words[200];
        void *task = s->task[i] = c->prepare(j);
        s->rounds[i] = 0;
        if (task == NULL) continue;
        memset(&theirs, 0, sizeof theirs);
        c->run(task);
        c->tell(task, &theirs);
        if (i == 0) ours = theirs;
        if (same_calls(c)) hold(j, c, &ours, &theirs);
        words[0] = 0;
        const char *found = c == &profile ? "same" : verdict(j, &ours, &theirs, words, sizeof words);
        printf("answer\t%zu\t%s\t%s\t%s\n", number, c->name, found, words);
        if (j->compared) continue;
        s->rounds[i] = plan(c, task, rounds, &s->times[i]);
    }
}

// the jobs of one family take turns too, so that what happens on the machine meets all of them alike
static void measure(const job *jobs, size_t first, size_t count, int rounds) {
    state states[MEMBERS];
    for (size_t k = 0; k < count; k++) begin(&jobs[first + k], first + k, rounds, &states[k]);
    for (int round = 0; round < rounds; round++)
        for (size_t k = 0; k < count; k++)
            for (size_t i = 0; i < CONTESTANTS; i++)
                if (round < states[k].rounds[i])
                    printf("time\t%zu\t%s\t%d\t%.1f\n", first + k, contestants[i]->name, round,
                           batch(contestants[i], states[k].task[i], states[k].times[i]));
    for (size_t k = 0; k < count; k++)
        for (size_t i = 0; i < CONTESTANTS; i++)
            if (states[k].task[i] != NULL) contestants[i]->finish(states[k].task[i]);
}

// ---- the stack of each call, on its largest job

// a register of degree 2,048 that fills 4,096 bytes
static void continues(void *nothing) {
    static uint8_t f[2049] = {1}, start[2048] = {1}, buffer[4096];
    (void)nothing;
    f[2048] = 1;
    if (gobashe_continue_sequence(gobashe_prime(251), f, sizeof f, start, sizeof start, buffer, sizeof buffer, 0) != 0)
        exit(1);
}

static void stacks(const job *jobs, size_t count) {
    static const struct {
        const char *call;
        enum way way;
        size_t least, most; // factors
    } calls[] = {{"gobashe_rate_free", FREE, 0, 0},
                 {"gobashe_rate_period", PERIOD, 1, 1},
                 {"gobashe_rate_set, one factor", SET, 1, 1},
                 {"gobashe_rate_set, eight factors", SET, 2, 8},
                 {"gobashe_is_irreducible", IRREDUCIBLE, 1, 1}};
    for (size_t k = 0; k < sizeof calls / sizeof calls[0]; k++) {
        size_t most = 0;
        for (size_t i = 0; i < count; i++) {
            if (jobs[i].way != calls[k].way || jobs[i].factors < calls[k].least || jobs[i].factors > calls[k].most)
                continue;
            void *task = rater.prepare(&jobs[i]);
            size_t used = stack_used(rater.run, task);
            if (used > most) most = used;
            rater.finish(task);
        }
        printf("stack\t%s\t%zu\n", calls[k].call, most);
    }
    for (size_t i = 0; i < count; i++) {
        void *task = profile.prepare(&jobs[i]);
        if (task == NULL) continue;
        printf("stack\tgobashe_profile\t%zu\n", stack_used(profile.run, task));
        profile.finish(task);
        break;
    }
    printf("stack\tgobashe_continue_sequence\t%zu\n", stack_used(continues, NULL));
}

static void show(const job *j) {
    printf("%s\n", j->name);
    if (j->binary != 0) printf("n %u, low %u\n", j->binary, j->low);
    else printf("p %u\n", j->p);
    for (size_t i = 0, at = 0; i < j->factors; at += j->lengths[i++]) {
        printf("factor");
        for (size_t k = 0; k < j->lengths[i]; k++) printf(" %d", j->coefficients[at + k]);
        printf("  upper power %d\n", (int)j->uppers[i]);
    }
    printf("terms");
    for (size_t i = 0; i < j->count; i++) printf(" %d", j->terms[i]);
    printf("\n");
}

// box 7, field, mode, factors, terms, end
static void route(const job *j) {
    static const uint8_t modes[] = {3, 1, 2};
    uint8_t box[] = {1, 0, 0, 0, 7}, prime[] = {2, j->p}, binary[] = {9, j->binary, j->low};
    uint8_t mode[] = {3, modes[j->way]};
    fwrite(box, 1, sizeof box, stdout);
    if (j->binary != 0) fwrite(binary, 1, sizeof binary, stdout);
    else fwrite(prime, 1, sizeof prime, stdout);
    fwrite(mode, 1, sizeof mode, stdout);
    for (size_t i = 0, at = 0; i < j->factors; at += j->lengths[i++]) {
        uint8_t record[36] = {4, j->lengths[i] - 1, j->uppers[i] >> 8, j->uppers[i] & 255};
        memcpy(record + 4, j->coefficients + at, j->lengths[i] - 1);
        fwrite(record, 1, sizeof record, stdout);
    }
    size_t at = 0;
    for (; at + 64 <= j->count; at += 64) {
        putchar(5);
        fwrite(j->terms + at, 1, 64, stdout);
    }
    for (; at < j->count; at++) {
        putchar(6);
        putchar(j->terms[at]);
    }
    putchar(8);
}

int main(int argc, char **argv) {
    size_t count;
    const job *jobs = all_jobs(&count);
    int rounds = 15;
    const char *only = "";
    for (int i = 1; i + 1 < argc; i += 2) {
        size_t number = strtoul(argv[i + 1], NULL, 10);
        if (strcmp(argv[i], "--rounds") == 0) rounds = number;
        if (strcmp(argv[i], "--only") == 0) only = argv[i + 1];
        if (strcmp(argv[i], "--terms") == 0 && number < count) {
            show(&jobs[number]);
            return 0;
        }
        if (strcmp(argv[i], "--route") == 0 && number < count && jobs[number].way < IRREDUCIBLE) {
            route(&jobs[number]);
            return 0;
        }
    }
    for (size_t i = 0, n; i < count; i += n) {
        n = 1;
        while (i + n < count && n < MEMBERS && strcmp(jobs[i + n].family, jobs[i].family) == 0) n++;
        if (strstr(jobs[i].family, only) != NULL) measure(jobs, i, n, rounds);
    }
    if (only[0] == 0) stacks(jobs, count);
    return 0;
}
