// Whole processes in alternation: process ROUNDS FILE NAME=PROGRAM.. runs each program with the file on its standard
// input, holds their outputs to that of the first, and writes a line for each run with the time of the process by the
// system's account, its start included: process NAME ROUND NANOSECONDS.
#define _GNU_SOURCE
#include <fcntl.h>
#include <stdio.h>
#include <stdlib.h>
#include <string.h>
#include <sys/resource.h>
#include <sys/wait.h>
#include <unistd.h>

#define MOST 65536

static void fail(const char *what) {
    perror(what);
    exit(1);
}

static double run(const char *program, const char *file, char *output, size_t *length) {
    int ends[2];
    if (pipe(ends) != 0) fail("pipe");
    pid_t child = vfork();
    if (child < 0) fail("vfork");
    if (child == 0) {
        int from = open(file, O_RDONLY);
        if (from < 0 || dup2(from, 0) < 0 || dup2(ends[1], 1) < 0) _exit(127);
        close(ends[0]);
        close(ends[1]);
        execl(program, program, (char *)NULL);
        _exit(127);
    }
    close(ends[1]);
    ssize_t n;
    *length = 0;
    while (*length < MOST && (n = read(ends[0], output + *length, MOST - *length)) > 0) *length += n;
    close(ends[0]);
    struct rusage used;
    int status;
    if (wait4(child, &status, 0, &used) != child || status != 0) {
        fprintf(stderr, "%s ended with status %d\n", program, status);
        exit(1);
    }
    return (used.ru_utime.tv_sec + used.ru_stime.tv_sec) * 1e9 + (used.ru_utime.tv_usec + used.ru_stime.tv_usec) * 1e3;
}

int main(int argc, char **argv) {
    static char first[MOST], output[MOST];
    size_t first_length = 0, length;
    if (argc < 4) return 2;
    int rounds = atoi(argv[1]);
    for (int round = -2; round < rounds; round++)
        for (int i = 3; i < argc; i++) {
            char *program = strchr(argv[i], '=') + 1;
            double t = run(program, argv[2], output, &length);
            if (i == 3 && round == -2) {
                memcpy(first, output, length);
                first_length = length;
            }
            if (length != first_length || memcmp(first, output, length) != 0) {
                fprintf(stderr, "%s: its output differs from that of the first program\n", argv[i]);
                return 1;
            }
            if (round >= 0) printf("process\t%.*s\t%d\t%.0f\n", (int)(program - 1 - argv[i]), argv[i], round, t);
        }
    return 0;
}
