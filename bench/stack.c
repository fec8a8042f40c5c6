// How much stack a call uses: it runs on a stack of its own that was painted before.
#define _GNU_SOURCE
#include "jobs.h"
#include <string.h>
#include <ucontext.h>

#define SIZE (1 << 20)
#define PAINT 0xA5

static uint8_t own[SIZE] __attribute__((aligned(64)));
static ucontext_t here, there;
static void (*to_call)(void *);
static void *to_pass;

static void body(void) { to_call(to_pass); }

static void nothing(void *argument) { (void)argument; }

static size_t painted_over(void (*call)(void *), void *argument) {
    memset(own, PAINT, SIZE);
    to_call = call;
    to_pass = argument;
    getcontext(&there);
    there.uc_stack.ss_sp = own;
    there.uc_stack.ss_size = SIZE;
    there.uc_link = &here;
    makecontext(&there, body, 0);
    swapcontext(&here, &there);
    size_t left = 0;
    while (left < SIZE && own[left] == PAINT) left++;
    return SIZE - left;
}

size_t stack_used(void (*call)(void *), void *argument) {
    return painted_over(call, argument) - painted_over(nothing, NULL);
}
