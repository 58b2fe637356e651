/* How much stack a call takes: it runs on a stack of its own, which was filled before. */
#ifndef STACK_H
#define STACK_H
#include <stdint.h>
#include <string.h>
#include <ucontext.h>

enum { STACK = 1 << 17, FILLED = 0xa5 };

static uint8_t stack[STACK] __attribute__((aligned(64)));

static size_t depth_of(void (*call)(void)) {
    ucontext_t here, there;
    memset(stack, FILLED, sizeof stack);
    getcontext(&there);
    there.uc_stack.ss_sp = stack;
    there.uc_stack.ss_size = sizeof stack;
    there.uc_link = &here;
    makecontext(&there, call, 0);
    swapcontext(&here, &there);
    size_t left = 0;
    while (left < sizeof stack && stack[left] == FILLED) left++;
    return sizeof stack - left;
}
#endif
