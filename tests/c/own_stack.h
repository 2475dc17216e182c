/*
 * The bytes of the stack that a call touches: it is made on a stack of its own that was painted before.
 * It stands before all other headers, as ucontext.h asks, and calls neither memcpy nor anything that might, as test_first_call.c needs.
 */
#ifndef OWN_STACK_H
#define OWN_STACK_H

#ifndef _XOPEN_SOURCE
#define _XOPEN_SOURCE 700 /* for ucontext.h */
#endif
#include <stddef.h>
#include <stdint.h>
#include <ucontext.h>

#define PROMISED 8192 /* bytes, by include/lanyardrove.h */
#define PAINT 0x5C

static uint8_t own_stack[8 * PROMISED];
static ucontext_t here, there;

/* From the first byte to the deepest. */
static size_t touched_by(void (*call)(void)) {
    volatile uint8_t *byte = own_stack;
    size_t deepest = 0;
    for (; deepest < sizeof own_stack; deepest++) byte[deepest] = PAINT;
    getcontext(&there);
    there.uc_stack.ss_sp = own_stack;
    there.uc_stack.ss_size = sizeof own_stack;
    there.uc_link = &here;
    makecontext(&there, call, 0);
    swapcontext(&here, &there);
    for (deepest = 0; deepest < sizeof own_stack && byte[deepest] == PAINT;) deepest++;
    return sizeof own_stack - deepest;
}

#endif
