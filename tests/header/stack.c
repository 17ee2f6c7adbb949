/*
 * Holds what the header says of the stack that the calls of a book need: each runs on a stack of its own, filled with one byte, and the
 * bytes that it has changed are counted. It is for Linux.
 */
#define _XOPEN_SOURCE 600
#include <stdio.h>
#include <string.h>
#include <ucontext.h>
#include "l1oc.h"

enum {
    STACK = 65536,
    MOST = 1024, /* as the header says */
    FILLED = 0xa5
};

static unsigned char stack[STACK];
static ucontext_t outside;
static ucontext_t inside;

static struct l1oc_book book;
static struct l1oc_record record;
static uint64_t answered;

static void nothing(void)
{
}

static void offer(void)
{
    answered = l1oc_offer(&book, record).number;
}

static void look_up(void)
{
    answered = l1oc_entry(&book, record.satellite).held;
}

/* The bytes of the stack that a function takes. */
static size_t taken_by(void (*function)(void))
{
    size_t unchanged = 0;

    memset(stack, FILLED, STACK);
    getcontext(&inside);
    inside.uc_stack.ss_sp = stack;
    inside.uc_stack.ss_size = STACK;
    inside.uc_link = &outside;
    makecontext(&inside, function, 0);
    swapcontext(&outside, &inside);
    while (unchanged < STACK && stack[unchanged] == FILLED) {
        unchanged++;
    }
    return STACK - unchanged;
}

/* Prints what a call takes, and whether that is as the header says. */
static int holds(const char *name, void (*function)(void), uint64_t wanted)
{
    size_t bytes = taken_by(function) - taken_by(nothing);

    printf("stack: %s takes %zu bytes\n", name, bytes);
    return answered == wanted && bytes <= MOST;
}

int main(void)
{
    int all = 1;

    record.kind = 20;
    record.satellite = 24;
    record.numbers[13 - 10] = 1461;
    all &= holds("an offer that is taken", offer, 0);
    all &= holds("one that is passed over", offer, 0);
    all &= holds("looking up", look_up, 1);
    record.minus = 1;
    all &= holds("an offer that is refused", offer, L1OC_MINUS_ZERO);
    return all ? 0 : 1;
}
