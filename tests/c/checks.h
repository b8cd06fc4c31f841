/* What test.c and sheets.c share: checks that are counted, and the stack that a call needs. */
#ifndef CHECKS_H
#define CHECKS_H

#include <stdio.h>
#include <string.h>

#include "lent.h"
#include "onstack.h"

static unsigned checks, failed;

static void check(int good, const char *what, unsigned number)
{
    checks++;
    if (good)
        return;
    failed++;
    if (failed <= 20)
        printf("differs: %s (%u)\n", what, number);
}

/* ---- the stack that a call needs: each is made on a stack of its own, painted before; what is no longer paint was used */

enum { STACK = 32768, PAINT = 0x5A };

static uint8_t painted[STACK] __attribute__((aligned(64)));
static size_t deepest;

static void on_painted_stack(void (*call)(void))
{
    memset(painted, PAINT, sizeof painted);
    call_on(painted + sizeof painted, call);
    size_t free = 0;
    while (free < sizeof painted && painted[free] == PAINT)
        free++;
    if (sizeof painted - free > deepest)
        deepest = sizeof painted - free;
}

#endif
