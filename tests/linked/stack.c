#define _XOPEN_SOURCE 600 /* for ucontext.h */

#include "stack.h"
#include "judging.h"
#include "octets.h"

#include <stdint.h>
#include <stdlib.h>
#include <string.h>
#include <ucontext.h>

enum { WHOLE = 1 << 17, MOST = 1 << 15 };

void judge_stack(unsigned line, void (*run)(void)) {
    static uint8_t stack[WHOLE];
    static ucontext_t own, back;
    memset(stack, FILL, sizeof stack);
    if (getcontext(&own) != 0) exit(2);
    own.uc_stack.ss_sp = stack;
    own.uc_stack.ss_size = sizeof stack;
    own.uc_link = &back;
    makecontext(&own, run, 0);
    if (swapcontext(&back, &own) != 0) exit(2);
    judge(line, "the stack", untouched(stack, WHOLE - MOST));
}
