/* How much of the stack calls take. */
#ifndef STACK_H
#define STACK_H

/* Runs a function on a stack of its own, and judges, as of this line, whether it took no more of it than rpki.h says of
 * a call. */
void judge_stack(unsigned line, void (*run)(void));

#endif
