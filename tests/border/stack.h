/* How many bytes of stack a call touches. */
#ifndef STACK_H
#define STACK_H

#include <stddef.h>

/* The call is made from a signal's handler, on a painted stack of its own; what the handler itself takes is included. */
size_t stack_of(void (*call)(void));

#endif
