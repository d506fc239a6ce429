#define _DEFAULT_SOURCE
#include "stack.h"

#include <signal.h>
#include <stdio.h>
#include <stdlib.h>
#include <string.h>

/* More than a handler and a call take together. */
enum { ROOM = 1 << 18, PAINT = 0xA5 };

static unsigned char room[ROOM];
static void (*called)(void);

static void handle(int signal) {
    (void)signal;
    called();
}

size_t stack_of(void (*call)(void)) {
    stack_t stack = {.ss_sp = room, .ss_size = ROOM};
    struct sigaction action = {.sa_handler = handle, .sa_flags = SA_ONSTACK};
    called = call;
    memset(room, PAINT, ROOM);
    if (sigaltstack(&stack, NULL) != 0 || sigaction(SIGUSR1, &action, NULL) != 0 || raise(SIGUSR1) != 0) {
        perror("a stack of its own");
        exit(2);
    }
    size_t untouched = 0;
    while (untouched < ROOM && room[untouched] == PAINT) {
        untouched++;
    }
    return ROOM - untouched;
}
