#define _DEFAULT_SOURCE
#include "lent.h"

#include <stdio.h>
#include <stdlib.h>
#include <string.h>
#include <sys/mman.h>
#include <unistd.h>

/* A multiple of every alignment that is asked for. */
enum { CANARY = 64 };

static uint8_t filling_at(size_t place, int filling) {
    uint8_t value = (uint8_t)(place * 37 + (place >> 8) + 11);
    return filling == 0 ? value : (uint8_t)~value;
}

static void give_up(const char *what) {
    perror(what);
    exit(2);
}

struct lent lend(size_t length, int filling) {
    struct lent lent = {malloc(length + 2 * CANARY), NULL, length, filling};
    if (lent.whole == NULL) {
        give_up("memory to lend");
    }
    lent.places = lent.whole + CANARY;
    for (size_t place = 0; place < length + 2 * CANARY; place++) {
        lent.whole[place] = filling_at(place, filling);
    }
    return lent;
}

void take_back(struct lent lent) {
    free(lent.whole);
}

int is_kept_from(struct lent lent, size_t place) {
    for (size_t at = 0; at < lent.length + 2 * CANARY; at++) {
        int may_differ = at >= CANARY && at < CANARY + place;
        if (!may_differ && lent.whole[at] != filling_at(at, lent.filling)) {
            return 0;
        }
    }
    return 1;
}

/* The last zero, or byte, ends where a page ends, and the next page is shut. */
struct shut shut(const uint8_t *bytes, size_t length, size_t zeros) {
    size_t page = (size_t)sysconf(_SC_PAGESIZE);
    size_t room = (length + zeros + page - 1) / page * page;
    uint8_t *whole = mmap(NULL, room + page, PROT_READ | PROT_WRITE, MAP_PRIVATE | MAP_ANONYMOUS | MAP_NORESERVE, -1, 0);
    if (whole == MAP_FAILED) {
        give_up("pages to shut");
    }
    uint8_t *first = whole + room - zeros - length;
    memcpy(first, bytes, length);
    if (mprotect(whole, room, PROT_READ) != 0 || mprotect(whole + room, page, PROT_NONE) != 0) {
        give_up("pages to shut");
    }
    struct shut made = {whole, room + page, first};
    return made;
}

void open_up(struct shut shut) {
    munmap(shut.whole, shut.whole_length);
}
