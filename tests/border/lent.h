/* Memory that is lent to the library. What it may change lies between canaries; what it may only read is shut against writing, and the
 * place after its last one against reading too. A trial is made twice, with fillings that differ in every bit of every place, so that no
 * place passes because it happened to hold the right value. */
#ifndef LENT_H
#define LENT_H

#include <stddef.h>
#include <stdint.h>

/* The two fillings. */
#define FILLINGS 2

/* Places that may be changed. */
struct lent {
    uint8_t *whole; /* the places, with a canary before and after them */
    uint8_t *places;
    size_t length;
    int filling;
};

struct lent lend(size_t length, int filling);
void take_back(struct lent lent);

/* Whether the canaries, and all places from this one on, hold what they held. */
int is_kept_from(struct lent lent, size_t place);

/* Bytes that may only be read, with so many zeros after them. */
struct shut {
    uint8_t *whole;
    size_t whole_length;
    const uint8_t *bytes;
};

struct shut shut(const uint8_t *bytes, size_t length, size_t zeros);
void open_up(struct shut shut);

#endif
