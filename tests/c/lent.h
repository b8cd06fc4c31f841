/* Slices that are lent with guard bytes round them, at any alignment. */
#ifndef LENT_H
#define LENT_H

#include <string.h>

#include "../../include/pundaliket.h"

enum { ROOM = PUNDALIKET_MOST_REPLIES, GUARD = 64, UNTOUCHED = 0xA5 };

struct slice {
    uint8_t bytes[ROOM + 2 * GUARD + 8];
    uint8_t *at;
    size_t length;
};

/* lends a slice at this alignment, filled with content or, where there is none, a fixed byte */
static inline void lend(struct slice *s, unsigned alignment, size_t length, const uint8_t *content)
{
    size_t whole = length + 2 * GUARD + 8;
    for (size_t i = 0; i < whole; i++)
        s->bytes[i] = (uint8_t)(i * 7 + 3);
    s->at = s->bytes + GUARD + alignment;
    s->length = length;
    if (content)
        memcpy(s->at, content, length);
    else
        memset(s->at, UNTOUCHED, length);
}

/* the guard bytes on both sides are as they were */
static inline int guarded(const struct slice *s)
{
    size_t first = (size_t)(s->at - s->bytes), whole = s->length + 2 * GUARD + 8;
    unsigned changed = 0;
    for (size_t i = 0; i < first; i++)
        changed |= s->bytes[i] ^ (uint8_t)(i * 7 + 3);
    for (size_t i = first + s->length; i < whole; i++)
        changed |= s->bytes[i] ^ (uint8_t)(i * 7 + 3);
    return changed == 0;
}

static inline int same(const struct slice *a, const struct slice *b)
{
    return a->length == b->length && memcmp(a->at, b->at, a->length) == 0;
}

static inline int holds(const struct slice *s, const uint8_t *content) { return memcmp(s->at, content, s->length) == 0; }

#endif
