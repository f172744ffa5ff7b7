/*
 * steps.h - the fields of a step that fits a book, or just misses it.
 */
#ifndef STEPS_H
#define STEPS_H

#include "months.h"

/* A record's fields before they are written. */
struct fields {
    uint8_t kind, a, b, selector, day;
    uint16_t number;
    int32_t minute;
    uint32_t quantity;
    int64_t amount;
};

struct maker {
    const struct plain_book *book;
    enum style style;
    struct random *random;
};

/* A minute that is often the last step's, seldom one that is too early. */
int32_t make_minute(struct maker *m);

/* The fields that the kind uses; OPEN has a minute of its own. */
void make_fields(struct maker *m, struct fields *f);

#endif
