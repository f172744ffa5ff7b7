/*
 * months.h - random step records that fit a book well enough to be done
 * often, and miss it by one often enough to meet every reason.
 */
#ifndef MONTHS_H
#define MONTHS_H

#include "../plain/plain.h"
#include "random.h"

/* What a month is heavy on. */
enum style {
    STYLE_MIXED,
    STYLE_FULL,   /* many small submissions: all 256 numbers */
    STYLE_CUT,    /* equal quantities, terminations and cuts: ties */
    STYLE_MARGIN, /* figures at the edge of the margin test */
    STYLE_TIGHT,  /* windows that open and shut */
    STYLE_NOISE,  /* fields that fit nothing */
    STYLES
};

extern const char *const style_names[STYLES];

enum style month_style(struct random *r);

/* How many records a month of a style has. */
unsigned month_records(enum style style, struct random *r);

/* The next record for a book. */
void month_next(const struct plain_book *book, enum style style,
                struct random *r, uint8_t record[PLAIN_RECORD_BYTES]);

/* Some damage to a record's bytes. */
void record_damage(struct random *r, uint8_t record[PLAIN_RECORD_BYTES]);

#endif
