/*
 * compare.h - each call of rionvakhe.h beside the plain desk: the answer, the
 * whole book, all levels, and the memory around what was lent.
 */
#ifndef COMPARE_H
#define COMPARE_H

#include "lent.h"
#include "random.h"

/* What was covered. */
struct counts {
    uint64_t reasons[17];     /* of records */
    uint64_t done[15];        /* of each kind */
    uint64_t settled[17];     /* reasons of settlements */
    uint64_t steps, runs, books_refused, books_unread, wrong_lengths;
    uint64_t ties;            /* cuts in which equal quantities parted */
    uint64_t short_rooms;     /* runs that stopped for want of room */
};

extern struct counts counts;

/* Makes the fresh book; every call below answers whether the two agree, and
 * prints the first difference where they do not. */
bool compare_fresh(struct lent *lent);
bool compare_step(struct lent *lent, const uint8_t *record, size_t length);

/* Room is for so many answers; *done is how many records were answered. */
bool compare_run(struct lent *lent, const uint8_t *history, size_t length,
                 size_t room, size_t *done);
bool compare_settle(const struct lent *lent);

/* Each call with a length that is wrong: refused, and nothing written. */
bool compare_wrong_lengths(const struct lent *lent, struct random *r,
                           const uint8_t *record);

#endif
