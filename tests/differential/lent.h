/*
 * lent.h - a lent book of rionvakhe.h beside one of the plain desk: from one
 * to the other, and where they differ.
 */
#ifndef LENT_H
#define LENT_H

#include "../../crates/boundary/rionvakhe.h"
#include "../plain/plain.h"

struct lent {
    int64_t book[RIONVAKHE_BOOK];
    uint32_t levels[RIONVAKHE_LEVELS];
};

/* The numbers of a plain book. */
void lent_from(struct lent *lent, const struct plain_book *book);

/*
 * The plain book of some numbers; false where one does not fit its field, so
 * that the numbers are no book at all. A stray minute of asking fits.
 */
bool lent_to(const struct lent *lent, struct plain_book *book);

bool lent_same(const struct lent *one, const struct lent *other);

/* Prints the first place where they differ; one and other name them. */
void lent_print_difference(const struct lent *one, const char *one_name,
                           const struct lent *other, const char *other_name);

#endif
