/*
 * seen.h - what a maker of steps sees of a book. It need not be exact: only
 * the plain desk has to be.
 */
#ifndef SEEN_H
#define SEEN_H

#include "steps.h"

/* Tradeable credits. */
uint32_t credits_of(const struct plain_book *book, unsigned p);

/* What a generator has accepted, and pending too if asked. */
int64_t held_by(const struct plain_book *book, unsigned p, bool pending);

/* Accepted above tradeable, below 0 where there is no excess. */
int64_t excess_of(const struct plain_book *book, unsigned p);

/* A participant that has a role (0: any that is registered), else anybody. */
uint8_t someone(struct maker *m, unsigned role);

/* The number of an allocation of a status, else any number given, or past. */
uint16_t some_number(struct maker *m, unsigned status);

/* A number near a limit: below it, at it, or one past it. */
uint32_t near(struct maker *m, int64_t limit);

#endif
