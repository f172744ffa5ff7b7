/* seen.c - what a maker of steps sees of a book. */
#include "seen.h"

uint32_t credits_of(const struct plain_book *book, unsigned p)
{
    uint64_t sum = 0;

    for (unsigned i = 0; i < 62; i++)
        sum += book->levels[p * 124 + i];
    return book->month.days == 0 ? 0 : (uint32_t)(sum / book->month.days);
}

int64_t held_by(const struct plain_book *book, unsigned p, bool pending)
{
    int64_t sum = 0;

    for (unsigned i = 0; i < book->month.given; i++) {
        const struct plain_allocation *l = &book->ledger[i];

        if (l->generator == p && (l->status == PLAIN_ACCEPTED ||
                                  l->status == PLAIN_REVERSAL_ASKED ||
                                  (pending && l->status == PLAIN_SUBMITTED)))
            sum += l->quantity;
    }
    return sum;
}

int64_t excess_of(const struct plain_book *book, unsigned p)
{
    return held_by(book, p, false) - (int64_t)credits_of(book, p);
}

uint8_t someone(struct maker *m, unsigned role)
{
    uint8_t found[PLAIN_PARTICIPANTS];
    uint32_t count = 0;

    for (uint8_t p = 0; p < PLAIN_PARTICIPANTS; p++)
        if (m->book->accounts[p].roles != 0 &&
            (m->book->accounts[p].roles & role) == role)
            found[count++] = p;
    if (count == 0 || random_chance(m->random, 4))
        return (uint8_t)random_below(m->random, 34);
    return found[random_below(m->random, count)];
}

uint16_t some_number(struct maker *m, unsigned status)
{
    uint16_t found[PLAIN_ALLOCATIONS];
    uint32_t count = 0;

    for (uint16_t i = 0; i < m->book->month.given; i++)
        if (m->book->ledger[i].status == status)
            found[count++] = (uint16_t)(i + 1);
    if (count == 0 || random_chance(m->random, 6))
        return (uint16_t)random_below(m->random, m->book->month.given + 2u);
    return found[random_below(m->random, count)];
}

uint32_t near(struct maker *m, int64_t limit)
{
    int64_t n;

    if (limit <= 0)
        return random_below(m->random, 3);
    switch (random_below(m->random, 6)) {
    case 0:
        n = limit;
        break;
    case 1:
        n = limit + 1;
        break;
    case 2:
        n = limit - 1;
        break;
    default:
        n = random_from(m->random, 1, limit < 4000000000 ? limit : 4000000000);
    }
    return (uint32_t)n;
}
