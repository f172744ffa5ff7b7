/* damage.c - damage to a lent book, at the limits of its fields and rules. */
#include "damage.h"

/* A number that some field or rule stops at, or just lets pass. */
static int64_t edge_number(struct random *r, int64_t old)
{
    static const int64_t edges[] = {
        0, 1, 2, 3, 4, 5, 6, 27, 28, 31, 32, 33, 255, 256, 257, 65535, 65536,
        1000000, 1000001, 5000000, 5000001, 10000000, 10000001, 20000000,
        20000001, 640000000, 640000001, INT32_MAX, INT64_C(2147483648),
        UINT32_MAX, INT64_C(4294967296), PLAIN_FIGURE_MAX,
        PLAIN_FIGURE_MAX + 1, INT64_MAX};
    int64_t edge = edges[random_below(r, sizeof edges / sizeof *edges)];

    switch (random_below(r, 8)) {
    case 0:
        return INT64_MIN;
    case 1:
        return (int64_t)random_bits(r);
    case 2:
        return old == INT64_MAX ? old : old + 1;
    case 3:
        return old == INT64_MIN ? old : old - 1;
    case 4:
        return -edge;
    case 5:
        return -edge - 1;
    default:
        return edge;
    }
}

/* A place of the month, an account, or a record that is given or next. */
static int some_place(struct random *r, const struct lent *lent)
{
    int64_t given = lent->book[RIONVAKHE_GIVEN_AT];
    uint32_t records = given < 0 || given > 255 ? 256 : (uint32_t)given + 1;

    switch (random_below(r, 4)) {
    case 0:
        return (int)random_below(r, RIONVAKHE_ACCOUNTS_AT);
    case 1:
        return RIONVAKHE_ACCOUNTS_AT +
               (int)random_below(r, 32 * RIONVAKHE_ACCOUNT);
    case 2:
        return RIONVAKHE_RECORDS_AT +
               (int)random_below(r, records * RIONVAKHE_RECORD);
    default:
        return (int)random_below(r, RIONVAKHE_BOOK);
    }
}

static void damage_level(struct random *r, struct lent *lent)
{
    static const uint32_t edges[] = {0, 1, 9999999, 10000000, 10000001,
                                     UINT32_MAX};
    uint32_t place = random_below(r, RIONVAKHE_LEVELS);

    if (random_chance(r, 50)) /* the days that a short month does not have */
        place = place / 31 * 31 + 28 + random_below(r, 3);
    lent->levels[place] = edges[random_below(r, 6)];
}

/* A minute beside a status that keeps none, or a status that keeps one. */
static void damage_asking(struct random *r, struct lent *lent)
{
    int number = 1 + (int)random_below(r, 40);
    int64_t *record = lent->book + RIONVAKHE_RECORD_AT(number);

    if (random_chance(r, 50))
        record[RIONVAKHE_ASKED] = random_from(r, -2, 2);
    else
        record[RIONVAKHE_STATUS] = random_from(r, -1, 7);
}

void lent_damage(struct random *r, struct lent *lent)
{
    uint32_t times = 1 + random_below(r, 2);

    while (times-- > 0) {
        uint32_t which = random_below(r, 10);
        int place = some_place(r, lent);

        if (which < 6)
            lent->book[place] = edge_number(r, lent->book[place]);
        else if (which < 8)
            damage_level(r, lent);
        else
            damage_asking(r, lent);
    }
}
