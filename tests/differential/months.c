/* months.c - which step comes next in a month, and its record. */
#include "months.h"

#include "steps.h"

#include <string.h>

const char *const style_names[STYLES] = {"mixed", "full",  "cut",
                                         "margin", "tight", "noise"};

static void write_big(uint8_t *at, uint64_t number, int bytes)
{
    for (int i = 0; i < bytes; i++)
        at[i] = (uint8_t)(number >> (8 * (bytes - 1 - i)));
}

static void write_fields(uint8_t *record, const struct fields *f)
{
    memset(record, 0, PLAIN_RECORD_BYTES);
    record[0] = f->kind;
    record[1] = f->a;
    record[2] = f->b;
    record[3] = f->selector;
    write_big(record + 4, (uint32_t)f->minute, 4);
    write_big(record + 8, f->number, 2);
    record[10] = f->day;
    write_big(record + 12, f->quantity, 4);
    write_big(record + 16, (uint64_t)f->amount, 8);
}

static uint8_t next_kind(struct maker *m)
{
    static const uint8_t weights[STYLES][15] = {
        [STYLE_MIXED] = {0, 1, 3, 8, 5, 6, 13, 6, 22, 3, 18, 6, 4, 4, 4},
        [STYLE_FULL] = {0, 0, 1, 3, 1, 1, 8, 1, 70, 2, 20, 2, 1, 1, 1},
        [STYLE_CUT] = {0, 0, 2, 4, 2, 1, 8, 10, 27, 1, 28, 3, 1, 5, 8},
        [STYLE_MARGIN] = {0, 0, 2, 5, 2, 24, 8, 2, 24, 2, 20, 8, 8, 1, 1},
        [STYLE_TIGHT] = {0, 1, 16, 6, 2, 2, 10, 2, 24, 6, 16, 8, 8, 1, 1},
        [STYLE_NOISE] = {1, 3, 5, 9, 5, 5, 9, 5, 12, 5, 10, 5, 5, 5, 5}
    };
    const uint8_t *w = weights[m->style];
    uint32_t total = 0;
    uint32_t pick;
    uint8_t kind = 0;

    for (int k = 0; k < 15; k++)
        total += w[k];
    pick = random_below(m->random, total);
    while (pick >= w[kind])
        pick -= w[kind++];
    return kind == 0 ? (uint8_t)(15 * random_below(m->random, 2)) : kind;
}

/* A new month is opened, gets windows, participants and credits first. */
static uint8_t first_kind(struct maker *m)
{
    const struct plain_month *month = &m->book->month;
    unsigned registered = 0;

    for (unsigned p = 0; p < PLAIN_PARTICIPANTS; p++)
        registered += m->book->accounts[p].roles != 0;
    if (month->days == 0)
        return random_chance(m->random, 85) ? PLAIN_OPEN : next_kind(m);
    if (random_chance(m->random, 50))
        for (int w = 0; w < PLAIN_WINDOWS; w++)
            if (month->windows[w].closing == 0)
                return PLAIN_WINDOW;
    if (registered < 4 && random_chance(m->random, 60))
        return PLAIN_REGISTER;
    return next_kind(m);
}

enum style month_style(struct random *r)
{
    uint32_t style = random_below(r, STYLES + 1);

    return style == STYLES ? STYLE_CUT : (enum style)style;
}

unsigned month_records(enum style style, struct random *r)
{
    return (style == STYLE_FULL ? 500u : 150u) + random_below(r, 200);
}

void month_next(const struct plain_book *book, enum style style,
                struct random *r, uint8_t record[PLAIN_RECORD_BYTES])
{
    struct maker m = {book, style, r};
    struct fields f = {0};

    f.kind = first_kind(&m);
    f.minute = make_minute(&m);
    make_fields(&m, &f);
    write_fields(record, &f);
    if (random_chance(r, style == STYLE_NOISE ? 40 : 3))
        record_damage(r, record);
}

void record_damage(struct random *r, uint8_t record[PLAIN_RECORD_BYTES])
{
    uint32_t times = 1 + random_below(r, 2);

    if (random_chance(r, 5))
        for (int i = 0; i < PLAIN_RECORD_BYTES; i++)
            record[i] = (uint8_t)random_bits(r);
    while (times-- > 0) {
        uint8_t *byte = &record[random_below(r, PLAIN_RECORD_BYTES)];

        *byte = (uint8_t)(random_chance(r, 50)
                              ? *byte ^ (1u << random_below(r, 8))
                              : random_bits(r));
    }
}
