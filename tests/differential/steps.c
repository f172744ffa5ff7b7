/* steps.c - the fields of each kind of step. */
#include "steps.h"

#include "seen.h"

int32_t make_minute(struct maker *m)
{
    int64_t last = m->book->month.last;
    int64_t minute = last;
    uint32_t which = random_below(m->random, 1000);

    if (which < 620)
        minute = last;
    else if (which < 880)
        minute = last + random_from(m->random, 1, 40);
    else if (which < 950)
        minute = last + random_from(m->random, 1, 3) * 1440 - (which % 2);
    else if (which < 985)
        minute = last - random_from(m->random, 1, 5);
    else if (which < 996)
        minute = random_from(m->random, -3000, 40000);
    else if (which < 999 || random_chance(m->random, 80))
        minute = INT32_MIN;
    else
        minute = INT32_MAX;
    if (minute > INT32_MAX)
        minute = INT32_MAX;
    if (minute < INT32_MIN)
        minute = INT32_MIN;
    return (int32_t)minute;
}

static void make_open(struct maker *m, struct fields *f)
{
    static const int64_t prices[] = {0, 1, 1200000, 4999999, 5000000};

    f->minute = random_chance(m->random, 80)
                    ? (int32_t)random_from(m->random, -2000, 0)
                    : make_minute(m);
    f->day = (uint8_t)random_from(m->random, 28, 31);
    f->amount = prices[random_below(m->random, 5)];
    if ((m->style == STYLE_CUT || m->style == STYLE_FULL) &&
        random_chance(m->random, 80))
        f->amount = 0; /* no margin test is in the way */
    if (random_chance(m->random, 10))
        f->day = (uint8_t)random_from(m->random, 26, 33);
    if (random_chance(m->random, 10))
        f->amount = random_chance(m->random, 50) ? -1 : 5000001;
}

static void make_window(struct maker *m, struct fields *f)
{
    int64_t last = m->book->month.last;

    f->selector = (uint8_t)random_from(m->random, 1, 8);
    for (int w = 0; w < PLAIN_WINDOWS; w++)
        if (m->book->month.windows[w].closing == 0 &&
            random_chance(m->random, 60))
            f->selector = (uint8_t)(5 + w);
    if (m->style == STYLE_TIGHT)
        f->amount = f->selector <= 4 ? last - random_from(m->random, -20, 200)
                                     : last + random_from(m->random, -20, 400);
    else
        f->amount = f->selector <= 4 ? random_from(m->random, -3000, 0)
                                     : random_from(m->random, 40000, 1000000);
    if (random_chance(m->random, 4))
        f->amount = random_chance(m->random, 50) ? 1000000 : -1000000;
    if (random_chance(m->random, 4))
        f->amount = random_chance(m->random, 50) ? 1000001 : -1000001;
    if (random_chance(m->random, 2))
        f->amount = (int64_t)random_bits(m->random);
    if (random_chance(m->random, 3))
        f->selector = random_chance(m->random, 50) ? 0 : 9;
}

static void make_register(struct maker *m, struct fields *f)
{
    f->a = (uint8_t)random_below(m->random,
                                 m->style == STYLE_CUT ? 6 : 32);
    f->selector = (uint8_t)random_from(m->random, 1, 3);
    if (random_chance(m->random, 6))
        f->a = (uint8_t)random_from(m->random, 30, 34);
    if (random_chance(m->random, 4))
        f->selector = random_chance(m->random, 50) ? 0 : 4;
}

static void make_requirement(struct maker *m, struct fields *f)
{
    f->a = someone(m, PLAIN_CUSTOMER);
    f->quantity = near(m, random_chance(m->random, 20) ? 20000000 : 60000);
}

/* The figure at which a generator may give a quantity up, or one less. */
static int64_t edge_figure(struct maker *m, unsigned p, int64_t quantity)
{
    const struct plain_month *month = &m->book->month;
    int64_t days = month->last < 0 ? 0 : month->last / 1440;
    int64_t needed;

    if (days > month->days)
        days = month->days;
    needed = 11 * month->price * days / 10000 *
             (quantity + held_by(m->book, p, true)) /
             (month->days == 0 ? 1 : month->days);
    if (needed > PLAIN_FIGURE_MAX)
        needed = PLAIN_FIGURE_MAX;
    return needed + random_from(m->random, -1, 1);
}

static void make_margin(struct maker *m, struct fields *f)
{
    f->a = someone(m, 0);
    switch (random_below(m->random, 8)) {
    case 0:
        f->amount = PLAIN_FIGURE_MAX + random_from(m->random, -1, 1);
        break;
    case 1:
        f->amount = -PLAIN_FIGURE_MAX + random_from(m->random, -1, 1);
        break;
    case 2:
        f->amount = random_from(m->random, -1000, 1000);
        break;
    default:
        f->amount = edge_figure(m, f->a, random_from(m->random, 0, 20000));
        if (m->style != STYLE_MARGIN && random_chance(m->random, 80))
            f->amount = random_from(m->random, 0, 2000000000);
    }
}

/* What to take from a level so that a generator has made too much. */
static uint32_t leaving_excess(struct maker *m, unsigned p, uint32_t level)
{
    int64_t made = held_by(m->book, p, false);
    int64_t take = (int64_t)credits_of(m->book, p) - made + 1;

    if (made > 0)
        take += random_below(m->random, (uint32_t)made);
    return take < level ? (uint32_t)take : level;
}

/* Takes from the levels of a generator that has made something. */
static void make_less(struct maker *m, struct fields *f)
{
    const uint32_t *row;
    uint32_t level;

    for (uint8_t p = 0; p < PLAIN_PARTICIPANTS; p++)
        if (held_by(m->book, p, false) > 0 && random_chance(m->random, 50))
            f->a = p;
    if (f->a >= PLAIN_PARTICIPANTS || f->selector < 1 || f->selector > 4 ||
        f->day < 1 || f->day > 31)
        return;
    row = m->book->levels + f->a * 124 + (f->selector - 1) * 31;
    level = row[f->day - 1];
    for (unsigned day = f->day; day <= m->book->month.days; day++)
        if (row[day - 1] < level)
            level = row[day - 1];
    f->quantity = near(m, level);
    if (m->style == STYLE_CUT && random_chance(m->random, 75))
        f->quantity = leaving_excess(m, f->a, level);
}

static void make_credits(struct maker *m, struct fields *f)
{
    uint32_t most = m->style == STYLE_FULL  ? 9000000
                    : m->style == STYLE_CUT ? 1500
                                            : 120000;

    f->selector = (uint8_t)(random_chance(m->random, 60)
                                ? 1
                                : random_from(m->random, 1, 4));
    f->a = someone(m, f->selector == 4 ? 0 : PLAIN_GENERATOR);
    f->day = 1;
    if (random_chance(m->random, 45))
        f->day = (uint8_t)random_from(m->random, 1, m->book->month.days + 1);
    f->quantity = near(m, random_chance(m->random, 8) ? 10000000 : most);
    if (m->style == STYLE_CUT && random_chance(m->random, 80))
        f->selector = f->day = 1;
    if (f->kind == PLAIN_TERMINATE && random_chance(m->random, 85))
        make_less(m, f);
    if (random_chance(m->random, 3))
        f->selector = random_chance(m->random, 50) ? 0 : 5;
    if (random_chance(m->random, 3))
        f->day = 0;
}

static void make_submit(struct maker *m, struct fields *f)
{
    static const uint32_t round[] = {10, 10, 10, 10, 20, 30, 50, 100};
    int64_t room;

    f->a = someone(m, PLAIN_GENERATOR);
    f->b = someone(m, PLAIN_CUSTOMER);
    room = f->a < PLAIN_PARTICIPANTS
               ? (int64_t)credits_of(m->book, f->a) -
                     held_by(m->book, f->a, true)
               : 0;
    if (m->style == STYLE_CUT)
        f->quantity = round[random_below(m->random, 8)];
    else if (m->style == STYLE_FULL)
        f->quantity = (uint32_t)random_from(m->random, 1, 50);
    else
        f->quantity = near(m, random_chance(m->random, 50) ? room : room / 4);
    if (random_chance(m->random, 2))
        f->quantity = random_chance(m->random, 50) ? 0 : 20000001;
}

/* The party that a step on an allocation has to come from, mostly. */
static void make_on_allocation(struct maker *m, struct fields *f,
                               unsigned status, bool by_generator)
{
    const struct plain_allocation *l;

    f->number = some_number(m, status);
    if (f->number == 0 || f->number > m->book->month.given) {
        f->a = someone(m, 0);
        return;
    }
    l = &m->book->ledger[f->number - 1];
    f->a = by_generator ? l->generator : l->customer;
    if (random_chance(m->random, 5))
        f->a = someone(m, 0);
}

/* An accepted allocation of a generator with an excess, if there is one. */
static uint16_t over_number(struct maker *m)
{
    uint16_t number = some_number(m, random_chance(m->random, 70)
                                         ? PLAIN_ACCEPTED
                                         : PLAIN_REVERSAL_ASKED);

    for (uint16_t i = 0; i < m->book->month.given; i++) {
        const struct plain_allocation *l = &m->book->ledger[i];

        if ((l->status == PLAIN_ACCEPTED ||
             l->status == PLAIN_REVERSAL_ASKED) &&
            random_chance(m->random, 30) &&
            excess_of(m->book, l->generator) > 0)
            number = (uint16_t)(i + 1);
    }
    return number;
}

static void make_amend(struct maker *m, struct fields *f)
{
    const struct plain_allocation *l;
    int64_t lowering;

    f->number = over_number(m);
    f->a = someone(m, PLAIN_GENERATOR);
    f->quantity = random_below(m->random, 1000);
    if (f->number == 0 || f->number > m->book->month.given)
        return;
    l = &m->book->ledger[f->number - 1];
    if (random_chance(m->random, 95))
        f->a = l->generator;
    lowering = near(m, excess_of(m->book, l->generator));
    f->quantity =
        lowering < l->quantity ? l->quantity - (uint32_t)lowering : 0;
    if (random_chance(m->random, 4))
        f->quantity = 20000000 + random_below(m->random, 2);
}

static void make_cut(struct maker *m, struct fields *f)
{
    f->a = someone(m, PLAIN_GENERATOR);
    for (uint8_t p = 0; p < PLAIN_PARTICIPANTS; p++)
        if (excess_of(m->book, p) > 0 && random_chance(m->random, 70))
            f->a = p;
}

static void make_withdraw(struct maker *m, struct fields *f)
{
    make_on_allocation(m, f, PLAIN_SUBMITTED, true);
}

static void make_accept(struct maker *m, struct fields *f)
{
    make_on_allocation(m, f,
                       random_chance(m->random, 92) ? PLAIN_SUBMITTED
                                                    : PLAIN_WITHDRAWN,
                       false);
}

static void make_ask(struct maker *m, struct fields *f)
{
    make_on_allocation(m, f, PLAIN_ACCEPTED, true);
}

static void make_agree(struct maker *m, struct fields *f)
{
    make_on_allocation(m, f, PLAIN_REVERSAL_ASKED, false);
}

void make_fields(struct maker *m, struct fields *f)
{
    static void (*const make[])(struct maker *, struct fields *) = {
        [PLAIN_OPEN] = make_open,
        [PLAIN_WINDOW] = make_window,
        [PLAIN_REGISTER] = make_register,
        [PLAIN_REQUIREMENT] = make_requirement,
        [PLAIN_MARGIN] = make_margin,
        [PLAIN_CREATE] = make_credits,
        [PLAIN_TERMINATE] = make_credits,
        [PLAIN_SUBMIT] = make_submit,
        [PLAIN_WITHDRAW] = make_withdraw,
        [PLAIN_ACCEPT] = make_accept,
        [PLAIN_ASK_REVERSAL] = make_ask,
        [PLAIN_AGREE_REVERSAL] = make_agree,
        [PLAIN_GENERATOR_AMENDS] = make_amend,
        [PLAIN_OPERATOR_AMENDS] = make_cut
    };

    if (f->kind >= PLAIN_OPEN && f->kind <= PLAIN_OPERATOR_AMENDS)
        make[f->kind](m, f);
}
