/*
 * plain.c - the core of a desk for Capacity Credit Allocations, in plain C.
 *
 * Each step first finds the lowest reason for refusal that applies, testing in
 * the order of the reasons' numbers, and writes only once none is left. Totals
 * are not kept: one pass over the ledger finds them when they are needed.
 */
#include "plain.h"

#include <assert.h>
#include <string.h>

static_assert(PLAIN_LEVELS == 3968, "levels by participant, kind and day");

/* ------------------------------------------------------------------ */
/* The step record                                                    */

struct step {
    uint8_t kind;
    uint8_t a;
    uint8_t b;
    uint8_t selector;
    uint8_t day;
    uint8_t spare;
    uint16_t number;
    plain_minute minute;
    plain_quantity quantity;
    int64_t amount;
};

enum field {
    USES_A = 1 << 0,
    USES_B = 1 << 1,
    USES_SELECTOR = 1 << 2,
    USES_NUMBER = 1 << 3,
    USES_DAY = 1 << 4,
    USES_SPARE = 1 << 5, /* no kind does */
    USES_QUANTITY = 1 << 6,
    USES_AMOUNT = 1 << 7
};

static const uint8_t fields_of[] = {
    [PLAIN_OPEN] = USES_DAY | USES_AMOUNT,
    [PLAIN_WINDOW] = USES_SELECTOR | USES_AMOUNT,
    [PLAIN_REGISTER] = USES_A | USES_SELECTOR,
    [PLAIN_REQUIREMENT] = USES_A | USES_QUANTITY,
    [PLAIN_MARGIN] = USES_A | USES_AMOUNT,
    [PLAIN_CREATE] = USES_A | USES_SELECTOR | USES_DAY | USES_QUANTITY,
    [PLAIN_TERMINATE] = USES_A | USES_SELECTOR | USES_DAY | USES_QUANTITY,
    [PLAIN_SUBMIT] = USES_A | USES_B | USES_QUANTITY,
    [PLAIN_WITHDRAW] = USES_A | USES_NUMBER,
    [PLAIN_ACCEPT] = USES_A | USES_NUMBER,
    [PLAIN_ASK_REVERSAL] = USES_A | USES_NUMBER,
    [PLAIN_AGREE_REVERSAL] = USES_A | USES_NUMBER,
    [PLAIN_GENERATOR_AMENDS] = USES_A | USES_NUMBER | USES_QUANTITY,
    [PLAIN_OPERATOR_AMENDS] = USES_A
};

static uint16_t read16(const uint8_t *p)
{
    return (uint16_t)(p[0] << 8 | p[1]);
}

static uint32_t read32(const uint8_t *p)
{
    return (uint32_t)p[0] << 24 | (uint32_t)p[1] << 16 |
           (uint32_t)p[2] << 8 | (uint32_t)p[3];
}

static uint64_t read64(const uint8_t *p)
{
    return (uint64_t)read32(p) << 32 | read32(p + 4);
}

static struct step read_step(const uint8_t *record)
{
    return (struct step){
        .kind = record[0],
        .a = record[1],
        .b = record[2],
        .selector = record[3],
        .minute = (plain_minute)read32(record + 4),
        .number = read16(record + 8),
        .day = record[10],
        .spare = record[11],
        .quantity = read32(record + 12),
        .amount = (int64_t)read64(record + 16),
    };
}

static unsigned fields_set(const struct step *step)
{
    return (step->a != 0 ? USES_A : 0u) |
           (step->b != 0 ? USES_B : 0u) |
           (step->selector != 0 ? USES_SELECTOR : 0u) |
           (step->number != 0 ? USES_NUMBER : 0u) |
           (step->day != 0 ? USES_DAY : 0u) |
           (step->spare != 0 ? USES_SPARE : 0u) |
           (step->quantity != 0 ? USES_QUANTITY : 0u) |
           (step->amount != 0 ? USES_AMOUNT : 0u);
}

static bool well_formed(const struct step *step)
{
    return step->kind >= PLAIN_OPEN && step->kind <= PLAIN_OPERATOR_AMENDS &&
           (fields_set(step) & ~(unsigned)fields_of[step->kind]) == 0;
}

/* ------------------------------------------------------------------ */
/* Words with exact meaning                                           */

static bool within(int64_t number, int64_t low, int64_t high)
{
    return number >= low && number <= high;
}

static bool registered(const struct plain_book *book, unsigned participant)
{
    return participant < PLAIN_PARTICIPANTS &&
           book->accounts[participant].roles != 0;
}

static bool has_role(const struct plain_book *book, unsigned participant,
                     enum plain_role role)
{
    return (book->accounts[participant].roles & role) != 0;
}

/* Where the levels of a participant's credits of one kind begin, at day 1. */
static size_t levels_at(unsigned participant, unsigned kind)
{
    return ((size_t)participant * PLAIN_KINDS + (kind - 1)) * PLAIN_DAYS;
}

/* The mean over the month of some kinds' levels, rounded down. Days after the
 * month's last hold 0, so whole rows can be summed. */
static plain_quantity mean_level(const struct plain_book *book,
                                 unsigned participant, unsigned first_kind,
                                 unsigned kinds)
{
    const plain_quantity *row =
        book->levels + levels_at(participant, first_kind);
    plain_quantity sum = 0;

    for (unsigned i = 0; i < kinds * PLAIN_DAYS; i++)
        sum += row[i];
    return sum / book->month.days;
}

static plain_quantity tradeable_of(const struct plain_book *book,
                                   unsigned generator)
{
    return mean_level(book, generator, PLAIN_ORDINARY, 2);
}

static plain_quantity dsm_of(const struct plain_book *book,
                             unsigned participant)
{
    return mean_level(book, participant, PLAIN_DSM, 1);
}

static bool counts_as_accepted(const struct plain_allocation *allocation)
{
    return allocation->status == PLAIN_ACCEPTED ||
           allocation->status == PLAIN_REVERSAL_ASKED;
}

/* A participant's totals in the ledger; made is what 'accepted' means for it
 * as a generator. */
struct totals {
    plain_quantity pending;
    plain_quantity made;
    plain_quantity received;
};

static struct totals totals_of(const struct plain_book *book,
                               unsigned participant)
{
    struct totals totals = {0, 0, 0};

    for (unsigned i = 0; i < book->month.given; i++) {
        const struct plain_allocation *allocation = &book->ledger[i];

        if (allocation->generator == participant) {
            if (allocation->status == PLAIN_SUBMITTED)
                totals.pending += allocation->quantity;
            else if (counts_as_accepted(allocation))
                totals.made += allocation->quantity;
        }
        if (allocation->customer == participant &&
            counts_as_accepted(allocation))
            totals.received += allocation->quantity;
    }
    return totals;
}

static int32_t net_of(const struct totals *totals)
{
    return (int32_t)totals->received - (int32_t)totals->made;
}

static plain_quantity above(plain_quantity quantity, plain_quantity line)
{
    return quantity > line ? quantity - line : 0;
}

static int64_t exposed_days(const struct plain_month *month, plain_minute at)
{
    int64_t days = at < 0 ? 0 : at / PLAIN_DAY_MINUTES;

    return days < month->days ? days : month->days;
}

/* The margin test. In a sound book no product passes 3 * 10^18. */
static bool margin_fails(const struct plain_book *book, unsigned participant,
                         int32_t net, int32_t change, plain_minute at)
{
    const struct plain_month *month = &book->month;
    const struct plain_account *account = &book->accounts[participant];
    int64_t moved = (int64_t)net + change - account->net_at_figure;

    return account->figure * PLAIN_FIGURE_SCALE * month->days +
               PLAIN_PRICE_SCALE * month->price * exposed_days(month, at) *
                   moved < 0;
}

/* What giving a quantity up changes in the net of one of its two parties;
 * nothing where they are the same participant. */
static int32_t given_up(unsigned generator, unsigned customer,
                        plain_quantity quantity)
{
    return generator == customer ? 0 : -(int32_t)quantity;
}

static bool window_open(const struct plain_book *book,
                        const struct step *step)
{
    static const uint8_t window_of[] = {
        [PLAIN_SUBMIT] = 1,
        [PLAIN_ACCEPT] = 2,
        [PLAIN_WITHDRAW] = 3,
        [PLAIN_ASK_REVERSAL] = 4,
        [PLAIN_AGREE_REVERSAL] = 4
    };
    const struct plain_window *window =
        &book->month.windows[window_of[step->kind] - 1];

    return window->opening <= step->minute && step->minute < window->closing;
}

/* ------------------------------------------------------------------ */
/* The month and its accounts                                         */

static enum plain_reason open_month(struct plain_book *book,
                                    const struct step *step)
{
    if (book->month.days != 0)
        return PLAIN_ALREADY;
    if (!within(step->day, PLAIN_DAYS_MIN, PLAIN_DAYS) ||
        !within(step->amount, 0, PLAIN_PRICE_MAX))
        return PLAIN_RANGE;
    book->month.days = step->day;
    book->month.price = step->amount;
    return PLAIN_DONE;
}

static enum plain_reason set_window(struct plain_book *book,
                                    const struct step *step)
{
    if (!within(step->selector, 1, 2 * PLAIN_WINDOWS) ||
        !within(step->amount, -PLAIN_WINDOW_MAX, PLAIN_WINDOW_MAX))
        return PLAIN_RANGE;
    if (step->selector <= PLAIN_WINDOWS)
        book->month.windows[step->selector - 1].opening =
            (plain_minute)step->amount;
    else
        book->month.windows[step->selector - PLAIN_WINDOWS - 1].closing =
            (plain_minute)step->amount;
    return PLAIN_DONE;
}

/* Whether A is registered already was asked before the clock was. */
static enum plain_reason register_participant(struct plain_book *book,
                                              const struct step *step)
{
    if (step->a >= PLAIN_PARTICIPANTS ||
        !within(step->selector, PLAIN_GENERATOR, PLAIN_BOTH))
        return PLAIN_RANGE;
    book->accounts[step->a].roles = step->selector;
    return PLAIN_DONE;
}

static enum plain_reason set_requirement(struct plain_book *book,
                                         const struct step *step)
{
    if (!registered(book, step->a))
        return PLAIN_UNKNOWN;
    if (!has_role(book, step->a, PLAIN_CUSTOMER))
        return PLAIN_WRONG_PARTY;
    if (step->quantity > PLAIN_QUANTITY_MAX)
        return PLAIN_RANGE;
    book->accounts[step->a].requirement = step->quantity;
    return PLAIN_DONE;
}

static enum plain_reason set_margin(struct plain_book *book,
                                    const struct step *step)
{
    struct totals totals;

    if (!registered(book, step->a))
        return PLAIN_UNKNOWN;
    if (!within(step->amount, -PLAIN_FIGURE_MAX, PLAIN_FIGURE_MAX))
        return PLAIN_RANGE;
    totals = totals_of(book, step->a);
    book->accounts[step->a].figure = step->amount;
    book->accounts[step->a].net_at_figure = net_of(&totals);
    return PLAIN_DONE;
}

/* ------------------------------------------------------------------ */
/* Credits                                                            */

static enum plain_reason check_credits(const struct plain_book *book,
                                       const struct step *step)
{
    if (!registered(book, step->a))
        return PLAIN_UNKNOWN;
    if (within(step->selector, PLAIN_ORDINARY, PLAIN_SPECIAL_PRICE) &&
        !has_role(book, step->a, PLAIN_GENERATOR))
        return PLAIN_WRONG_PARTY;
    if (!within(step->selector, PLAIN_ORDINARY, PLAIN_DSM) ||
        !within(step->day, 1, book->month.days) ||
        !within(step->quantity, 1, PLAIN_LEVEL_MAX))
        return PLAIN_RANGE;
    return PLAIN_DONE;
}

static enum plain_reason create_credits(struct plain_book *book,
                                        const struct step *step)
{
    enum plain_reason reason = check_credits(book, step);
    plain_quantity *row;

    if (reason != PLAIN_DONE)
        return reason;
    row = book->levels + levels_at(step->a, step->selector);
    for (unsigned day = step->day; day <= book->month.days; day++)
        if (row[day - 1] > PLAIN_LEVEL_MAX - step->quantity)
            return PLAIN_LEVEL;
    for (unsigned day = step->day; day <= book->month.days; day++)
        row[day - 1] += step->quantity;
    return PLAIN_DONE;
}

static enum plain_reason terminate_credits(struct plain_book *book,
                                           const struct step *step)
{
    enum plain_reason reason = check_credits(book, step);
    plain_quantity *row;

    if (reason != PLAIN_DONE)
        return reason;
    row = book->levels + levels_at(step->a, step->selector);
    for (unsigned day = step->day; day <= book->month.days; day++)
        if (row[day - 1] < step->quantity)
            return PLAIN_LEVEL;
    for (unsigned day = step->day; day <= book->month.days; day++)
        row[day - 1] -= step->quantity;
    return PLAIN_DONE;
}

/* ------------------------------------------------------------------ */
/* Allocations                                                        */

/* The last two tests of SUBMIT and ACCEPT, for the generator: 'more' is what
 * the step adds to its pending and accepted quantities. */
static enum plain_reason check_generator(const struct plain_book *book,
                                         unsigned generator,
                                         plain_quantity more, int32_t change,
                                         plain_minute at)
{
    struct totals totals = totals_of(book, generator);

    if (tradeable_of(book, generator) < more + totals.pending + totals.made)
        return PLAIN_INSUFFICIENT;
    if (margin_fails(book, generator, net_of(&totals), change, at))
        return PLAIN_MARGIN_NEGATIVE;
    return PLAIN_DONE;
}

static enum plain_reason submit(struct plain_book *book,
                                const struct step *step)
{
    enum plain_reason reason;

    if (!registered(book, step->a) || !registered(book, step->b))
        return PLAIN_UNKNOWN;
    if (!has_role(book, step->a, PLAIN_GENERATOR) ||
        !has_role(book, step->b, PLAIN_CUSTOMER))
        return PLAIN_WRONG_PARTY;
    if (!within(step->quantity, 1, PLAIN_QUANTITY_MAX))
        return PLAIN_RANGE;
    if (!window_open(book, step))
        return PLAIN_WINDOW_SHUT;
    if (book->month.given == PLAIN_ALLOCATIONS)
        return PLAIN_LEDGER_FULL;
    reason = check_generator(book, step->a, step->quantity,
                             given_up(step->a, step->b, step->quantity),
                             step->minute);
    if (reason != PLAIN_DONE)
        return reason;
    book->ledger[book->month.given++] = (struct plain_allocation){
        .generator = step->a,
        .customer = step->b,
        .status = PLAIN_SUBMITTED,
        .quantity = step->quantity,
    };
    return PLAIN_DONE;
}

/* Finds the allocation a step names, whose generator or customer, as the role
 * says, A has to be. A party of one has that role, the book being sound. */
static enum plain_reason find_allocation(struct plain_book *book,
                                         const struct step *step,
                                         enum plain_role role,
                                         struct plain_allocation **found)
{
    struct plain_allocation *allocation;

    if (!registered(book, step->a) ||
        !within(step->number, 1, book->month.given))
        return PLAIN_UNKNOWN;
    allocation = &book->ledger[step->number - 1];
    if (step->a != (role == PLAIN_GENERATOR ? allocation->generator
                                            : allocation->customer))
        return PLAIN_WRONG_PARTY;
    *found = allocation;
    return PLAIN_DONE;
}

static enum plain_reason withdraw(struct plain_book *book,
                                  const struct step *step)
{
    struct plain_allocation *allocation;
    enum plain_reason reason =
        find_allocation(book, step, PLAIN_GENERATOR, &allocation);

    if (reason != PLAIN_DONE)
        return reason;
    if (!window_open(book, step))
        return PLAIN_WINDOW_SHUT;
    if (allocation->status != PLAIN_SUBMITTED)
        return PLAIN_WRONG_STATUS;
    allocation->status = PLAIN_WITHDRAWN;
    return PLAIN_DONE;
}

static enum plain_reason accept(struct plain_book *book,
                                const struct step *step)
{
    struct plain_allocation *allocation;
    enum plain_reason reason =
        find_allocation(book, step, PLAIN_CUSTOMER, &allocation);

    if (reason != PLAIN_DONE)
        return reason;
    if (!window_open(book, step))
        return PLAIN_WINDOW_SHUT;
    if (allocation->status == PLAIN_WITHDRAWN)
        return PLAIN_WAS_WITHDRAWN;
    if (allocation->status != PLAIN_SUBMITTED)
        return PLAIN_WRONG_STATUS;
    /* Adds nothing: the submission is inside the pending total already. */
    reason = check_generator(book, allocation->generator, 0,
                             given_up(allocation->generator,
                                      allocation->customer,
                                      allocation->quantity),
                             step->minute);
    if (reason != PLAIN_DONE)
        return reason;
    allocation->status = PLAIN_ACCEPTED;
    return PLAIN_DONE;
}

static enum plain_reason ask_reversal(struct plain_book *book,
                                      const struct step *step)
{
    struct plain_allocation *allocation;
    enum plain_reason reason =
        find_allocation(book, step, PLAIN_GENERATOR, &allocation);

    if (reason != PLAIN_DONE)
        return reason;
    if (!window_open(book, step))
        return PLAIN_WINDOW_SHUT;
    if (allocation->status != PLAIN_ACCEPTED)
        return PLAIN_WRONG_STATUS;
    allocation->status = PLAIN_REVERSAL_ASKED;
    allocation->asked = step->minute;
    return PLAIN_DONE;
}

static enum plain_reason agree_reversal(struct plain_book *book,
                                        const struct step *step)
{
    struct plain_allocation *allocation;
    struct totals totals;
    int32_t change;
    enum plain_reason reason =
        find_allocation(book, step, PLAIN_CUSTOMER, &allocation);

    if (reason != PLAIN_DONE)
        return reason;
    if (!window_open(book, step))
        return PLAIN_WINDOW_SHUT;
    if (allocation->status != PLAIN_REVERSAL_ASKED)
        return PLAIN_WRONG_STATUS;
    totals = totals_of(book, allocation->customer);
    change = given_up(allocation->generator, allocation->customer,
                      allocation->quantity);
    if (margin_fails(book, allocation->customer, net_of(&totals), change,
                     step->minute))
        return PLAIN_MARGIN_NEGATIVE;
    allocation->status = PLAIN_REVERSED;
    allocation->asked = 0;
    return PLAIN_DONE;
}

/* ------------------------------------------------------------------ */
/* Amendments                                                         */

static enum plain_reason generator_amends(struct plain_book *book,
                                          const struct step *step)
{
    struct plain_allocation *allocation;
    plain_quantity lowering;
    enum plain_reason reason =
        find_allocation(book, step, PLAIN_GENERATOR, &allocation);

    if (reason != PLAIN_DONE)
        return reason;
    if (step->quantity > PLAIN_QUANTITY_MAX)
        return PLAIN_RANGE;
    if (!counts_as_accepted(allocation))
        return PLAIN_WRONG_STATUS;
    lowering = above(allocation->quantity, step->quantity);
    if (lowering == 0 || lowering > above(totals_of(book, step->a).made,
                                          tradeable_of(book, step->a)))
        return PLAIN_EXCESS;
    allocation->quantity = step->quantity;
    return PLAIN_DONE;
}

/* A remainder with its place behind it: no two ranks are equal, and of equal
 * remainders the earlier ranks higher. */
static uint64_t rank_of(uint64_t remainder, size_t place)
{
    return remainder * PLAIN_ALLOCATIONS + (PLAIN_ALLOCATIONS - 1 - place);
}

/* Moves the higher of some ranks in front of the lower ones, and answers the
 * last place of the front part; neither part is empty. */
static size_t part_ranks(uint64_t *ranks, size_t first, size_t last)
{
    uint64_t pivot = ranks[first + (last - first) / 2];

    for (;; first++, last--) {
        uint64_t higher;

        while (ranks[first] > pivot)
            first++;
        while (ranks[last] < pivot)
            last--;
        if (first >= last)
            return last;
        higher = ranks[last];
        ranks[last] = ranks[first];
        ranks[first] = higher;
    }
}

/* The n-th highest of some ranks, n from 1. Reorders them, but only as far as
 * it takes: cheaper than a sort. */
static uint64_t nth_highest(uint64_t *ranks, size_t count, size_t n)
{
    size_t first = 0;
    size_t last = count - 1;

    while (first < last) {
        size_t split = part_ranks(ranks, first, last);

        if (n - 1 <= split)
            last = split;
        else
            first = split + 1;
    }
    return ranks[n - 1];
}

/* One spare thousandth each to the highest ranks. */
static void give_spare(plain_quantity *shares, const uint64_t *ranks,
                       size_t count, size_t spare)
{
    uint64_t reordered[PLAIN_ALLOCATIONS];
    uint64_t lowest;

    memcpy(reordered, ranks, count * sizeof *ranks);
    lowest = nth_highest(reordered, count, spare);
    for (size_t i = 0; i < count; i++)
        shares[i] += ranks[i] >= lowest;
}

void plain_cut(plain_quantity *quantities, size_t count,
               plain_quantity tradeable)
{
    uint64_t ranks[PLAIN_ALLOCATIONS];
    uint64_t total = 0;
    plain_quantity spare = tradeable; /* in the end fewer than 'count' */

    assert(count <= PLAIN_ALLOCATIONS);
    for (size_t i = 0; i < count; i++)
        total += quantities[i];
    if (total == 0)
        return;
    for (size_t i = 0; i < count; i++) {
        uint64_t product = (uint64_t)quantities[i] * tradeable;

        quantities[i] = (plain_quantity)(product / total);
        ranks[i] = rank_of(product % total, i);
        spare -= quantities[i];
    }
    if (spare > 0)
        give_spare(quantities, ranks, count, spare);
}

static enum plain_reason operator_amends(struct plain_book *book,
                                         const struct step *step)
{
    plain_quantity quantities[PLAIN_ALLOCATIONS];
    uint16_t places[PLAIN_ALLOCATIONS];
    plain_quantity made = 0;
    plain_quantity tradeable;
    size_t count = 0;

    if (!registered(book, step->a))
        return PLAIN_UNKNOWN;
    if (!has_role(book, step->a, PLAIN_GENERATOR))
        return PLAIN_WRONG_PARTY;
    for (unsigned i = 0; i < book->month.given; i++) {
        const struct plain_allocation *allocation = &book->ledger[i];

        if (allocation->generator == step->a &&
            counts_as_accepted(allocation)) {
            made += allocation->quantity;
            quantities[count] = allocation->quantity;
            places[count++] = (uint16_t)i;
        }
    }
    tradeable = tradeable_of(book, step->a);
    if (made <= tradeable)
        return PLAIN_EXCESS;
    plain_cut(quantities, count, tradeable);
    for (size_t i = 0; i < count; i++)
        book->ledger[places[i]].quantity = quantities[i];
    return PLAIN_DONE;
}

/* ------------------------------------------------------------------ */
/* Steps                                                              */

static enum plain_reason do_step(struct plain_book *book,
                                 const struct step *step)
{
    if (step->kind == PLAIN_OPEN)
        return open_month(book, step);
    if (book->month.days == 0)
        return PLAIN_NO_MONTH;
    if (step->kind == PLAIN_REGISTER && registered(book, step->a))
        return PLAIN_ALREADY;
    if (step->minute < book->month.last)
        return PLAIN_CLOCK;
    switch (step->kind) {
    case PLAIN_WINDOW:
        return set_window(book, step);
    case PLAIN_REGISTER:
        return register_participant(book, step);
    case PLAIN_REQUIREMENT:
        return set_requirement(book, step);
    case PLAIN_MARGIN:
        return set_margin(book, step);
    case PLAIN_CREATE:
        return create_credits(book, step);
    case PLAIN_TERMINATE:
        return terminate_credits(book, step);
    case PLAIN_SUBMIT:
        return submit(book, step);
    case PLAIN_WITHDRAW:
        return withdraw(book, step);
    case PLAIN_ACCEPT:
        return accept(book, step);
    case PLAIN_ASK_REVERSAL:
        return ask_reversal(book, step);
    case PLAIN_AGREE_REVERSAL:
        return agree_reversal(book, step);
    case PLAIN_GENERATOR_AMENDS:
        return generator_amends(book, step);
    case PLAIN_OPERATOR_AMENDS:
        return operator_amends(book, step);
    default:
        return PLAIN_MALFORMED;
    }
}

static struct plain_answer refused(enum plain_reason reason)
{
    return (struct plain_answer){.reason = (uint8_t)reason, .number = 0};
}

struct plain_answer plain_step_sound(struct plain_book *book,
                                     const uint8_t *record, size_t length)
{
    struct step step;
    enum plain_reason reason;

    if (length != PLAIN_RECORD_BYTES)
        return refused(PLAIN_MALFORMED);
    step = read_step(record);
    if (!well_formed(&step))
        return refused(PLAIN_MALFORMED);
    reason = do_step(book, &step);
    if (reason != PLAIN_DONE)
        return refused(reason);
    book->month.last = step.minute;
    return (struct plain_answer){
        .reason = PLAIN_DONE,
        .number = step.kind == PLAIN_SUBMIT ? book->month.given : 0,
    };
}

struct plain_answer plain_step(struct plain_book *book,
                               const uint8_t *record, size_t length)
{
    if (!plain_sound(book))
        return refused(PLAIN_MALFORMED);
    return plain_step_sound(book, record, length);
}

size_t plain_run(struct plain_book *book, const uint8_t *file, size_t length,
                 struct plain_answer *answers)
{
    /* One look will do: a sound book stays sound, an unsound one unchanged. */
    bool sound = plain_sound(book);
    size_t count = 0;

    while (length > 0) {
        size_t piece =
            length < PLAIN_RECORD_BYTES ? length : PLAIN_RECORD_BYTES;

        answers[count++] = sound ? plain_step_sound(book, file, piece)
                                 : refused(PLAIN_MALFORMED);
        file += piece;
        length -= piece;
    }
    return count;
}

/* ------------------------------------------------------------------ */
/* Soundness                                                          */

void plain_fresh(struct plain_book *book)
{
    memset(book, 0, sizeof *book);
}

static bool window_sound(const struct plain_window *window)
{
    return within(window->opening, -PLAIN_WINDOW_MAX, PLAIN_WINDOW_MAX) &&
           within(window->closing, -PLAIN_WINDOW_MAX, PLAIN_WINDOW_MAX);
}

static bool month_sound(const struct plain_month *month)
{
    if (!within(month->days, PLAIN_DAYS_MIN, PLAIN_DAYS) ||
        !within(month->price, 0, PLAIN_PRICE_MAX) ||
        month->given > PLAIN_ALLOCATIONS)
        return false;
    for (unsigned i = 0; i < PLAIN_WINDOWS; i++)
        if (!window_sound(&month->windows[i]))
            return false;
    return true;
}

static bool account_sound(const struct plain_account *account)
{
    return account->roles <= PLAIN_BOTH &&
           account->requirement <= PLAIN_QUANTITY_MAX &&
           within(account->figure, -PLAIN_FIGURE_MAX, PLAIN_FIGURE_MAX) &&
           within(account->net_at_figure, -PLAIN_NET_MAX, PLAIN_NET_MAX);
}

static bool accounts_sound(const struct plain_book *book)
{
    for (unsigned i = 0; i < PLAIN_PARTICIPANTS; i++)
        if (!account_sound(&book->accounts[i]))
            return false;
    return true;
}

/* Whether no level passes a line. No early way out: the compiler can then
 * take several levels at a time. */
static bool levels_within(const struct plain_book *book, plain_quantity line)
{
    uint32_t passing = 0;

    for (unsigned i = 0; i < PLAIN_LEVELS; i++)
        passing |= book->levels[i] > line;
    return passing == 0;
}

static bool levels_sound(const struct plain_book *book)
{
    plain_quantity late = 0;

    for (unsigned row = 0; row < PLAIN_LEVELS; row += PLAIN_DAYS)
        for (unsigned day = book->month.days; day < PLAIN_DAYS; day++)
            late |= book->levels[row + day];
    return late == 0 && levels_within(book, PLAIN_LEVEL_MAX);
}

static bool allocation_empty(const struct plain_allocation *allocation)
{
    return allocation->generator == 0 && allocation->customer == 0 &&
           allocation->status == PLAIN_EMPTY && allocation->quantity == 0 &&
           allocation->asked == 0;
}

static bool allocation_sound(const struct plain_book *book,
                             const struct plain_allocation *allocation)
{
    return within(allocation->status, PLAIN_SUBMITTED, PLAIN_REVERSED) &&
           registered(book, allocation->generator) &&
           has_role(book, allocation->generator, PLAIN_GENERATOR) &&
           registered(book, allocation->customer) &&
           has_role(book, allocation->customer, PLAIN_CUSTOMER) &&
           allocation->quantity <= PLAIN_QUANTITY_MAX &&
           (allocation->status == PLAIN_REVERSAL_ASKED ||
            allocation->asked == 0);
}

static bool empty_from(const struct plain_book *book, unsigned place)
{
    for (; place < PLAIN_ALLOCATIONS; place++)
        if (!allocation_empty(&book->ledger[place]))
            return false;
    return true;
}

static bool ledger_sound(const struct plain_book *book)
{
    uint64_t live[PLAIN_PARTICIPANTS] = {0}; /* pending and accepted */

    for (unsigned i = 0; i < book->month.given; i++) {
        const struct plain_allocation *allocation = &book->ledger[i];

        if (!allocation_sound(book, allocation))
            return false;
        if (allocation->status == PLAIN_SUBMITTED ||
            counts_as_accepted(allocation))
            live[allocation->generator] += allocation->quantity;
    }
    for (unsigned i = 0; i < PLAIN_PARTICIPANTS; i++)
        if (live[i] > PLAIN_QUANTITY_MAX)
            return false;
    return empty_from(book, book->month.given);
}

static bool month_fresh(const struct plain_month *month)
{
    if (month->days != 0 || month->given != 0 || month->last != 0 ||
        month->price != 0)
        return false;
    for (unsigned i = 0; i < PLAIN_WINDOWS; i++)
        if (month->windows[i].opening != 0 || month->windows[i].closing != 0)
            return false;
    return true;
}

static bool accounts_fresh(const struct plain_book *book)
{
    for (unsigned i = 0; i < PLAIN_PARTICIPANTS; i++) {
        const struct plain_account *account = &book->accounts[i];

        if (account->roles != 0 || account->requirement != 0 ||
            account->figure != 0 || account->net_at_figure != 0)
            return false;
    }
    return true;
}

bool plain_sound(const struct plain_book *book)
{
    if (book->month.days == 0)
        return month_fresh(&book->month) && accounts_fresh(book) &&
               levels_within(book, 0) && empty_from(book, 0);
    return month_sound(&book->month) && accounts_sound(book) &&
           levels_sound(book) && ledger_sound(book);
}

/* ------------------------------------------------------------------ */
/* Settlement                                                         */

static void total_all(const struct plain_book *book,
                      struct totals totals[PLAIN_PARTICIPANTS])
{
    memset(totals, 0, PLAIN_PARTICIPANTS * sizeof *totals);
    for (unsigned i = 0; i < book->month.given; i++) {
        const struct plain_allocation *allocation = &book->ledger[i];

        if (counts_as_accepted(allocation)) {
            totals[allocation->generator].made += allocation->quantity;
            totals[allocation->customer].received += allocation->quantity;
        }
    }
}

static struct plain_figures figures_of(const struct plain_book *book,
                                       unsigned participant,
                                       const struct totals *totals,
                                       plain_quantity tradeable)
{
    plain_quantity requirement = book->accounts[participant].requirement;
    plain_quantity over = above(totals->received, requirement);

    return (struct plain_figures){
        .participant = (uint8_t)participant,
        .tradeable = tradeable,
        .made = totals->made,
        .received = totals->received,
        .left = tradeable - totals->made,
        .over = over,
        .shortage = above(requirement, totals->received),
        .dsm = dsm_of(book, participant),
        .pay = over * book->month.price,
    };
}

enum plain_reason plain_settle_sound(const struct plain_book *book,
                                     struct plain_settlement *result)
{
    struct totals totals[PLAIN_PARTICIPANTS];
    plain_quantity tradeable[PLAIN_PARTICIPANTS] = {0};

    if (book->month.days == 0)
        return PLAIN_NO_MONTH;
    total_all(book, totals);
    for (unsigned i = 0; i < PLAIN_PARTICIPANTS; i++) {
        if (has_role(book, i, PLAIN_GENERATOR))
            tradeable[i] = tradeable_of(book, i);
        if (totals[i].made > tradeable[i])
            return PLAIN_UNSETTLED;
    }
    result->count = 0;
    for (unsigned i = 0; i < PLAIN_PARTICIPANTS; i++)
        if (registered(book, i))
            result->figures[result->count++] =
                figures_of(book, i, &totals[i], tradeable[i]);
    return PLAIN_DONE;
}

enum plain_reason plain_settle(const struct plain_book *book,
                               struct plain_settlement *result)
{
    if (!plain_sound(book))
        return PLAIN_MALFORMED;
    return plain_settle_sound(book, result);
}
