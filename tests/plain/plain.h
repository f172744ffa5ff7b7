/*
 * plain.h - the core of a desk for Capacity Credit Allocations, in plain C.
 *
 * One Trading Month, 32 participants, 256 allocations. The book is lent by
 * the caller and holds no pointers: it may be copied, compared and thrown
 * away as it is. Nothing here allocates memory or keeps anything of its own.
 *
 * Written from the paper alone, so that another desk can be compared with it.
 */
#ifndef PLAIN_H
#define PLAIN_H

#include <stdbool.h>
#include <stddef.h>
#include <stdint.h>

typedef uint32_t plain_quantity; /* thousandths of a MW */
typedef int64_t plain_cents;     /* whole cents */
typedef int32_t plain_minute;    /* minutes from 8:00 on the first day */

/* Sizes. */
enum {
    PLAIN_PARTICIPANTS = 32,
    PLAIN_KINDS = 4,
    PLAIN_DAYS = 31,
    PLAIN_LEVELS = PLAIN_PARTICIPANTS * PLAIN_KINDS * PLAIN_DAYS,
    PLAIN_ALLOCATIONS = 256,
    PLAIN_WINDOWS = 4,
    PLAIN_RECORD_BYTES = 24
};

/* Ranges; the lower end is 0, or minus the upper where a sign is allowed. */
enum {
    PLAIN_DAYS_MIN = 28,
    PLAIN_PRICE_MAX = 5000000,
    PLAIN_WINDOW_MAX = 1000000,
    PLAIN_LEVEL_MAX = 10000000,
    PLAIN_QUANTITY_MAX = 20000000,
    PLAIN_NET_MAX = 640000000
};
#define PLAIN_FIGURE_MAX INT64_C(100000000000)

/* The margin test. */
enum {
    PLAIN_DAY_MINUTES = 1440,
    PLAIN_FIGURE_SCALE = 10000, /* a figure in cents, in the test's units */
    PLAIN_PRICE_SCALE = 11      /* the price with tax, in tenths */
};

enum plain_kind {
    PLAIN_OPEN = 1,
    PLAIN_WINDOW,
    PLAIN_REGISTER,
    PLAIN_REQUIREMENT,
    PLAIN_MARGIN,
    PLAIN_CREATE,
    PLAIN_TERMINATE,
    PLAIN_SUBMIT,
    PLAIN_WITHDRAW,
    PLAIN_ACCEPT,
    PLAIN_ASK_REVERSAL,
    PLAIN_AGREE_REVERSAL,
    PLAIN_GENERATOR_AMENDS,
    PLAIN_OPERATOR_AMENDS
};

enum plain_role {
    PLAIN_GENERATOR = 1,
    PLAIN_CUSTOMER = 2,
    PLAIN_BOTH = PLAIN_GENERATOR | PLAIN_CUSTOMER
};

enum plain_credit {
    PLAIN_ORDINARY = 1,
    PLAIN_NETWORK_CONTROL = 2,
    PLAIN_SPECIAL_PRICE = 3,
    PLAIN_DSM = 4
};

enum plain_status {
    PLAIN_EMPTY,
    PLAIN_SUBMITTED,
    PLAIN_WITHDRAWN,
    PLAIN_ACCEPTED,
    PLAIN_REVERSAL_ASKED,
    PLAIN_REVERSED
};

enum plain_reason {
    PLAIN_DONE,
    PLAIN_MALFORMED,
    PLAIN_NO_MONTH,
    PLAIN_ALREADY,
    PLAIN_CLOCK,
    PLAIN_UNKNOWN,
    PLAIN_WRONG_PARTY,
    PLAIN_RANGE,
    PLAIN_WINDOW_SHUT,
    PLAIN_WRONG_STATUS,
    PLAIN_WAS_WITHDRAWN,
    PLAIN_LEDGER_FULL,
    PLAIN_INSUFFICIENT,
    PLAIN_MARGIN_NEGATIVE,
    PLAIN_LEVEL,
    PLAIN_EXCESS,
    PLAIN_UNSETTLED
};

struct plain_window {
    plain_minute opening;
    plain_minute closing;
};

struct plain_month {
    uint8_t days;      /* 0: no month open */
    uint16_t given;    /* last allocation number given */
    plain_minute last; /* minute of the last step done */
    plain_cents price; /* per MW for the month */
    struct plain_window windows[PLAIN_WINDOWS];
};

struct plain_account {
    plain_cents figure;
    int32_t net_at_figure; /* thousandths of a MW, either sign */
    plain_quantity requirement;
    uint8_t roles; /* 0: not registered */
};

struct plain_allocation {
    uint8_t generator;
    uint8_t customer;
    uint8_t status;
    plain_quantity quantity;
    plain_minute asked; /* 0 unless the status is REVERSAL ASKED */
};

struct plain_book {
    struct plain_month month;
    struct plain_account accounts[PLAIN_PARTICIPANTS];
    /* By participant, then kind, then day. */
    plain_quantity levels[PLAIN_LEVELS];
    /* Number n is at place n - 1. */
    struct plain_allocation ledger[PLAIN_ALLOCATIONS];
};

struct plain_answer {
    uint8_t reason;
    uint16_t number; /* given by a SUBMIT that was done, else 0 */
};

struct plain_figures {
    uint8_t participant;
    plain_quantity tradeable;
    plain_quantity made;
    plain_quantity received;
    plain_quantity left;
    plain_quantity over;
    plain_quantity shortage;
    plain_quantity dsm;
    int64_t pay; /* thousandths of a cent */
};

struct plain_settlement {
    uint32_t count;
    struct plain_figures figures[PLAIN_PARTICIPANTS];
};

/* Makes the fresh book: no month open, all else zero. */
void plain_fresh(struct plain_book *book);

bool plain_sound(const struct plain_book *book);

/* One step on a lent book. A refused step changes nothing. */
struct plain_answer plain_step(struct plain_book *book,
                               const uint8_t *record, size_t length);

/*
 * The same for a book known to be sound. The fresh book is, and no step makes
 * a sound book unsound, so a run from the fresh book need not look again.
 */
struct plain_answer plain_step_sound(struct plain_book *book,
                                     const uint8_t *record, size_t length);

/*
 * Every record of a file in turn, a short last piece being one record. Writes
 * an answer for each and returns how many.
 */
size_t plain_run(struct plain_book *book, const uint8_t *file, size_t length,
                 struct plain_answer *answers);

/*
 * The operator's cut: shares the tradeable credits out in proportion to the
 * quantities, in place, by largest remainders; equal remainders favour the
 * earlier. Takes at most 256 quantities. Where all are 0 they stay 0.
 */
void plain_cut(plain_quantity *quantities, size_t count,
               plain_quantity tradeable);

/*
 * The figures of each registered participant, in order. Answers the reason
 * for refusal, 1, 2 or 16, with the result untouched, or 0.
 */
enum plain_reason plain_settle(const struct plain_book *book,
                               struct plain_settlement *result);

/* The same for a book known to be sound. */
enum plain_reason plain_settle_sound(const struct plain_book *book,
                                     struct plain_settlement *result);

#endif
