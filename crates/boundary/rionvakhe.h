/*
 * rionvakhe.h - the proved core of the desk for Capacity Credit Allocations,
 * for programs in C: libboundary.a, which is what `rt lib` makes in
 * crates/boundary_c, out/libboundary_c.a, under that name.
 *
 * The library keeps nothing between calls: no book, no allocation, no party,
 * no screen. A call lends it a book, with a record, a history or a room for
 * figures, and gets the answer; when the call returns, all that there is
 * stands in the memory that was lent. Nothing is allocated and nothing is
 * printed. Two calls may run at the same time if they lend no memory in
 * common, so keep one book for each user or lock the one you have.
 *
 * No allocation is ever "open". There is no way to select one first and act
 * on it afterwards: every record names its own parties and its own allocation
 * number, so a tap on an old screen cannot reach another allocation than the
 * one whose number is in its record.
 *
 * Every length and every content is answered. A book that is not one - too
 * short, a status of 9, a participant that is not registered - answers 1, and
 * not a number of it changes. A refused call never changes a book.
 *
 * Lengths are counted in elements, not in bytes. A pointer is never NULL,
 * also where the length is 0, and what is lent to one call does not overlap.
 */
#ifndef RIONVAKHE_H
#define RIONVAKHE_H

#include <stddef.h>
#include <stdint.h>

#ifdef __cplusplus
extern "C" {
#endif

/* ---- how much there is */
enum {
    RIONVAKHE_PARTICIPANTS = 32,  /* 0 to 31 */
    RIONVAKHE_ALLOCATIONS = 256,  /* numbers 1 to 256 */
    RIONVAKHE_KINDS = 4,          /* of credits, 1 to 4 */
    RIONVAKHE_DAYS = 31,          /* rows of levels, also in a shorter month */
    RIONVAKHE_RECORD_BYTES = 24   /* a step record */
};

/*
 * ---- a lent book: two arrays, one of 1,420 numbers and one of 3,968 levels
 *
 * Quantities are thousandths of a MW, money is whole cents, times are signed
 * minutes from 8:00 on the month's first day.
 */
enum {
    RIONVAKHE_BOOK = 1420,
    RIONVAKHE_LEVELS = 3968
};

/* The month. */
enum {
    RIONVAKHE_DAYS_AT = 0,     /* D, 28 to 31; 0 while no month is open */
    RIONVAKHE_PRICE_AT = 1,    /* P, cents per MW for the month */
    RIONVAKHE_LAST_AT = 2,     /* minute of the last step done */
    RIONVAKHE_GIVEN_AT = 3,    /* last allocation number given, 0 to 256 */
    RIONVAKHE_WINDOWS_AT = 4,  /* four windows of two numbers */
    RIONVAKHE_ACCOUNTS_AT = 12,
    RIONVAKHE_RECORDS_AT = 140
};

/* A window is open when opening <= t < closing. */
enum {
    RIONVAKHE_WINDOW = 2, /* numbers in one */
    RIONVAKHE_OPENING = 0,
    RIONVAKHE_CLOSING = 1
};
enum { /* windows, from 1 */
    RIONVAKHE_SUBMIT_WINDOW = 1,
    RIONVAKHE_ACCEPT_WINDOW = 2,
    RIONVAKHE_WITHDRAW_WINDOW = 3,
    RIONVAKHE_REVERSAL_WINDOW = 4
};

/* A participant's account. */
enum {
    RIONVAKHE_ACCOUNT = 4,  /* numbers in one */
    RIONVAKHE_ROLES = 0,    /* 0 not registered, 1 generator, 2 customer, 3 both */
    RIONVAKHE_REQUIREMENT = 1,
    RIONVAKHE_FIGURE = 2,   /* margin figure, cents */
    RIONVAKHE_NET = 3       /* net at that figure */
};

/* A record of the ledger; number n has place n - 1. */
enum {
    RIONVAKHE_RECORD = 5,   /* numbers in one */
    RIONVAKHE_GENERATOR = 0,
    RIONVAKHE_CUSTOMER = 1,
    RIONVAKHE_QUANTITY = 2,
    RIONVAKHE_STATUS = 3,
    RIONVAKHE_ASKED = 4     /* minute of the asking; 0 unless status 4 */
};
enum {
    RIONVAKHE_EMPTY = 0,
    RIONVAKHE_SUBMITTED = 1,
    RIONVAKHE_WITHDRAWN = 2,
    RIONVAKHE_ACCEPTED = 3,
    RIONVAKHE_REVERSAL_ASKED = 4,
    RIONVAKHE_REVERSED = 5
};

/* Where things stand: window from 1, participant from 0, number, kind and day
 * from 1. */
#define RIONVAKHE_WINDOW_AT(window) \
    (RIONVAKHE_WINDOWS_AT + ((window) - 1) * RIONVAKHE_WINDOW)
#define RIONVAKHE_ACCOUNT_AT(participant) \
    (RIONVAKHE_ACCOUNTS_AT + (participant) * RIONVAKHE_ACCOUNT)
#define RIONVAKHE_RECORD_AT(number) \
    (RIONVAKHE_RECORDS_AT + ((number) - 1) * RIONVAKHE_RECORD)
#define RIONVAKHE_LEVEL_AT(participant, kind, day) \
    ((participant) * 124 + ((kind) - 1) * 31 + ((day) - 1))

/*
 * ---- an answer: the reason, and 32 times a number
 *
 * Reason 0 is done. The number is the allocation number that a done SUBMIT
 * gives, else 0; in the answer of a settlement it is how many participants
 * are listed.
 */
#define RIONVAKHE_REASON(answer) ((unsigned)((answer) % 32))
#define RIONVAKHE_NUMBER(answer) ((unsigned)((answer) / 32))

enum {
    RIONVAKHE_DONE = 0,
    RIONVAKHE_MALFORMED = 1,        /* the record, a length, or the book */
    RIONVAKHE_NO_MONTH = 2,         /* no month open */
    RIONVAKHE_ALREADY = 3,          /* month open, or A registered, already */
    RIONVAKHE_CLOCK = 4,            /* minute below the last step's */
    RIONVAKHE_UNKNOWN = 5,          /* participant or number not there */
    RIONVAKHE_WRONG_PARTY = 6,      /* wrong role, or not the named party */
    RIONVAKHE_RANGE = 7,            /* number outside its range */
    RIONVAKHE_WINDOW_SHUT = 8,      /* window not open */
    RIONVAKHE_WRONG_STATUS = 9,     /* status does not allow it */
    RIONVAKHE_WAS_WITHDRAWN = 10,   /* ACCEPT of a withdrawn submission */
    RIONVAKHE_LEDGER_FULL = 11,     /* 256 numbers already given */
    RIONVAKHE_INSUFFICIENT = 12,    /* too few tradeable credits */
    RIONVAKHE_MARGIN_NEGATIVE = 13, /* margin test fails */
    RIONVAKHE_LEVEL = 14,           /* a day's level would not hold it */
    RIONVAKHE_EXCESS = 15,          /* amendment does not fit the excess */
    RIONVAKHE_UNSETTLED = 16        /* settlement: a generator has an excess */
};

/*
 * Writes the fresh book - no month open, all else zero - over whatever stood
 * there, and answers 0. Answers 1, and writes nothing, unless the book has
 * 1,420 numbers and 3,968 levels.
 */
uint64_t rionvakhe_fresh(int64_t *book, size_t book_length, uint32_t *levels,
                         size_t levels_length);

/*
 * One step record on a lent book. Where it is done, the book is the one after
 * the step; where it is refused, not a number of the book has changed.
 */
uint64_t rionvakhe_step(int64_t *book, size_t book_length, uint32_t *levels,
                        size_t levels_length, const uint8_t *record,
                        size_t record_length);

/*
 * Every record of a history in turn, 24 bytes each; a short last piece is one
 * record, which is refused. Goes on as far as there is room for answers:
 * writes an answer for each and returns how many. Room past them stays as it
 * is. One call on a history leaves what as many calls on its records do, and
 * takes the book apart and puts it together only once.
 */
uint64_t rionvakhe_run(int64_t *book, size_t book_length, uint32_t *levels,
                       size_t levels_length, const uint8_t *history,
                       size_t history_length, uint64_t *answers,
                       size_t answers_length);

/*
 * ---- settlement: nine numbers for each registered participant, in order
 *
 * Lend 288 numbers. The answer's number says how many participants are
 * listed; room past them stays as it is. Where settlement is refused (1, 2 or
 * 16, or 1 for a room of another length) nothing is written.
 */
enum {
    RIONVAKHE_FIGURES = 288,      /* numbers to lend: 32 times nine */
    RIONVAKHE_LINE = 9,           /* numbers for a participant */
    RIONVAKHE_LINE_PARTICIPANT = 0,
    RIONVAKHE_LINE_TRADEABLE = 1,
    RIONVAKHE_LINE_MADE = 2,
    RIONVAKHE_LINE_RECEIVED = 3,
    RIONVAKHE_LINE_LEFT = 4,
    RIONVAKHE_LINE_OVER = 5,
    RIONVAKHE_LINE_SHORT = 6,
    RIONVAKHE_LINE_DSM = 7,
    RIONVAKHE_LINE_PAY = 8        /* thousandths of a cent */
};

uint64_t rionvakhe_settle(const int64_t *book, size_t book_length,
                          const uint32_t *levels, size_t levels_length,
                          uint64_t *figures, size_t figures_length);

#ifdef __cplusplus
}
#endif

#endif
