/* lent.c - a lent book beside one of the plain desk. */
#include "lent.h"

#include <inttypes.h>
#include <stdio.h>
#include <string.h>

static void account_from(int64_t *at, const struct plain_account *account)
{
    at[RIONVAKHE_ROLES] = account->roles;
    at[RIONVAKHE_REQUIREMENT] = account->requirement;
    at[RIONVAKHE_FIGURE] = account->figure;
    at[RIONVAKHE_NET] = account->net_at_figure;
}

static void record_from(int64_t *at, const struct plain_allocation *record)
{
    at[RIONVAKHE_GENERATOR] = record->generator;
    at[RIONVAKHE_CUSTOMER] = record->customer;
    at[RIONVAKHE_QUANTITY] = record->quantity;
    at[RIONVAKHE_STATUS] = record->status;
    at[RIONVAKHE_ASKED] = record->asked;
}

void lent_from(struct lent *lent, const struct plain_book *book)
{
    int64_t *numbers = lent->book;

    numbers[RIONVAKHE_DAYS_AT] = book->month.days;
    numbers[RIONVAKHE_PRICE_AT] = book->month.price;
    numbers[RIONVAKHE_LAST_AT] = book->month.last;
    numbers[RIONVAKHE_GIVEN_AT] = book->month.given;
    for (int w = 1; w <= PLAIN_WINDOWS; w++) {
        int64_t *at = numbers + RIONVAKHE_WINDOW_AT(w);

        at[RIONVAKHE_OPENING] = book->month.windows[w - 1].opening;
        at[RIONVAKHE_CLOSING] = book->month.windows[w - 1].closing;
    }
    for (int p = 0; p < PLAIN_PARTICIPANTS; p++)
        account_from(numbers + RIONVAKHE_ACCOUNT_AT(p), &book->accounts[p]);
    for (int n = 1; n <= PLAIN_ALLOCATIONS; n++)
        record_from(numbers + RIONVAKHE_RECORD_AT(n), &book->ledger[n - 1]);
    memcpy(lent->levels, book->levels, sizeof lent->levels);
}

static bool fits(int64_t number, int64_t low, int64_t high)
{
    return low <= number && number <= high;
}

static bool fits_minute(int64_t number)
{
    return fits(number, INT32_MIN, INT32_MAX);
}

static bool month_to(const int64_t *numbers, struct plain_month *month)
{
    for (int w = 1; w <= PLAIN_WINDOWS; w++) {
        const int64_t *at = numbers + RIONVAKHE_WINDOW_AT(w);

        if (!fits_minute(at[RIONVAKHE_OPENING]) ||
            !fits_minute(at[RIONVAKHE_CLOSING]))
            return false;
        month->windows[w - 1].opening = (int32_t)at[RIONVAKHE_OPENING];
        month->windows[w - 1].closing = (int32_t)at[RIONVAKHE_CLOSING];
    }
    if (!fits(numbers[RIONVAKHE_DAYS_AT], 0, UINT8_MAX) ||
        !fits_minute(numbers[RIONVAKHE_LAST_AT]) ||
        !fits(numbers[RIONVAKHE_GIVEN_AT], 0, UINT16_MAX))
        return false;
    month->days = (uint8_t)numbers[RIONVAKHE_DAYS_AT];
    month->price = numbers[RIONVAKHE_PRICE_AT];
    month->last = (int32_t)numbers[RIONVAKHE_LAST_AT];
    month->given = (uint16_t)numbers[RIONVAKHE_GIVEN_AT];
    return true;
}

static bool account_to(const int64_t *at, struct plain_account *account)
{
    if (!fits(at[RIONVAKHE_ROLES], 0, UINT8_MAX) ||
        !fits(at[RIONVAKHE_REQUIREMENT], 0, UINT32_MAX) ||
        !fits(at[RIONVAKHE_NET], INT32_MIN, INT32_MAX))
        return false;
    account->roles = (uint8_t)at[RIONVAKHE_ROLES];
    account->requirement = (uint32_t)at[RIONVAKHE_REQUIREMENT];
    account->figure = at[RIONVAKHE_FIGURE];
    account->net_at_figure = (int32_t)at[RIONVAKHE_NET];
    return true;
}

static bool record_to(const int64_t *at, struct plain_allocation *record)
{
    if (!fits(at[RIONVAKHE_GENERATOR], 0, UINT8_MAX) ||
        !fits(at[RIONVAKHE_CUSTOMER], 0, UINT8_MAX) ||
        !fits(at[RIONVAKHE_QUANTITY], 0, UINT32_MAX) ||
        !fits(at[RIONVAKHE_STATUS], PLAIN_EMPTY, PLAIN_REVERSED) ||
        !fits_minute(at[RIONVAKHE_ASKED]))
        return false;
    record->generator = (uint8_t)at[RIONVAKHE_GENERATOR];
    record->customer = (uint8_t)at[RIONVAKHE_CUSTOMER];
    record->quantity = (uint32_t)at[RIONVAKHE_QUANTITY];
    record->status = (uint8_t)at[RIONVAKHE_STATUS];
    record->asked = (int32_t)at[RIONVAKHE_ASKED];
    return true;
}

bool lent_to(const struct lent *lent, struct plain_book *book)
{
    memset(book, 0, sizeof *book);
    if (!month_to(lent->book, &book->month))
        return false;
    for (int p = 0; p < PLAIN_PARTICIPANTS; p++)
        if (!account_to(lent->book + RIONVAKHE_ACCOUNT_AT(p),
                        &book->accounts[p]))
            return false;
    for (int n = 1; n <= PLAIN_ALLOCATIONS; n++)
        if (!record_to(lent->book + RIONVAKHE_RECORD_AT(n),
                       &book->ledger[n - 1]))
            return false;
    memcpy(book->levels, lent->levels, sizeof book->levels);
    return true;
}

bool lent_same(const struct lent *one, const struct lent *other)
{
    return memcmp(one->book, other->book, sizeof one->book) == 0 &&
           memcmp(one->levels, other->levels, sizeof one->levels) == 0;
}

/* What stands at a place of the numbers. */
static void print_place(int place)
{
    static const char *const month[] = {"days", "price", "last step's minute",
                                        "number given"};
    static const char *const account[] = {"roles", "requirement", "figure",
                                          "net at the figure"};
    static const char *const record[] = {"generator", "customer", "quantity",
                                         "status", "minute of the asking"};

    if (place < RIONVAKHE_WINDOWS_AT)
        printf("%s", month[place]);
    else if (place < RIONVAKHE_ACCOUNTS_AT)
        printf("window %d, %s", (place - RIONVAKHE_WINDOWS_AT) / 2 + 1,
               place % 2 == 0 ? "opening" : "closing");
    else if (place < RIONVAKHE_RECORDS_AT)
        printf("participant %d, %s", (place - RIONVAKHE_ACCOUNTS_AT) / 4,
               account[(place - RIONVAKHE_ACCOUNTS_AT) % 4]);
    else
        printf("allocation %d, %s", (place - RIONVAKHE_RECORDS_AT) / 5 + 1,
               record[(place - RIONVAKHE_RECORDS_AT) % 5]);
}

void lent_print_difference(const struct lent *one, const char *one_name,
                           const struct lent *other, const char *other_name)
{
    for (int i = 0; i < RIONVAKHE_BOOK; i++)
        if (one->book[i] != other->book[i]) {
            printf("  ");
            print_place(i);
            printf(" (number %d): %s %" PRId64 ", %s %" PRId64 "\n", i,
                   one_name, one->book[i], other_name, other->book[i]);
            return;
        }
    for (int i = 0; i < RIONVAKHE_LEVELS; i++)
        if (one->levels[i] != other->levels[i]) {
            printf("  level of participant %d, kind %d, day %d: %s %" PRIu32
                   ", %s %" PRIu32 "\n",
                   i / 124, i % 124 / 31 + 1, i % 31 + 1, one_name,
                   one->levels[i], other_name, other->levels[i]);
            return;
        }
}
