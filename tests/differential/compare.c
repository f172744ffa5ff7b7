/* compare.c - each call of rionvakhe.h beside the plain desk. */
#include "compare.h"

#include <inttypes.h>
#include <stdio.h>
#include <string.h>

enum { GUARD = 8, ANSWERS = 1024 };

#define MARK UINT64_C(0x6b6565706d65006b)

struct counts counts;

/* What is lent, with numbers on both sides that nobody may touch. */
static struct {
    int64_t before[GUARD];
    int64_t book[RIONVAKHE_BOOK];
    int64_t after[GUARD];
} numbers;

static struct {
    uint32_t before[GUARD];
    uint32_t levels[RIONVAKHE_LEVELS];
    uint32_t after[GUARD];
} table;

static struct {
    uint64_t before[GUARD];
    uint64_t words[ANSWERS];
    uint64_t after[GUARD];
} room;

static void lend(const struct lent *lent)
{
    for (int i = 0; i < GUARD; i++) {
        numbers.before[i] = numbers.after[i] = (int64_t)MARK;
        table.before[i] = table.after[i] = (uint32_t)MARK;
        room.before[i] = room.after[i] = MARK;
    }
    memcpy(numbers.book, lent->book, sizeof numbers.book);
    memcpy(table.levels, lent->levels, sizeof table.levels);
    for (int i = 0; i < ANSWERS; i++)
        room.words[i] = MARK + (uint64_t)i;
}

static void take_back(struct lent *lent)
{
    memcpy(lent->book, numbers.book, sizeof numbers.book);
    memcpy(lent->levels, table.levels, sizeof table.levels);
}

static bool guards_stand(void)
{
    for (int i = 0; i < GUARD; i++)
        if (numbers.before[i] != (int64_t)MARK ||
            numbers.after[i] != (int64_t)MARK ||
            table.before[i] != (uint32_t)MARK ||
            table.after[i] != (uint32_t)MARK || room.before[i] != MARK ||
            room.after[i] != MARK) {
            printf("  memory beside what was lent is written\n");
            return false;
        }
    return true;
}

/* The room from a place on is as it was lent. */
static bool room_stands(size_t from)
{
    for (size_t i = from; i < ANSWERS; i++)
        if (room.words[i] != MARK + i) {
            printf("  room at place %zu is written: %" PRIu64 "\n", i,
                   room.words[i]);
            return false;
        }
    return true;
}

static uint64_t word_of(struct plain_answer answer)
{
    return answer.reason + UINT64_C(32) * answer.number;
}

static bool same_word(const char *what, uint64_t plain, uint64_t boundary)
{
    if (plain == boundary)
        return true;
    printf("  %s: plain %" PRIu64 " (reason %" PRIu64 ", number %" PRIu64
           "), boundary %" PRIu64 " (reason %" PRIu64 ", number %" PRIu64
           ")\n",
           what, plain, plain % 32, plain / 32, boundary, boundary % 32,
           boundary / 32);
    return false;
}

/* The book that comes back is the one expected. */
static bool same_books(const struct lent *expected)
{
    struct lent back;

    take_back(&back);
    if (lent_same(expected, &back))
        return guards_stand();
    lent_print_difference(expected, "plain", &back, "boundary");
    return false;
}

static void count_answer(const uint8_t *record, uint64_t word)
{
    counts.reasons[word % 32]++;
    if (word % 32 == 0)
        counts.done[record[0]]++;
}

/* Whether a cut parted two equal quantities of one generator. */
static bool parted(const struct plain_book *before,
                   const struct plain_book *after, uint8_t generator)
{
    for (int i = 0; i < before->month.given; i++)
        for (int j = i + 1; j < before->month.given; j++)
            if (before->ledger[i].generator == generator &&
                before->ledger[j].generator == generator &&
                before->ledger[i].quantity == before->ledger[j].quantity &&
                (before->ledger[i].status == PLAIN_ACCEPTED ||
                 before->ledger[i].status == PLAIN_REVERSAL_ASKED) &&
                (before->ledger[j].status == PLAIN_ACCEPTED ||
                 before->ledger[j].status == PLAIN_REVERSAL_ASKED) &&
                after->ledger[i].quantity != after->ledger[j].quantity)
                return true;
    return false;
}

bool compare_fresh(struct lent *lent)
{
    struct plain_book plain;
    struct lent expected;
    uint64_t answer;

    plain_fresh(&plain);
    lent_from(&expected, &plain);
    lend(lent);
    answer = rionvakhe_fresh(numbers.book, RIONVAKHE_BOOK, table.levels,
                             RIONVAKHE_LEVELS);
    take_back(lent);
    return same_word("fresh", 0, answer) && same_books(&expected);
}

/* What the plain desk makes of one record on any numbers. */
static uint64_t plain_word(struct lent *lent, const uint8_t *record,
                           size_t length)
{
    struct plain_book before;
    struct plain_book book;
    struct plain_answer answer;

    if (!lent_to(lent, &book)) {
        counts.books_unread++;
        return PLAIN_MALFORMED;
    }
    if (!plain_sound(&book))
        counts.books_refused++;
    before = book;
    answer = plain_step(&book, record, length);
    if (answer.reason == PLAIN_DONE && record[0] == PLAIN_OPERATOR_AMENDS)
        counts.ties += parted(&before, &book, record[1]);
    lent_from(lent, &book);
    return word_of(answer);
}

bool compare_step(struct lent *lent, const uint8_t *record, size_t length)
{
    struct lent expected = *lent;
    uint64_t plain = plain_word(&expected, record, length);
    uint64_t boundary;

    lend(lent);
    boundary = rionvakhe_step(numbers.book, RIONVAKHE_BOOK, table.levels,
                              RIONVAKHE_LEVELS, record, length);
    take_back(lent);
    counts.steps++;
    count_answer(record, plain);
    return same_word("answer", plain, boundary) && same_books(&expected);
}

/* The answers of a run on any numbers, so many as there is room for. */
static size_t plain_words(struct lent *lent, const uint8_t *history,
                          size_t length, size_t places, uint64_t *words)
{
    static struct plain_answer answers[ANSWERS];
    struct plain_book book;
    size_t count = (length + PLAIN_RECORD_BYTES - 1) / PLAIN_RECORD_BYTES;

    if (count > places) {
        count = places;
        length = count * PLAIN_RECORD_BYTES;
        counts.short_rooms++;
    }
    if (!lent_to(lent, &book)) {
        for (size_t i = 0; i < count; i++)
            words[i] = PLAIN_MALFORMED;
        counts.books_unread++;
        return count;
    }
    plain_run(&book, history, length, answers);
    for (size_t i = 0; i < count; i++)
        words[i] = word_of(answers[i]);
    lent_from(lent, &book);
    return count;
}

bool compare_run(struct lent *lent, const uint8_t *history, size_t length,
                 size_t places, size_t *done)
{
    static uint64_t words[ANSWERS];
    struct lent expected = *lent;
    size_t count = plain_words(&expected, history, length, places, words);
    uint64_t boundary;

    lend(lent);
    boundary = rionvakhe_run(numbers.book, RIONVAKHE_BOOK, table.levels,
                             RIONVAKHE_LEVELS, history, length, room.words,
                             places);
    take_back(lent);
    counts.runs++;
    *done = count;
    if (boundary != count) {
        printf("  records done: plain %zu, boundary %" PRIu64 "\n", count,
               boundary);
        return false;
    }
    for (size_t i = 0; i < count; i++) {
        char name[48];

        snprintf(name, sizeof name, "answer at place %zu of the run", i + 1);
        count_answer(history + i * PLAIN_RECORD_BYTES, words[i]);
        if (!same_word(name, words[i], room.words[i]))
            return false;
    }
    return room_stands(count) && same_books(&expected);
}

static void figures_of(const struct plain_figures *f, uint64_t *line)
{
    line[RIONVAKHE_LINE_PARTICIPANT] = f->participant;
    line[RIONVAKHE_LINE_TRADEABLE] = f->tradeable;
    line[RIONVAKHE_LINE_MADE] = f->made;
    line[RIONVAKHE_LINE_RECEIVED] = f->received;
    line[RIONVAKHE_LINE_LEFT] = f->left;
    line[RIONVAKHE_LINE_OVER] = f->over;
    line[RIONVAKHE_LINE_SHORT] = f->shortage;
    line[RIONVAKHE_LINE_DSM] = f->dsm;
    line[RIONVAKHE_LINE_PAY] = (uint64_t)f->pay;
}

/* The figures of the first participants stand in the room. */
static bool same_figures(const struct plain_settlement *plain)
{
    for (uint32_t i = 0; i < plain->count; i++) {
        uint64_t line[RIONVAKHE_LINE];

        figures_of(&plain->figures[i], line);
        for (int k = 0; k < RIONVAKHE_LINE; k++)
            if (room.words[i * RIONVAKHE_LINE + (uint32_t)k] != line[k]) {
                printf("  settlement, line %" PRIu32 ", figure %d: plain "
                       "%" PRIu64 ", boundary %" PRIu64 "\n",
                       i + 1, k, line[k],
                       room.words[i * RIONVAKHE_LINE + (uint32_t)k]);
                return false;
            }
    }
    return room_stands((size_t)plain->count * RIONVAKHE_LINE);
}

bool compare_settle(const struct lent *lent)
{
    struct plain_settlement plain = {.count = 0};
    struct plain_book book;
    enum plain_reason reason = PLAIN_MALFORMED;
    uint64_t boundary;

    if (lent_to(lent, &book))
        reason = plain_settle(&book, &plain);
    lend(lent);
    boundary = rionvakhe_settle(numbers.book, RIONVAKHE_BOOK, table.levels,
                                RIONVAKHE_LEVELS, room.words,
                                RIONVAKHE_FIGURES);
    counts.settled[reason]++;
    return same_word("settlement", (uint64_t)reason + 32u * plain.count,
                     boundary) &&
           same_figures(&plain) && same_books(lent);
}

/* Some length that is not the right one. */
static size_t other_length(struct random *r, size_t right)
{
    switch (random_below(r, 4)) {
    case 0:
        return right + 1;
    case 1:
        return right - 1;
    case 2:
        return 0;
    default:
        return random_below(r, (uint32_t)right);
    }
}

/* Every call on a book of these lengths answers 1, and writes no book. */
static bool all_refuse(size_t book, size_t levels, const uint8_t *record)
{
    return same_word("fresh, wrong length", 1,
                     rionvakhe_fresh(numbers.book, book, table.levels,
                                     levels)) &&
           same_word("step, wrong length", 1,
                     rionvakhe_step(numbers.book, book, table.levels, levels,
                                    record, PLAIN_RECORD_BYTES)) &&
           same_word("settlement, wrong length", 1,
                     rionvakhe_settle(numbers.book, book, table.levels,
                                      levels, room.words,
                                      RIONVAKHE_FIGURES)) &&
           room_stands(0) &&
           same_word("records of a run, wrong length", 1,
                     rionvakhe_run(numbers.book, book, table.levels, levels,
                                   record, PLAIN_RECORD_BYTES, room.words,
                                   ANSWERS)) &&
           same_word("run, wrong length", 1, room.words[0]) && room_stands(1);
}

bool compare_wrong_lengths(const struct lent *lent, struct random *r,
                           const uint8_t *record)
{
    bool wrong_book = random_chance(r, 50);
    size_t book = RIONVAKHE_BOOK;
    size_t levels = RIONVAKHE_LEVELS;
    uint64_t answer;

    if (wrong_book)
        book = other_length(r, RIONVAKHE_BOOK);
    if (!wrong_book || random_chance(r, 30))
        levels = other_length(r, RIONVAKHE_LEVELS);
    counts.wrong_lengths++;
    lend(lent);
    answer = rionvakhe_settle(numbers.book, RIONVAKHE_BOOK, table.levels,
                              RIONVAKHE_LEVELS, room.words,
                              other_length(r, RIONVAKHE_FIGURES));
    return same_word("settlement, wrong room", 1, answer) &&
           all_refuse(book, levels, record) && same_books(lent);
}
