/*
 * differential.c - the proved core beside the plain desk, over random months.
 *
 *     differential [MONTHS [SEED [FOLDER]]]
 *
 * Drives both over months made to be done often: step by step and by runs,
 * with damaged records, damaged books, wrong lengths and settlements between.
 * After each call the answer, the whole book and all levels are compared.
 * Month i (from 0) is made from SEED + i alone, so MONTHS 1 with that seed
 * gives it again. The pairs of FOLDER are run first, if one is given.
 */
#include "compare.h"
#include "damage.h"
#include "months.h"
#include "vectors.h"

#include <inttypes.h>
#include <stdio.h>
#include <stdlib.h>
#include <string.h>

enum { MOST_RECORDS = 800, DEFAULT_MONTHS = 240, DEFAULT_SEED = 20170601 };

struct month {
    uint64_t seed;
    struct random random;
    enum style style;
    struct lent lent;
    uint8_t history[MOST_RECORDS * PLAIN_RECORD_BYTES];
    size_t records;
};

static bool fail(const struct month *m, const char *what, size_t place,
                 const uint8_t *record)
{
    printf("differential: %s differs, month of seed %" PRIu64
           " (%s), record %zu:\n ",
           what, m->seed, style_names[m->style], place);
    for (int i = 0; record != NULL && i < PLAIN_RECORD_BYTES; i++)
        printf(" %02x", record[i]);
    printf("\n");
    return false;
}

/* A damaged copy of the book: a step, a settlement and a run on it. */
static bool try_damage(struct month *m, size_t place, const uint8_t *record)
{
    struct lent trial = m->lent;
    size_t done;

    lent_damage(&m->random, &trial);
    if (!compare_step(&trial, record, PLAIN_RECORD_BYTES))
        return fail(m, "a step on a damaged book", place, record);
    if (!compare_settle(&trial))
        return fail(m, "settlement of a damaged book", place, record);
    trial = m->lent;
    lent_damage(&m->random, &trial);
    if (!compare_run(&trial, record, PLAIN_RECORD_BYTES,
                     random_below(&m->random, 3), &done))
        return fail(m, "a run on a damaged book", place, record);
    return true;
}

/* Records that are too short or too long. */
static bool try_length(struct month *m, size_t place, const uint8_t *record)
{
    uint8_t bytes[2 * PLAIN_RECORD_BYTES];
    size_t length = random_below(&m->random, 2 * PLAIN_RECORD_BYTES + 1);

    memcpy(bytes, record, PLAIN_RECORD_BYTES);
    memcpy(bytes + PLAIN_RECORD_BYTES, record, PLAIN_RECORD_BYTES);
    if (length != PLAIN_RECORD_BYTES && !compare_step(&m->lent, bytes, length))
        return fail(m, "a step of a wrong length", place, record);
    if (!compare_wrong_lengths(&m->lent, &m->random, record))
        return fail(m, "a call with a wrong length", place, record);
    return true;
}

/* What is tried between two records. */
static bool try_between(struct month *m, size_t place, const uint8_t *record)
{
    if (random_chance(&m->random, 8) && !try_damage(m, place, record))
        return false;
    if (random_chance(&m->random, 3) && !try_length(m, place, record))
        return false;
    if (random_chance(&m->random, 3) && !compare_settle(&m->lent))
        return fail(m, "settlement", place, record);
    return true;
}

static bool by_steps(struct month *m)
{
    for (size_t i = 0; i < m->records; i++) {
        uint8_t *record = m->history + i * PLAIN_RECORD_BYTES;
        struct plain_book plain;

        lent_to(&m->lent, &plain);
        month_next(&plain, m->style, &m->random, record);
        if (!try_between(m, i + 1, record))
            return false;
        if (!compare_step(&m->lent, record, PLAIN_RECORD_BYTES))
            return fail(m, "a step", i + 1, record);
    }
    return true;
}

/* A history that the plain desk alone has seen. */
static void make_history(struct month *m)
{
    static struct plain_book plain;

    plain_fresh(&plain);
    for (size_t i = 0; i < m->records; i++) {
        uint8_t *record = m->history + i * PLAIN_RECORD_BYTES;

        month_next(&plain, m->style, &m->random, record);
        plain_step_sound(&plain, record, PLAIN_RECORD_BYTES);
    }
}

/* The history in pieces of any size, with any room; the last one may be cut
 * short inside a record. */
static bool by_runs(struct month *m)
{
    size_t length;
    size_t at = 0;

    make_history(m);
    length = m->records * PLAIN_RECORD_BYTES;
    if (random_chance(&m->random, 50))
        length -= random_below(&m->random, PLAIN_RECORD_BYTES);
    while (at < length) {
        size_t bytes = length - at;
        size_t left = (bytes + PLAIN_RECORD_BYTES - 1) / PLAIN_RECORD_BYTES;
        size_t piece = random_chance(&m->random, 20)
                           ? left
                           : 1 + random_below(&m->random, (uint32_t)left);
        size_t places = random_chance(&m->random, 60)
                            ? piece + random_below(&m->random, 5)
                            : 1 + random_below(&m->random, (uint32_t)piece);
        size_t done;

        if (piece < left)
            bytes = piece * PLAIN_RECORD_BYTES;
        if (!compare_run(&m->lent, m->history + at, bytes, places, &done))
            return fail(m, "a run", at / PLAIN_RECORD_BYTES + 1,
                        m->history + at);
        at += done * PLAIN_RECORD_BYTES;
    }
    return true;
}

static bool month_agrees(uint64_t seed)
{
    static struct month m;

    m = (struct month){.seed = seed, .random = {seed}};
    m.style = month_style(&m.random);
    m.records = month_records(m.style, &m.random);
    for (size_t i = 0; i < sizeof m.lent.book / sizeof *m.lent.book; i++)
        m.lent.book[i] = (int64_t)random_bits(&m.random);
    for (size_t i = 0; i < RIONVAKHE_LEVELS; i++)
        m.lent.levels[i] = (uint32_t)random_bits(&m.random);
    if (!compare_fresh(&m.lent))
        return fail(&m, "the fresh book", 0, NULL);
    if (!(random_chance(&m.random, 70) ? by_steps(&m) : by_runs(&m)))
        return false;
    if (!compare_settle(&m.lent))
        return fail(&m, "settlement", m.records, NULL);
    for (int i = 0; i < 4; i++)
        if (!try_damage(&m, m.records, m.history) ||
            !try_length(&m, m.records, m.history))
            return false;
    return true;
}

static void print_counts(void)
{
    static const char *const kinds[] = {
        "", "OPEN", "WINDOW", "REGISTER", "REQUIREMENT", "MARGIN", "CREATE",
        "TERMINATE", "SUBMIT", "WITHDRAW", "ACCEPT", "ASK REVERSAL",
        "AGREE REVERSAL", "GENERATOR AMENDS", "OPERATOR AMENDS"};

    printf("records by reason:");
    for (int i = 0; i <= 15; i++)
        printf(" %d:%" PRIu64, i, counts.reasons[i]);
    printf("\ndone by kind:");
    for (int i = 1; i <= 14; i++)
        printf("%s %s %" PRIu64, i == 1 ? "" : ",", kinds[i], counts.done[i]);
    printf("\nsettlements by reason: 0:%" PRIu64 " 1:%" PRIu64 " 2:%" PRIu64
           " 16:%" PRIu64 "\n",
           counts.settled[0], counts.settled[1], counts.settled[2],
           counts.settled[16]);
    printf("cuts in which equal quantities parted: %" PRIu64 "\n",
           counts.ties);
    printf("steps %" PRIu64 ", runs %" PRIu64 " (%" PRIu64
           " stopped for want of room), books not sound %" PRIu64
           ", numbers that are no book %" PRIu64 ", wrong lengths %" PRIu64
           "\n",
           counts.steps, counts.runs, counts.short_rooms,
           counts.books_refused, counts.books_unread, counts.wrong_lengths);
}

int main(int argc, char **argv)
{
    uint64_t months = argc > 1 ? strtoull(argv[1], NULL, 10) : DEFAULT_MONTHS;
    uint64_t seed = argc > 2 ? strtoull(argv[2], NULL, 10) : DEFAULT_SEED;

    if (argc > 3 && !vectors_agree(argv[3]))
        return EXIT_FAILURE;
    for (uint64_t i = 0; i < months; i++)
        if (!month_agrees(seed + i)) {
            print_counts();
            return EXIT_FAILURE;
        }
    print_counts();
    printf("differential: %" PRIu64 " months from seed %" PRIu64 " agree\n",
           months, seed);
    return EXIT_SUCCESS;
}
