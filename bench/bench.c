/*
 * bench.c - the proved desk against the plain one, in one run on the same
 * input: each line gives the time of both and their ratio, proved to plain,
 * so that below 1 the proved desk is the faster. Both are built for x86-64
 * and optimised; the best of several rounds counts. Before a figure is
 * printed the answers of the two are compared.
 */
#include "plain.h"
#include "rionvakhe.h"

#include <pthread.h>
#include <stdio.h>
#include <stdlib.h>
#include <string.h>
#include <time.h>

enum {
    ROUNDS = 7,
    RECORD = PLAIN_RECORD_BYTES,
    RECORDS_MOST = 1 << 19
};

/* One book in both forms. */
struct both {
    struct plain_book plain;
    int64_t book[RIONVAKHE_BOOK];
    uint32_t levels[RIONVAKHE_LEVELS];
};

static uint8_t history[RECORDS_MOST * RECORD];
static struct plain_answer plain_answers[RECORDS_MOST];
static uint64_t answers[RECORDS_MOST];
static struct both start, now;

static uint64_t seed = 20190601;

static uint32_t below(uint32_t bound)
{
    seed = seed * UINT64_C(6364136223846793005) + UINT64_C(1442695040888963407);
    return (uint32_t)((seed >> 33) % bound);
}

static double seconds(void)
{
    struct timespec t;

    clock_gettime(CLOCK_MONOTONIC, &t);
    return (double)t.tv_sec + (double)t.tv_nsec * 1e-9;
}

static void store(uint8_t *at, int bytes, uint64_t value)
{
    for (int i = 0; i < bytes; i++)
        at[i] = (uint8_t)(value >> (8 * (bytes - 1 - i)));
}

/* What a record says; a field that its kind does not use is left out. */
struct step {
    uint8_t kind, a, b, selector, day;
    int32_t minute;
    uint16_t number;
    uint32_t quantity;
    int64_t amount;
};

static void write_step(uint8_t *at, struct step s)
{
    memset(at, 0, RECORD);
    at[0] = s.kind;
    at[1] = s.a;
    at[2] = s.b;
    at[3] = s.selector;
    store(at + 4, 4, (uint32_t)s.minute);
    store(at + 8, 2, s.number);
    at[10] = s.day;
    store(at + 12, 4, s.quantity);
    store(at + 16, 8, (uint64_t)s.amount);
}

static void both_step(struct both *books, struct step s)
{
    uint8_t record[RECORD];
    struct plain_answer answer;
    uint64_t word;

    write_step(record, s);
    answer = plain_step(&books->plain, record, RECORD);
    word = rionvakhe_step(books->book, RIONVAKHE_BOOK, books->levels,
                          RIONVAKHE_LEVELS, record, RECORD);
    if (word != answer.reason + 32u * answer.number) {
        fprintf(stderr, "kind %d: plain %d %d, proved %d %d\n", s.kind,
                answer.reason, answer.number, (int)(word % 32),
                (int)(word / 32));
        exit(EXIT_FAILURE);
    }
}

static void both_fresh(struct both *books)
{
    plain_fresh(&books->plain);
    if (rionvakhe_fresh(books->book, RIONVAKHE_BOOK, books->levels,
                        RIONVAKHE_LEVELS) != 0)
        exit(EXIT_FAILURE);
}

/* A month of 30 days: everybody in both roles, windows open to the end. */
static void open_month(struct both *books, uint32_t level)
{
    both_fresh(books);
    both_step(books, (struct step){.kind = 1, .day = 30, .amount = 1200000});
    for (uint8_t window = 5; window <= 8; window++)
        both_step(books, (struct step){.kind = 2, .selector = window,
                                       .amount = 1000000});
    for (uint8_t p = 0; p < PLAIN_PARTICIPANTS; p++) {
        both_step(books, (struct step){.kind = 3, .a = p, .selector = 3});
        both_step(books, (struct step){.kind = 4, .a = p, .quantity = 5000});
        both_step(books, (struct step){.kind = 5, .a = p,
                                       .amount = INT64_C(90000000000)});
        both_step(books, (struct step){.kind = 6, .a = p, .selector = 1,
                                       .day = 1, .quantity = level});
    }
}

/* All 256 allocations of a few generators, submitted and accepted. */
static void fill_ledger(struct both *books, uint8_t generators)
{
    for (uint16_t n = 1; n <= PLAIN_ALLOCATIONS; n++) {
        uint8_t g = (uint8_t)(n % generators), c = (uint8_t)(n * 7 % 32);

        both_step(books, (struct step){.kind = 8, .a = g, .b = c,
                                       .quantity = 1000 + n * 37u});
        both_step(books, (struct step){.kind = 10, .a = c, .number = n});
    }
}

/* ---- the inputs of a run */

/* Credits created and taken back, all done. */
static struct step credit(uint32_t i)
{
    return (struct step){.kind = i % 2 ? 7 : 6, .a = (uint8_t)(i / 2 % 32),
                         .selector = (uint8_t)(1 + i / 64 % 4),
                         .day = (uint8_t)(1 + i / 2 % 30), .quantity = 500};
}

/* Figures and requirements, all done. */
static struct step figure(uint32_t i)
{
    if (i % 2)
        return (struct step){.kind = 4, .a = (uint8_t)(i % 32),
                             .quantity = below(20000000)};
    return (struct step){.kind = 5, .a = (uint8_t)(i % 32),
                         .amount = INT64_C(80000000000) + below(1000000)};
}

/* A reversal asked, looked at again and refused. */
static struct step trade(uint32_t i)
{
    uint16_t n = (uint16_t)(1 + below(256));
    uint8_t g = (uint8_t)(n % 4), c = (uint8_t)(n * 7 % 32);

    switch (i % 4) {
    case 0:
        return (struct step){.kind = 8, .a = g, .b = c, .quantity = 1 + below(9000)};
    case 1:
        return (struct step){.kind = 10, .a = c, .number = n};
    case 2:
        return (struct step){.kind = 11, .a = g, .number = n};
    default:
        return (struct step){.kind = 13, .a = g, .number = n, .quantity = below(900)};
    }
}

/* A month as it comes: all of these, and one record in sixteen damaged. */
static struct step mixed(uint32_t i)
{
    struct step s;

    switch (below(4)) {
    case 0:
        s = credit(i);
        break;
    case 1:
        s = figure(i);
        break;
    default:
        s = trade(i);
    }
    if (below(16) == 0)
        s.kind = (uint8_t)below(256);
    return s;
}

static void fill_history(struct step (*next)(uint32_t), size_t records)
{
    for (size_t i = 0; i < records; i++)
        write_step(history + i * RECORD, next((uint32_t)i));
}

/* ---- timing */
static double plain_run_time(size_t records)
{
    double best = 1e9;

    for (int round = 0; round < ROUNDS; round++) {
        double t;

        now.plain = start.plain;
        t = seconds();
        plain_run(&now.plain, history, records * RECORD, plain_answers);
        t = seconds() - t;
        best = t < best ? t : best;
    }
    return best;
}

static double proved_run_time(size_t records)
{
    double best = 1e9;

    for (int round = 0; round < ROUNDS; round++) {
        double t;

        memcpy(now.book, start.book, sizeof now.book);
        memcpy(now.levels, start.levels, sizeof now.levels);
        t = seconds();
        rionvakhe_run(now.book, RIONVAKHE_BOOK, now.levels, RIONVAKHE_LEVELS,
                      history, records * RECORD, answers, records);
        t = seconds() - t;
        best = t < best ? t : best;
    }
    return best;
}

static void compare_answers(const char *name, size_t records)
{
    for (size_t i = 0; i < records; i++)
        if (answers[i] != plain_answers[i].reason + 32u * plain_answers[i].number) {
            fprintf(stderr, "%s: record %zu differs\n", name, i + 1);
            exit(EXIT_FAILURE);
        }
}

static void line(const char *name, double plain, double proved, double each)
{
    printf("%-34s plain %9.1f ns  proved %9.1f ns  ratio %5.2f\n", name,
           plain / each * 1e9, proved / each * 1e9, proved / plain);
}

static void bench_run(const char *name, struct step (*next)(uint32_t))
{
    for (size_t records = RECORDS_MOST / 4; records <= RECORDS_MOST; records *= 2) {
        char title[64];
        double plain, proved;

        fill_history(next, records);
        plain = plain_run_time(records);
        proved = proved_run_time(records);
        compare_answers(name, records);
        snprintf(title, sizeof title, "run, %s, %zu records", name, records);
        line(title, plain, proved, (double)records);
    }
}

/* One record on a lent book, with the check of the whole book. */
static void bench_step(const char *name, struct step s)
{
    uint8_t record[RECORD];
    double plain = 1e9, proved = 1e9;
    enum { TIMES = 200 };

    write_step(record, s);
    for (int i = 0; i < TIMES; i++) {
        double t;

        now.plain = start.plain;
        t = seconds();
        plain_step(&now.plain, record, RECORD);
        t = seconds() - t;
        plain = t < plain ? t : plain;
        memcpy(now.book, start.book, sizeof now.book);
        memcpy(now.levels, start.levels, sizeof now.levels);
        t = seconds();
        rionvakhe_step(now.book, RIONVAKHE_BOOK, now.levels, RIONVAKHE_LEVELS, record, RECORD);
        t = seconds() - t;
        proved = t < proved ? t : proved;
    }
    line(name, plain, proved, 1);
}

static void bench_settlement(void)
{
    static uint64_t figures[RIONVAKHE_FIGURES];
    struct plain_settlement settlement;
    double plain = 1e9, proved = 1e9;
    enum { TIMES = 200 };

    for (int i = 0; i < TIMES; i++) {
        double t = seconds();

        plain_settle(&start.plain, &settlement);
        t = seconds() - t;
        plain = t < plain ? t : plain;
        t = seconds();
        rionvakhe_settle(start.book, RIONVAKHE_BOOK, start.levels, RIONVAKHE_LEVELS, figures, RIONVAKHE_FIGURES);
        t = seconds() - t;
        proved = t < proved ? t : proved;
    }
    line("settlement, 32 participants", plain, proved, 1);
}

/* ---- the deepest stack of one step: a thread on a painted stack */
enum { STACK = 1 << 20, PAINT = 0xa5 };

static uint8_t record_for_stack[RECORD];

static void *one_step(void *unused)
{
    (void)unused;
    rionvakhe_step(now.book, RIONVAKHE_BOOK, now.levels, RIONVAKHE_LEVELS, record_for_stack, RECORD);
    return NULL;
}

static void *no_step(void *unused)
{
    return unused;
}

static size_t depth_of(void *(*body)(void *))
{
    static uint8_t *stack;
    pthread_attr_t attributes;
    pthread_t thread;
    size_t untouched = 0;

    if (stack == NULL && posix_memalign((void **)&stack, 4096, STACK) != 0)
        exit(EXIT_FAILURE);
    memset(stack, PAINT, STACK);
    pthread_attr_init(&attributes);
    pthread_attr_setstack(&attributes, stack, STACK);
    if (pthread_create(&thread, &attributes, body, NULL) != 0)
        exit(EXIT_FAILURE);
    pthread_join(thread, NULL);
    pthread_attr_destroy(&attributes);
    while (untouched < STACK && stack[untouched] == PAINT)
        untouched++;
    return STACK - untouched;
}

static void stack_line(const char *name, struct step s)
{
    write_step(record_for_stack, s);
    memcpy(now.book, start.book, sizeof now.book);
    memcpy(now.levels, start.levels, sizeof now.levels);
    printf("%-34s %zu bytes\n", name, depth_of(one_step) - depth_of(no_step));
}

int main(void)
{
    open_month(&start, 10000000);
    bench_run("credits", credit);
    bench_run("figures", figure);
    fill_ledger(&start, 4);
    bench_run("trades", trade);
    bench_run("mixed", mixed);
    bench_step("one step, SUBMIT, full check", (struct step){.kind = 8, .a = 0, .b = 1, .quantity = 5});
    bench_step("one step, CREATE, full check", (struct step){.kind = 6, .a = 0, .selector = 4, .day = 1, .quantity = 5});
    bench_settlement();
    for (uint8_t generators = 4; generators >= 1; generators /= 2) {
        char title[64];

        open_month(&start, 10000000);
        fill_ledger(&start, generators);
        for (uint8_t g = 0; g < generators; g++)
            both_step(&start, (struct step){.kind = 7, .a = g, .selector = 1, .day = 1, .quantity = 10000000 - 7});
        snprintf(title, sizeof title, "cut of %d allocations", PLAIN_ALLOCATIONS / generators);
        bench_step(title, (struct step){.kind = 14, .a = 0});
        if (generators == 1)
            stack_line("deepest stack, cut of 256", (struct step){.kind = 14, .a = 0});
    }
    stack_line("deepest stack, SUBMIT", (struct step){.kind = 8, .a = 0, .b = 1, .quantity = 5});
    return EXIT_SUCCESS;
}
