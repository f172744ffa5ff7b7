/*
 * desk.c - the ledger program of the desk for Capacity Credit Allocations.
 *
 * Reads step records on standard input to the end and prints a line for each:
 * place from 1, answer, allocation number. Then it prints the settlement: S,
 * participant and figures, or X and the refusal. Input may be of any size and
 * come in any pieces; memory in use does not grow with it.
 */
#include "plain.h"

#include <stdio.h>
#include <stdlib.h>

enum {
    BLOCK_RECORDS = 4096,
    BLOCK_BYTES = BLOCK_RECORDS * PLAIN_RECORD_BYTES,
    OUTPUT_BYTES = 65536,
    DIGITS_MAX = 20 /* of a number of 64 bits */
};

static struct plain_book book;
static uint8_t block[BLOCK_BYTES];

static struct {
    size_t used;
    char bytes[OUTPUT_BYTES];
} output;

static void fail(const char *what)
{
    perror(what);
    exit(EXIT_FAILURE);
}

static void flush_output(void)
{
    if (fwrite(output.bytes, 1, output.used, stdout) != output.used ||
        fflush(stdout) != 0)
        fail("standard output");
    output.used = 0;
}

static void put_char(char c)
{
    if (output.used == OUTPUT_BYTES)
        flush_output();
    output.bytes[output.used++] = c;
}

/* A number and what follows it; none that the desk prints is below 0. */
static void put_number(uint64_t number, char after)
{
    char digits[DIGITS_MAX];
    size_t count = 0;

    do {
        digits[count++] = (char)('0' + number % 10);
        number /= 10;
    } while (number != 0);
    while (count > 0)
        put_char(digits[--count]);
    put_char(after);
}

static void put_answer(uint64_t place, struct plain_answer answer)
{
    put_number(place, ' ');
    put_number(answer.reason, ' ');
    put_number(answer.number, '\n');
}

static void put_figures(const struct plain_figures *figures)
{
    put_char('S');
    put_char(' ');
    put_number(figures->participant, ' ');
    put_number(figures->tradeable, ' ');
    put_number(figures->made, ' ');
    put_number(figures->received, ' ');
    put_number(figures->left, ' ');
    put_number(figures->over, ' ');
    put_number(figures->shortage, ' ');
    put_number(figures->dsm, ' ');
    put_number((uint64_t)figures->pay, '\n');
}

static void put_refusal(enum plain_reason reason)
{
    put_char('X');
    put_char(' ');
    put_number(reason, '\n');
}

static void run_steps(void)
{
    uint64_t place = 0;
    size_t length;

    /* A block comes back short only at the end of the input, so a record is
     * never split between two blocks. */
    do {
        length = fread(block, 1, BLOCK_BYTES, stdin);
        for (size_t at = 0; at < length; at += PLAIN_RECORD_BYTES) {
            size_t piece = length - at < PLAIN_RECORD_BYTES
                               ? length - at
                               : PLAIN_RECORD_BYTES;

            put_answer(++place, plain_step_sound(&book, block + at, piece));
        }
    } while (length == BLOCK_BYTES);
    if (ferror(stdin))
        fail("standard input");
}

static void print_settlement(void)
{
    struct plain_settlement settlement;
    enum plain_reason reason = plain_settle_sound(&book, &settlement);

    if (reason != PLAIN_DONE) {
        put_refusal(reason);
        return;
    }
    for (uint32_t i = 0; i < settlement.count; i++)
        put_figures(&settlement.figures[i]);
}

int main(void)
{
    plain_fresh(&book);
    run_steps();
    print_settlement();
    flush_output();
    return EXIT_SUCCESS;
}
