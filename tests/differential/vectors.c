/* vectors.c - a history through one run, printed as by the ledger program. */
#include "vectors.h"

#include "../../crates/boundary/rionvakhe.h"

#include <dirent.h>
#include <inttypes.h>
#include <stdio.h>
#include <stdlib.h>
#include <string.h>

struct text {
    char *bytes;
    size_t length;
};

static void *must(void *memory)
{
    if (memory == NULL) {
        fputs("differential: no memory\n", stderr);
        exit(2);
    }
    return memory;
}

/* A whole file, with a 0 behind it; no bytes where it cannot be read. */
static struct text read_file(const char *folder, const char *name)
{
    struct text text = {NULL, 0};
    char path[4096];
    FILE *file;

    snprintf(path, sizeof path, "%s/%s", folder, name);
    file = fopen(path, "rb");
    if (file == NULL)
        return text;
    text.bytes = must(malloc(1));
    for (size_t more = 1; more > 0; text.length += more) {
        text.bytes = must(realloc(text.bytes, text.length + 4097));
        more = fread(text.bytes + text.length, 1, 4096, file);
    }
    text.bytes[text.length] = '\0';
    fclose(file);
    return text;
}

static int print_settlement(char *at, size_t left, const int64_t *book,
                            const uint32_t *levels)
{
    uint64_t figures[RIONVAKHE_FIGURES];
    uint64_t answer =
        rionvakhe_settle(book, RIONVAKHE_BOOK, levels, RIONVAKHE_LEVELS,
                         figures, RIONVAKHE_FIGURES);
    int used = 0;

    if (RIONVAKHE_REASON(answer) != 0)
        return snprintf(at, left, "X %u\n", RIONVAKHE_REASON(answer));
    for (unsigned i = 0; i < RIONVAKHE_NUMBER(answer); i++) {
        used += snprintf(at + used, left - (size_t)used, "S");
        for (unsigned k = 0; k < RIONVAKHE_LINE; k++)
            used += snprintf(at + used, left - (size_t)used, " %" PRIu64,
                             figures[i * RIONVAKHE_LINE + k]);
        used += snprintf(at + used, left - (size_t)used, "\n");
    }
    return used;
}

/* What the ledger program would print of a history. */
static struct text printed(const struct text *history)
{
    static int64_t book[RIONVAKHE_BOOK];
    static uint32_t levels[RIONVAKHE_LEVELS];
    size_t records = history->length / 24 + 1;
    size_t left = records * 48 + 32 * 200;
    uint64_t *answers = must(malloc(records * sizeof *answers));
    struct text text = {must(malloc(left)), 0};
    uint64_t done;

    rionvakhe_fresh(book, RIONVAKHE_BOOK, levels, RIONVAKHE_LEVELS);
    done = rionvakhe_run(book, RIONVAKHE_BOOK, levels, RIONVAKHE_LEVELS,
                         (const uint8_t *)history->bytes, history->length,
                         answers, records);
    for (uint64_t i = 0; i < done; i++)
        text.length += (size_t)snprintf(
            text.bytes + text.length, left - text.length,
            "%" PRIu64 " %u %u\n", i + 1, RIONVAKHE_REASON(answers[i]),
            RIONVAKHE_NUMBER(answers[i]));
    text.length += (size_t)print_settlement(text.bytes + text.length,
                                            left - text.length, book, levels);
    free(answers);
    return text;
}

static void print_first_difference(const char *name, const char *expected,
                                   const char *found)
{
    for (unsigned line = 1;; line++) {
        size_t e = strcspn(expected, "\n");
        size_t f = strcspn(found, "\n");

        if (e != f || memcmp(expected, found, e) != 0 ||
            expected[e] == '\0' || found[f] == '\0') {
            printf("%s: line %u: expected %.*s, found %.*s\n", name, line,
                   (int)e, expected, (int)f, found);
            return;
        }
        expected += e + 1;
        found += f + 1;
    }
}

/* Whether a pair agrees; *pairs counts it unless its other half is missing. */
static bool pair_agrees(const char *folder, const char *steps, int *pairs)
{
    char name[256];
    struct text history = read_file(folder, steps);
    struct text expected;
    struct text found;
    bool same;

    snprintf(name, sizeof name, "%.*s.expected",
             (int)(strlen(steps) - strlen(".steps")), steps);
    expected = read_file(folder, name);
    if (history.bytes == NULL || expected.bytes == NULL) {
        free(history.bytes);
        free(expected.bytes);
        return false;
    }
    ++*pairs;
    found = printed(&history);
    same = found.length == expected.length &&
           memcmp(found.bytes, expected.bytes, found.length) == 0;
    if (!same)
        print_first_difference(steps, expected.bytes, found.bytes);
    free(history.bytes);
    free(expected.bytes);
    free(found.bytes);
    return same;
}

static int is_steps(const struct dirent *entry)
{
    size_t length = strlen(entry->d_name);

    return length > 6 && length < 240 &&
           strcmp(entry->d_name + length - 6, ".steps") == 0;
}

bool vectors_agree(const char *folder)
{
    struct dirent **names;
    int count = scandir(folder, &names, is_steps, alphasort);
    int pairs = 0;
    int agree = 0;

    for (int i = 0; i < count; i++) {
        agree += pair_agrees(folder, names[i]->d_name, &pairs);
        free(names[i]);
    }
    if (count >= 0)
        free(names);
    printf("vectors: %d of %d agree\n", agree, pairs);
    return pairs > 0 && agree == pairs;
}
