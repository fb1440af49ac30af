/* Runs the makers' vectors (tests/vectors): every row that has a request, groups in order, each from a power-on over 64 zero bytes. */
#include "pair.h"

#include <stdio.h>
#include <stdlib.h>
#include <string.h>

enum { COLUMNS = 6, LINE = 4096 };
enum { NAME = 0, REQUEST = 4, EXPECTED = 5 };

/* Cuts a line at its tabs; false where it has too few columns. */
static bool cut(char *line, char *columns[COLUMNS])
{
    for (int i = 0; i < COLUMNS; i++) {
        columns[i] = line;
        line = strchr(line, '\t');
        if (line == NULL)
            return false;
        *line++ = 0;
    }
    return true;
}

static void agree(const char *row, const char *what)
{
    if (what != NULL)
        fail(row, "the proved node and the peer differ: %s", what);
}

static void power_on(pair *p, const char *row, const char *request)
{
    static const uint8_t empty[SEUMHWARI_STORE];
    seumhwari_identity identity;
    if (sscanf(request, "POWERON %x %x %x %x", &identity.vendor, &identity.product, &identity.revision, &identity.serial) != 4)
        fail(row, "a power-on without four numbers: %s", request);
    pair_lend_store(p, empty, sizeof empty);
    agree(row, pair_power_on(p, identity, SEUMHWARI_OUT, SEUMHWARI_STORE));
}

/* All ticks but the last must be silent. */
static void ticks(pair *p, const char *row, unsigned long count)
{
    uint8_t event[SEUMHWARI_EVENT];
    event_tick(event);
    for (unsigned long n = 1; n <= count; n++) {
        agree(row, pair_serve(p, event));
        if (n < count && p->count != 0)
            fail(row, "a frame at tick %lu of %lu", n, count);
    }
}

static void request(pair *p, const char *row, const char *text)
{
    uint8_t event[SEUMHWARI_EVENT];
    if (strncmp(text, "POWERON ", 8) == 0) {
        power_on(p, row, text);
    } else if (strncmp(text, "TICK*", 5) == 0) {
        ticks(p, row, strtoul(text + 5, NULL, 10));
    } else if (event_of_text(event, text)) {
        agree(row, pair_serve(p, event));
    } else {
        fail(row, "a request that is not understood: %s", text);
    }
}

/* Rows that share the letters before the last '-' are a group; a group starts with a power-on. */
static void check_group(char *group, size_t size, const char *row, const char *text)
{
    const char *end = strrchr(row, '-');
    const size_t length = end == NULL ? strlen(row) : (size_t)(end - row);
    if (strlen(group) == length && strncmp(group, row, length) == 0)
        return;
    if (strncmp(text, "POWERON ", 8) != 0)
        fail(row, "a group that starts without a power-on");
    snprintf(group, size, "%.*s", (int)length, row);
}

static void run_row(pair *p, char *group, size_t size, char *columns[COLUMNS])
{
    char found[160];
    check_group(group, size, columns[NAME], columns[REQUEST]);
    request(p, columns[NAME], columns[REQUEST]);
    text_of_frames(found, sizeof found, lent_bytes(&p->out), p->count);
    if (p->number != 0)
        snprintf(found, sizeof found, "refused %d", p->number);
    if (strcmp(found, columns[EXPECTED]) != 0)
        fail(columns[NAME], "%s: expected %s, found %s", columns[REQUEST], columns[EXPECTED], found);
}

int main(int count, char **words)
{
    static char line[LINE], group[32];
    static pair p;
    char *columns[COLUMNS];
    int run = 0, left = 0;
    FILE *file = count == 2 ? fopen(words[1], "r") : NULL;
    if (file == NULL)
        fail("vectors", "usage: vectors FILE (a readable vectors.tsv)");
    while (fgets(line, sizeof line, file) != NULL) {
        if (!cut(line, columns))
            fail("vectors", "a row without %d columns: %s", COLUMNS, line);
        if (strcmp(columns[NAME], "id") == 0)
            continue;
        if (strcmp(columns[REQUEST], "-") == 0) {
            left++;
        } else {
            run_row(&p, group, sizeof group, columns);
            run++;
        }
    }
    fclose(file);
    if (run == 0)
        fail("vectors", "no row was run");
    printf("vectors: %d rows run, %d have no request\n", run, left);
    return 0;
}
