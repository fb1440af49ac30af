/* Two outputs of the event program, line by line. The first line that differs is shown, with the record that it answers.
 * usage: same_lines RECORDS OUTPUT EXPECTED */
#include "basics.h"

#include <stdio.h>
#include <stdlib.h>
#include <string.h>

enum { RECORD = 13, LINE = 128 };

static FILE *opened(const char *path)
{
    FILE *file = fopen(path, "rb");
    if (file == NULL)
        fail("same_lines", "%s could not be opened", path);
    return file;
}

/* False, with a line that says so, where the file has no more. */
static bool next_line(char line[LINE], FILE *file)
{
    if (fgets(line, LINE, file) != NULL)
        return true;
    if (ferror(file))
        fail("same_lines", "an output could not be read");
    strcpy(line, "(no line)\n");
    return false;
}

/* The event that a line is about: 0 is the power-on, and the last line's is beyond all. */
static unsigned long event_of(const char *line)
{
    char *end;
    const unsigned long event = strtoul(line, &end, 10);
    return end == line ? -1ul : event;
}

static void show_record(const char *path, unsigned long event)
{
    FILE *records = opened(path);
    uint8_t record[RECORD];
    size_t length = 0;
    for (unsigned long n = 0; n < event; n++)
        length = fread(record, 1, sizeof record, records);
    fprintf(stderr, "record %lu:", event);
    for (size_t i = 0; i < length; i++)
        fprintf(stderr, " %02X", record[i]);
    fprintf(stderr, "\n");
    fclose(records);
}

/* A line that is missing shows by the next one: the earlier event is the one that went wrong. */
static void differ(const char *records, unsigned long number, const char *line, const char *due)
{
    const unsigned long is = event_of(line), should = event_of(due), event = is < should ? is : should;
    if (event != 0 && event != -1ul)
        show_record(records, event);
    fprintf(stderr, "written:  %sexpected: %s", line, due);
    fail("same_lines", "line %lu differs", number);
}

int main(int count, char **words)
{
    char line[LINE], due[LINE];
    unsigned long lines = 0;
    if (count != 4)
        fail("same_lines", "usage: same_lines RECORDS OUTPUT EXPECTED");
    FILE *output = opened(words[2]), *expected = opened(words[3]);
    for (;; lines++) {
        const bool more = next_line(line, output), more_due = next_line(due, expected);
        if (!more && !more_due)
            break;
        if (more != more_due || strcmp(line, due) != 0)
            differ(words[1], lines + 1, line, due);
    }
    if (lines == 0)
        fail("same_lines", "both outputs are empty");
    printf("same_lines: %lu lines, no difference\n", lines);
    return 0;
}
