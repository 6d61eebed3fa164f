/* Checks the lines of `both_ways`: every answer, every note's length, and the way back. */
#include <stdio.h>
#include <stdlib.h>
#include <string.h>

#include "modes.h"

enum { LINE = 128 };

/* One note in the log: where it begins, and the runner before its call. */
struct note {
    size_t start;
    uint8_t runner;
};

static struct kernel now, before;
static struct {
    struct note *notes;
    size_t count, room;
} done;
static struct log own;

static struct {
    FILE *file;
    unsigned long long number;
    int ended;       /* no such line */
    char text[LINE]; /* without its newline */
} line;

/* A missing line, one without newline or one too long reads as what no expected line equals. */
static void next_line(void)
{
    line.number++;
    line.ended = !fgets(line.text, LINE, line.file);
    char *end = line.ended ? 0 : strchr(line.text, '\n');
    if (end)
        *end = 0;
    else
        strcpy(line.text, line.ended ? "(end of file)" : "(no newline, or too long)");
}

static int differ(const char *expected)
{
    printf("differ at line %llu: expected \"%s\", found \"%s\"\n", line.number, expected, line.text);
    return 0;
}

static int line_is(const char *expected)
{
    return strcmp(line.text, expected) == 0 || differ(expected);
}

static void add_note(size_t start, uint8_t runner)
{
    if (done.count == done.room) {
        done.room = done.room ? 2 * done.room : 1024;
        done.notes = realloc(done.notes, done.room * sizeof *done.notes);
        if (!done.notes) {
            perror("memory");
            exit(2);
        }
    }
    done.notes[done.count++] = (struct note){ start, runner };
}

/* The documents' limits, counted from the two states; `now` has taken the call, `before` is the state before it. */
static int length_is_right(size_t length)
{
    struct counts n = count_differences(&before, &now);
    size_t longest = 96 + 24 * (size_t)n.T + 16 * (size_t)n.S + 16 * (size_t)n.M + 8 * (size_t)n.F;
    if (length >= SHORTEST_NOTE && length <= longest)
        return 1;
    printf("differ at line %llu: a note of %d to %zu bytes, not of %zu\n", line.number, SHORTEST_NOTE, longest, length);
    return 0;
}

static int check_forward(unsigned long long *serial)
{
    uint8_t record[RECORD];
    char text[LINE];
    make_fresh(&now);
    while (next_record(record)) {
        size_t start = own.used;
        before = now;
        struct answer a = step_noted(&now, record, &own);
        size_t length = own.used - start;
        snprintf(text, LINE, "%llu %d %d %d %zu", ++*serial, a.number, a.value, a.runner, length);
        next_line();
        if (!line_is(text))
            return 0;
        if (a.number == 0 && !length_is_right(length))
            return 0;
        if (a.number == 0)
            add_note(start, before.running);
    }
    return 1;
}

static int check_back(void)
{
    char text[LINE];
    for (size_t i = done.count; i-- > 0;) {
        snprintf(text, LINE, "back 0 %d %zu", done.notes[i].runner, done.notes[i].start);
        next_line();
        if (!line_is(text))
            return 0;
    }
    next_line();
    if (!line_is("uptime 0"))
        return 0;
    next_line();
    if (!line_is("fresh"))
        return 0;
    next_line();
    return line.ended || differ("(end of file)");
}

int both(const char *lines_file)
{
    unsigned long long serial = 0;
    line.file = fopen(lines_file, "r");
    if (!line.file) {
        perror(lines_file);
        return 2;
    }
    int agree = check_forward(&serial) && check_back();
    if (agree)
        printf("agree %llu accepted %zu mean %.1f\n", serial, done.count,
               done.count ? (double)own.used / (double)done.count : 0.0);
    free(done.notes);
    fclose(line.file);
    return agree ? 0 : 1;
}
