/*
 * A host: it keeps a run's state as an image and its notes in a log. All it knows is what replay.h says, and of
 * docs/LAYOUT.md where an image has the uptime.
 *   host both < records        as the proved program app_both_ways, line for line
 *   host harm [N] < records    harm at every N-th record (1)
 *   host rounds N < records    for timing
 */
#include "harm.h"
#include "lines.h"

enum { LOG = 1048576, ROUND_RECORDS = 4096, UPTIME_AT = 3 };

/* A run: what the library is lent. */
static uint8_t image[REPLAY_IMAGE_MOST], notes[LOG];
static size_t length, used;

static void begin(void)
{
    used = 0;
    if (replay_number(replay_fresh(image, sizeof image, &length)) != 0)
        stop("no fresh image");
}

static uint32_t run(const uint8_t record[REPLAY_RECORD])
{
    return replay_run(image, sizeof image, &length, record, REPLAY_RECORD, notes, sizeof notes, &used);
}

static uint32_t undo(void)
{
    return replay_undo(image, sizeof image, &length, notes, sizeof notes, &used);
}

/* ---- both ---- */

/* The line of a call: serial, number, value, runner, and the length of its note. */
static void put_call(unsigned long serial, uint32_t answer, size_t note)
{
    put_number(serial);
    put(" ");
    put_number(replay_number(answer));
    put(" ");
    put_number(replay_value(answer));
    put(" ");
    put_number(replay_runner(answer));
    put(" ");
    put_number(note);
    put("\n");
}

/* The line of an undo: number, runner, and the length of log that is left. */
static void put_undo(uint32_t answer)
{
    put("back ");
    put_number(replay_number(answer));
    put(" ");
    put_number(replay_runner(answer));
    put(" ");
    put_number(used);
    put("\n");
}

static unsigned long uptime(void)
{
    unsigned long ticks = 0;
    for (int i = 3; i >= 0; i--)
        ticks = ticks << 8 | image[UPTIME_AT + i];
    return ticks;
}

static int is_fresh(void)
{
    static uint8_t fresh[REPLAY_IMAGE_FRESH];
    size_t fresh_length;
    replay_fresh(fresh, sizeof fresh, &fresh_length);
    return length == fresh_length && memcmp(image, fresh, length) == 0;
}

static void both(void)
{
    uint8_t record[REPLAY_RECORD];
    uint32_t answer;
    begin();
    for (unsigned long serial = 1; next_record(record); serial++) {
        size_t before = used;
        answer = run(record);
        put_call(serial, answer, used - before);
    }
    while (replay_number(answer = undo()) == 0)
        put_undo(answer);
    put("uptime ");
    put_number(uptime());
    put(is_fresh() ? "\nfresh\n" : "\nother\n");
}

/* ---- rounds ---- */

static void rounds(unsigned long count)
{
    static uint8_t records[ROUND_RECORDS][REPLAY_RECORD];
    unsigned long accepted = 0;
    int all = 0;
    while (all < ROUND_RECORDS && next_record(records[all]))
        all++;
    for (unsigned long round = 0; round < count; round++) {
        begin();
        for (int i = 0; i < all; i++)
            accepted += replay_number(run(records[i])) == 0;
    }
    put("records ");
    put_number((unsigned long)all);
    put(" rounds ");
    put_number(count);
    put(" accepted ");
    put_number(accepted);
    put("\n");
}

/* ---- the command line ---- */

/* A decimal number from 1 to 999,999,999, else 0. */
static unsigned long decimal(const char *text)
{
    unsigned long number = 0;
    int digits = 0;
    for (; *text; text++, digits++) {
        if (*text < '0' || *text > '9' || digits == 9)
            return 0;
        number = number * 10 + (unsigned long)(*text - '0');
    }
    return number;
}

static int same_word(const char *x, const char *y)
{
    while (*x && *x == *y)
        x++, y++;
    return *x == *y;
}

int main(int words, char **word)
{
    const char *mode = words > 1 ? word[1] : "";
    unsigned long number = words == 3 ? decimal(word[2]) : 0;
    if (words == 2 && same_word(mode, "both"))
        both();
    else if (words == 2 && same_word(mode, "harm"))
        harm(1);
    else if (number > 0 && same_word(mode, "harm"))
        harm(number);
    else if (number > 0 && same_word(mode, "rounds"))
        rounds(number);
    else
        stop("usage: host both | harm [N] | rounds N, with records on standard input");
    flush(1);
    return 0;
}
