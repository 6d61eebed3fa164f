/* The program `second` and its modes but those of both.c and stored.c (see README.md). */
#include <assert.h>
#include <stdio.h>
#include <stdlib.h>
#include <string.h>

#include "modes.h"

enum { ROUND_RECORDS = 4096, ROUNDS = 256, ROUNDS_UNDO = 64, BUFFER = 1 << 16 };

static struct kernel kernel; /* too large for some stacks */
static struct log notes_log;
static uint8_t records[ROUND_RECORDS][RECORD];

int next_record(uint8_t record[RECORD])
{
    size_t got = fread(record, 1, RECORD, stdin);
    if (got < RECORD && ferror(stdin)) {
        perror("standard input");
        exit(2);
    }
    return got == RECORD;
}

struct answer step(struct kernel *k, const uint8_t record[RECORD])
{
    struct answer answer = call_kept(k, record);
    assert(keeps_rules(k));
    return answer;
}

struct answer step_noted(struct kernel *k, const uint8_t record[RECORD], struct log *log)
{
    struct answer answer = call_noted(k, record, log);
    assert(keeps_rules(k));
    return answer;
}

int printed(void)
{
    uint8_t record[RECORD];
    unsigned long long serial = 0;
    make_fresh(&kernel);
    while (next_record(record)) {
        struct answer a = step(&kernel, record);
        printf("%llu %d %d %d\n", ++serial, a.number, a.value, a.runner);
    }
    printf("uptime %lu\n", (unsigned long)kernel.uptime);
    return 0;
}

/* At most ROUND_RECORDS of standard input; returns how many. */
static int read_round(void)
{
    int count = 0;
    while (count < ROUND_RECORDS && next_record(records[count]))
        count++;
    return count;
}

int rounds(void)
{
    unsigned long accepted = 0, bytes = 0;
    int count = read_round();
    for (int round = 0; round < ROUNDS; round++) {
        make_fresh(&kernel);
        notes_log.used = 0;
        for (int i = 0; i < count; i++)
            accepted += call_noted(&kernel, records[i], &notes_log).number == 0;
        bytes += notes_log.used;
    }
    printf("records %d rounds %d accepted %lu bytes %lu\n", count, ROUNDS, accepted, bytes);
    return 0;
}

int rounds_plain(void)
{
    unsigned long accepted = 0;
    int count = read_round();
    for (int round = 0; round < ROUNDS; round++) {
        make_fresh(&kernel);
        for (int i = 0; i < count; i++)
            accepted += call_kept(&kernel, records[i]).number == 0;
    }
    printf("records %d rounds %d accepted %lu\n", count, ROUNDS, accepted);
    return 0;
}

/* Every note undone; returns how many there were. */
static unsigned long undo_notes(struct kernel *k, struct log *log)
{
    unsigned long undone = 0;
    for (; log->used > 0; undone++)
        undo_last(k, log);
    return undone;
}

/* Undoes every note of a run by this replay's own undo, which trusts them, again and again from the same end and log. */
int rounds_undo(void)
{
    static struct kernel end, fresh;
    unsigned long undone = 0, left = 0, ended = 0;
    int count = read_round();
    make_fresh(&fresh);
    end = fresh;
    for (int i = 0; i < count; i++)
        call_noted(&end, records[i], &notes_log);
    size_t used = notes_log.used;
    for (int round = 0; round < ROUNDS_UNDO; round++) {
        kernel = end;
        undone += undo_notes(&kernel, &notes_log);
        left += notes_log.used;
        ended += (unsigned long)states_are_equal(&kernel, &fresh);
        notes_log.used = used;
    }
    printf("records %d rounds %d undone %lu left %lu fresh %lu\n", count, ROUNDS_UNDO, undone, left, ended);
    return 0;
}

int notes(void)
{
    uint8_t record[RECORD];
    make_fresh(&kernel);
    while (next_record(record))
        step_noted(&kernel, record, &notes_log);
    fwrite(notes_log.bytes, 1, notes_log.used, stdout);
    return 0;
}

/* Every note leads back to a copy of the state before its call; then all of them lead back to the fresh state. */
int back(void)
{
    static struct kernel before, undone;
    uint8_t record[RECORD];
    unsigned long count = 0, accepted = 0;
    make_fresh(&kernel);
    while (next_record(record)) {
        size_t used = notes_log.used;
        before = kernel;
        count++;
        if (step_noted(&kernel, record, &notes_log).number == 0) {
            size_t now = notes_log.used;
            accepted++;
            undone = kernel;
            undo_last(&undone, &notes_log);
            if (notes_log.used != used || !states_are_equal(&undone, &before)) {
                printf("record %lu isn't undone\n", count);
                return 1;
            }
            notes_log.used = now;
        }
    }
    unsigned long bytes = notes_log.used;
    undo_notes(&kernel, &notes_log);
    make_fresh(&before);
    int fresh = states_are_equal(&kernel, &before);
    printf("records %lu accepted %lu bytes %lu %s\n", count, accepted, bytes, fresh ? "fresh" : "not fresh");
    return fresh ? 0 : 1;
}

static const struct {
    const char *name, *second;
    int (*run)(void);
} modes[] = {
    { "printed", 0, printed }, { "notes", 0, notes }, { "back", 0, back }, { "rounds", 0, rounds },
    { "rounds", "plain", rounds_plain }, { "rounds", "undo", rounds_undo },
    { "images", 0, images }, { "images", "same", images_same }, { "recalled", 0, recalled },
};

/* 2 where there is no such mode. */
static int run_mode(int argc, char **argv)
{
    if (argc == 3 && strcmp(argv[1], "both") == 0)
        return both(argv[2]);
    if (argc == 3 && strcmp(argv[1], "damaged") == 0 && strtoul(argv[2], 0, 10) > 0)
        return damaged(strtoul(argv[2], 0, 10));
    for (size_t i = 0; i < sizeof modes / sizeof *modes; i++)
        if (argc == (modes[i].second ? 3 : 2) && strcmp(argv[1], modes[i].name) == 0
            && (argc == 2 || strcmp(argv[2], modes[i].second) == 0))
            return modes[i].run();
    fprintf(stderr, "usage: second printed | both LINESFILE | notes | back | rounds [plain | undo] | images [same]\n"
                    "              | damaged STEP  < records\n"
                    "       second recalled  < images, each after its length\n");
    return 2;
}

int main(int argc, char **argv)
{
    static char in[BUFFER], out[BUFFER];
    setvbuf(stdin, in, _IOFBF, sizeof in);
    setvbuf(stdout, out, _IOFBF, sizeof out);
    int status = run_mode(argc, argv);
    if (fflush(stdout) != 0 || ferror(stdout)) {
        perror("standard output");
        status = 2;
    }
    return status;
}
