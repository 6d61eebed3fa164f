/* Device flags (document 02, request 1): their state rules, refusals, effects, counts and notes, worked out by hand. */
#include <string.h>

#include "unit.h"

/* 3, 0 and 1 wait for flag 0 in this order, 3 and 1 with timeouts, 4 for flag 1; 2 runs in a region, 5 is ready. */
static void make_flag_base(void)
{
    make_fresh(&k);
    EXPECT(same(ask(2, 5, 0, 0, 0), 0, 0, 0));
    EXPECT(same(ask(2, 5, 0, 0, 0), 0, 1, 0));
    EXPECT(same(ask(2, 9, 0, 0, 0), 0, 2, 0));
    for (int f = 0; f < 3; f++)
        EXPECT(same(ask(31, 0, 0, 0, 0), 0, f, 0));
    EXPECT(same(ask(11, 0, 0, 0, 0), 0, 255, 0));
    EXPECT(same(ask(33, 0, 0, 0, 0), 0, 255, 1));
    EXPECT(same(ask(11, 0, 0, 0, 0), 0, 255, 1));
    EXPECT(same(ask(33, 0, 0, 9, 0), 0, 255, 2));
    EXPECT(same(ask(2, 3, 0, 0, 0), 0, 3, 3));
    EXPECT(same(ask(11, 0, 0, 0, 0), 0, 255, 3));
    EXPECT(same(ask(33, 0, 0, 4, 0), 0, 255, 2));
    EXPECT(same(ask(2, 4, 0, 0, 0), 0, 4, 4));
    EXPECT(same(ask(11, 0, 0, 0, 0), 0, 255, 4));
    EXPECT(same(ask(33, 1, 0, 0, 0), 0, 255, 2));
    EXPECT(same(ask(2, 9, 0, 0, 0), 0, 5, 2));
    EXPECT(same(ask(11, 0, 0, 0, 0), 0, 255, 2));
    memcpy(&base, &k, sizeof k);
}

static int holds(const struct queue *q, int length, const uint8_t *ids)
{
    return q->length == length && memcmp(q->place, ids, (size_t)length) == 0;
}
#define HOLDS(queue, ...) EXPECT(holds(&(queue), sizeof (uint8_t[]){ __VA_ARGS__ }, (uint8_t[]){ __VA_ARGS__ }))

static void flag_queues(void)
{
    struct queue *q = k.flag_waiters;
    BREAKS(memset(&q[1], 0, sizeof q[1]));
    BREAKS(q[0].place[q[0].length++] = 1);           /* twice */
    BREAKS(q[2].place[q[2].length++] = 1);           /* in a second queue */
    BREAKS(q[15].place[q[15].length++] = 4);         /* be its flag live or not */
    BREAKS(q[0].place[q[0].length++] = 5);           /* a ready one */
    BREAKS(q[0].place[q[0].length++] = 20);          /* one that isn't live */
    BREAKS(k.ready[4].place[k.ready[4].length++] = 4);
    BREAKS(k.semaphore_waiters[1].place[k.semaphore_waiters[1].length++] = 4);
    BREAKS(k.event_waiters[1].place[k.event_waiters[1].length++] = 4);
    BREAKS(q[0].place[0] = 0, q[0].place[1] = 3);    /* priority 5 before 3 */
    KEEPS(q[0].place[1] = 1, q[0].place[2] = 0);     /* equal priorities */
    BREAKS(q[0].length = 33);
    BREAKS(q[0].place[0] = 32);
    BREAKS(q[0].place[3] = 1);                       /* unused store */
    BREAKS(q[15].place[31] = 1);
    BREAKS(k.flags[1].live = 0);
    BREAKS(k.threads[4].object = 5, q[5] = q[1], memset(&q[1], 0, sizeof q[1])); /* waits for one that isn't live */
    KEEPS(k.threads[4].object = 2, q[2] = q[1], memset(&q[1], 0, sizeof q[1]));
    BREAKS(k.threads[4].object = 16);
    BREAKS(k.threads[4].object = 257);
}

static void flag_fields(void)
{
    struct queue *time = &k.time_queue;
    KEEPS(k.flags[2].live = 0);
    KEEPS(k.flags[15].live = 1);
    BREAKS(k.flags[15].live = 2);
    BREAKS(k.flags[0].live = 255);
    BREAKS(k.threads[4].ticks_left = 10);
    BREAKS(time->place[time->length++] = 4);
    KEEPS(k.threads[4].ticks_left = 10, time->place[time->length++] = 4);
    BREAKS(k.threads[3].ticks_left = 0);
    BREAKS(k.threads[3].ticks_left = 10);            /* 10 before 9 */
    BREAKS(time->place[1] = 0, time->length = 1);    /* 1 is timed */
    KEEPS(k.threads[5].wake_reason = TIMED_OUT, k.threads[5].timed_out_kind = WAITS_FLAG);
    BREAKS(k.threads[5].wake_reason = MET, k.threads[5].timed_out_kind = WAITS_FLAG);
    BREAKS(k.running = 4);
}

/* The answer, on the base with these levels; a refusal leaves the state. */
static int answers(uint8_t unscheduled, uint8_t critical, uint8_t kind, uint8_t a, int number, int value, int runner)
{
    static struct kernel before;
    memcpy(&k, &base, sizeof k);
    k.unscheduled = unscheduled;
    k.critical = critical;
    memcpy(&before, &k, sizeof k);
    return same(ask(kind, a, 0, 0, 0), number, value, runner) && (number == 0 || states_are_equal(&before, &k));
}

static void flag_levels(void)
{
    const uint8_t levels[] = { 0, 1, 2, 255 };
    for (int i = 0; i < 16; i++) {
        uint8_t u = levels[i / 4], c = levels[i % 4];
        int passes = u == 0 && c == 1, free = u == 0 && c == 0;
        EXPECT(answers(u, c, 33, 2, passes ? 0 : 6, 255, passes ? 5 : 2));
        EXPECT(!passes || (k.unscheduled == 0 && k.critical == 0));
        EXPECT(answers(u, c, 33, 0, passes ? 0 : 6, 255, passes ? 5 : 2));
        EXPECT(answers(u, c, 33, 3, 4, 255, 2));     /* before 6 */
        EXPECT(answers(u, c, 33, 16, 4, 255, 2));
        EXPECT(answers(u, c, 31, 0, 0, 3, 2));
        EXPECT(answers(u, c, 32, 2, 0, 255, 2));
        EXPECT(answers(u, c, 32, 0, 10, 255, 2));
        EXPECT(answers(u, c, 32, 3, 4, 255, 2));
        EXPECT(answers(u, c, 34, 0, 0, 255, free ? 3 : 2));
        EXPECT(k.flag_waiters[0].length == 0 && k.unscheduled == u && k.critical == c);
        EXPECT(answers(u, c, 34, 255, 4, 255, 2));
        EXPECT(answers(u, c, 35, 0, 1, 255, 2));
    }
}

static void flag_refusals(void)
{
    make_fresh(&k);
    for (uint8_t kind = 31; kind <= 34; kind++)
        EXPECT(same(ask(kind, 0, 0, 0, 0), 2, 255, 255));
    memcpy(&k, &base, sizeof k);
    EXPECT(same(ask(31, 1, 0, 0, 0), 1, 255, 2) && same(ask(31, 0, 0, 1, 0), 1, 255, 2));
    EXPECT(same(ask(32, 2, 1, 0, 0), 1, 255, 2) && same(ask(32, 2, 0, 1, 0), 1, 255, 2));
    EXPECT(same(ask(33, 2, 1, 0, 0), 1, 255, 2) && same(ask(33, 2, 0, 0, 1), 1, 255, 2));
    EXPECT(same(ask(34, 2, 0, 1, 0), 1, 255, 2) && same(ask(34, 2, 0, 0, 1), 1, 255, 2));
    for (int f = 3; f < FLAGS; f++)
        EXPECT(same(ask(31, 0, 0, 0, 0), 0, f, 2));
    EXPECT(same(ask(31, 0, 0, 0, 0), 7, 255, 2));
    EXPECT(same(ask(32, 15, 0, 0, 0), 0, 255, 2) && same(ask(32, 15, 0, 0, 0), 4, 255, 2));
    EXPECT(same(ask(32, 2, 0, 0, 0), 0, 255, 2) && same(ask(31, 0, 0, 0, 0), 0, 2, 2));
}

/* What a pend leaves of its caller, and a post, a time-out, a destroy and a change of priority of a flag's waiters. */
static void flag_waiters(void)
{
    const struct thread *t = k.threads;
    memcpy(&k, &base, sizeof k);
    HOLDS(k.flag_waiters[0], 3, 0, 1);
    k.threads[2].wake_reason = MET;
    k.threads[2].reply = 7;
    EXPECT(same(ask(33, 2, 0, 7, 0), 0, 255, 5));
    EXPECT(t[2].condition == WAITS_FLAG && t[2].object == 2 && t[2].ticks_left == 7);
    EXPECT(t[2].wake_reason == REASON_NONE && t[2].reply == NONE);
    HOLDS(k.time_queue, 3, 2, 1);
    EXPECT(same(ask(34, 0, 0, 0, 0), 0, 255, 3) && k.flag_waiters[0].length == 0);
    EXPECT(t[1].wake_reason == MET && t[1].timed_out_kind == 0 && t[1].ticks_left == 0 && t[1].reply == NONE);
    HOLDS(k.ready[5], 0, 1);
    HOLDS(k.time_queue, 2);
    memcpy(&k, &base, sizeof k);
    EXPECT(same(ask(5, 0, 0, 0, 0), 0, 255, 2)); /* to its own priority: behind 1 */
    HOLDS(k.flag_waiters[0], 3, 1, 0);
    EXPECT(same(ask(4, 0, 2, 0, 0), 0, 255, 2));
    HOLDS(k.flag_waiters[0], 0, 3, 1);
    EXPECT(same(ask(12, 0, 0, 0, 0), 0, 255, 2));
    for (int i = 1; i <= 4; i++)
        EXPECT(same(ask(1, 0, 0, 0, 0), 0, 255, i < 4 ? 2 : 3));
    EXPECT(t[3].wake_reason == TIMED_OUT && t[3].timed_out_kind == WAITS_FLAG && t[3].object == 0);
    HOLDS(k.flag_waiters[0], 0, 1);
    EXPECT(same(ask(3, 1, 0, 0, 0), 0, 255, 3) && k.time_queue.length == 0);
    HOLDS(k.flag_waiters[0], 0);
}

static void flag_counts(void)
{
    COUNTS(0, 0, 0, 1, ask(31, 0, 0, 0, 0));
    COUNTS(0, 0, 0, 1, ask(32, 2, 0, 0, 0));
    COUNTS(1, 0, 0, 0, ask(33, 2, 0, 0, 0));
    COUNTS(3, 0, 0, 0, ask(34, 0, 0, 0, 0));
    COUNTS(0, 0, 0, 0, ask(34, 2, 0, 0, 0));
    EXPECT(states_are_equal(&k, &base));
    memcpy(&k, &base, sizeof k);
    k.flags[15].live = 1;
    EXPECT(!states_are_equal(&k, &base));
    memcpy(&k, &base, sizeof k);
    k.flag_waiters[0].place[1] = 1, k.flag_waiters[0].place[2] = 0;
    EXPECT(!states_are_equal(&k, &base));
}

static void notes_of_flags(void)
{
    memcpy(&k, &base, sizeof k);
    NOTES(31, 0, 0, 0, 0, EMPTY, EMPTY, EMPTY, EMPTY, 1, 0, 3, EMPTY);
    NOTES(32, 3, 0, 0, 0, EMPTY, EMPTY, EMPTY, EMPTY, EMPTY, EMPTY); /* the call tells it */
    NOTES(34, 2, 0, 0, 0, EMPTY, EMPTY, EMPTY, EMPTY, EMPTY, EMPTY);
    NOTES(34, 0, 0, 0, 0, EMPTY, 19, 0, 0x80, 0x40, 3, 0x81, 0xc8, 9, 0, 0, 0, 4, 1, 0x83, 0xc8, 4, 0, 0, 0, 2, 0,
          EMPTY, EMPTY, EMPTY, EMPTY); /* the queue was 3, 0, 1, behind two ready ones */
    memcpy(&k, &base, sizeof k);
    NOTES(34, 1, 0, 0, 0, EMPTY, 3, 0, 0x84, 0x40, 5, EMPTY, EMPTY, EMPTY, EMPTY); /* behind flag 0's too */
    NOTES(33, 2, 0, 0, 0, 2, 0, 4, 2, 4, 0, 0x82, 0x50, 0, 1, EMPTY, EMPTY, EMPTY, EMPTY); /* 4 stood before it */
    NOTES(3, 2, 0, 0, 0, EMPTY, 7, 0, 0xc2, 6, 0x47, 9, 9, 2, 5, EMPTY, EMPTY, EMPTY, EMPTY);
}

/* Time-outs, and what moves a waiter. */
static void notes_of_flag_waiters(void)
{
    memcpy(&k, &base, sizeof k);
    NOTES(4, 4, 4, 0, 0, EMPTY, 3, 0, 0x84, 0x40, 5, EMPTY, EMPTY, EMPTY, EMPTY); /* the same priority */
    NOTES(4, 3, 6, 0, 0, EMPTY, 5, 0, 0x83, 0xc1, 3, 2, 0, EMPTY, EMPTY, EMPTY, EMPTY);
    NOTES(5, 3, 0, 0, 0, EMPTY, 5, 0, 0x83, 0xc1, 6, 4, 0, EMPTY, EMPTY, EMPTY, EMPTY);
    NOTES(3, 1, 0, 0, 0, EMPTY, 11, 0, 0xc1, 6, 0xcb, 5, 5, 9, 0, 0, 0, 4, 1, EMPTY, EMPTY, EMPTY, EMPTY);
    memcpy(&k, &base, sizeof k);
    NOTES(12, 0, 0, 0, 0, EMPTY, EMPTY, EMPTY, EMPTY, EMPTY, EMPTY);
    for (int i = 1; i <= 3; i++)
        NOTES(1, 0, 0, 0, 0, EMPTY, EMPTY, EMPTY, EMPTY, EMPTY, EMPTY);
    NOTES(1, 0, 0, 0, 0, EMPTY, 3, 0, 0x83, 0x40, 2, EMPTY, EMPTY, EMPTY, EMPTY); /* 3 timed out */
    NOTES(11, 0, 0, 0, 0, EMPTY, EMPTY, EMPTY, EMPTY, EMPTY, EMPTY);
    NOTES(33, 2, 0, 1, 0, 2, 0, 4, 3, 3, 0, 0x83, 0x10, 5, EMPTY, EMPTY, EMPTY, EMPTY); /* it had timed out */
    NOTES(1, 0, 0, 0, 0, EMPTY, 4, 0, 0x83, 0x44, 2, 5, EMPTY, EMPTY, EMPTY, EMPTY); /* on flag 2 */
}

/* The second example of docs/LAYOUT.md: all of the last note is as predicted. */
static void notes_of_flag_example(void)
{
    make_fresh(&k);
    EXPECT(same(ask(2, 3, 0, 0, 0), 0, 0, 0));
    EXPECT(same(ask(2, 5, 0, 0, 0), 0, 1, 0));
    NOTES(31, 0, 0, 0, 0, EMPTY, EMPTY, EMPTY, EMPTY, 1, 0, 0, EMPTY);
    NOTES(11, 0, 0, 0, 0, EMPTY, EMPTY, EMPTY, EMPTY, EMPTY, EMPTY);
    NOTES(33, 0, 0, 0, 0, 2, 0, 4, 0, 3, 0, 0x80, 0x10, 0, EMPTY, EMPTY, EMPTY, EMPTY);
    NOTES(34, 0, 0, 0, 0, EMPTY, 1, 0, 0, EMPTY, EMPTY, EMPTY, EMPTY);
}

/* Behind a semaphore's and an event's waiter, and then alone, where a time-out's place is as predicted. */
static void notes_of_last_waiter(void)
{
    make_fresh(&k);
    for (int i = 0; i < 3; i++)
        EXPECT(same(ask(2, 5, 0, 0, 0), 0, i, 0));
    EXPECT(same(ask(31, 0, 0, 0, 0), 0, 0, 0));
    EXPECT(same(ask(14, 0, 0, 1, 0), 0, 0, 0));
    EXPECT(same(ask(18, 0, 0, 0, 0), 0, 255, 1));
    EXPECT(same(ask(21, 0, 0, 0, 0), 0, 255, 2));
    EXPECT(same(ask(11, 0, 0, 0, 0), 0, 255, 2));
    EXPECT(same(ask(33, 0, 0, 1, 0), 0, 255, 255));
    NOTES(1, 0, 0, 0, 0, EMPTY, 3, 0, 0x82, 0x40, 2, EMPTY, EMPTY, EMPTY, EMPTY);
    EXPECT(same(ask(3, 0, 0, 0, 0), 0, 255, 2));
    EXPECT(same(ask(3, 1, 0, 0, 0), 0, 255, 2));
    EXPECT(same(ask(11, 0, 0, 0, 0), 0, 255, 2));
    EXPECT(same(ask(33, 0, 0, 1, 0), 0, 255, 255));
    NOTES(1, 0, 0, 0, 0, EMPTY, 1, 0, 2, EMPTY, EMPTY, EMPTY, EMPTY);
}

void flags(void)
{
    make_flag_base();
    flag_queues();
    flag_fields();
    flag_levels();
    flag_refusals();
    flag_waiters();
    flag_counts();
    notes_of_flags();
    notes_of_flag_waiters();
    notes_of_last_waiter();
    notes_of_flag_example();
}
