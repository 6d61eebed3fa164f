/* States made by hand: what keeps_rules must refuse and accept, number 14, the counts T, S, M and F, and some notes. */
#include <stdio.h>
#include <string.h>

#include "unit.h"

struct kernel base, k;
static int failures, checks;

void expect(int holds, const char *what, const char *file, int line)
{
    checks++;
    if (!holds) {
        failures++;
        printf("%s:%d: %s\n", file, line, what);
    }
}

static void make_record(uint8_t r[RECORD], uint8_t kind, uint8_t a, uint16_t b, uint32_t c, uint32_t d)
{
    memcpy(r, (uint8_t[RECORD]){ kind, a, (uint8_t)b, (uint8_t)(b >> 8) }, RECORD);
    for (int i = 0; i < 4; i++) {
        r[4 + i] = (uint8_t)(c >> 8 * i);
        r[8 + i] = (uint8_t)(d >> 8 * i);
    }
}

struct answer ask(uint8_t kind, uint8_t a, uint16_t b, uint32_t c, uint32_t d)
{
    uint8_t r[RECORD];
    make_record(r, kind, a, b, c, d);
    return call(&k, r);
}

int same(struct answer x, int number, int value, int runner)
{
    return x.number == number && x.value == value && x.runner == runner;
}

/* A damaged state gives 14 and stays as it is. */
int gives_14(void)
{
    static struct kernel damaged;
    memcpy(&damaged, &k, sizeof k);
    return same(ask(1, 0, 0, 0, 0), 14, 255, 255) && memcmp(&damaged, &k, sizeof k) == 0;
}

/* 0 and 1 wait for semaphore 0, 2 sleeps, 3 waits for event 0, 4 for messages, 5 runs in a region, 6 is ready. */
static void make_base(void)
{
    const uint8_t priorities[] = { 3, 5, 5, 5, 6, 6, 7 };
    make_fresh(&k);
    for (int i = 0; i < 7; i++)
        EXPECT(same(ask(2, priorities[i], 0, 0, 0), 0, i, 0));
    EXPECT(same(ask(14, 0, 0, 2, 0), 0, 0, 0));
    EXPECT(same(ask(14, 0, 1, 1, 0), 0, 1, 0));
    EXPECT(same(ask(16, 1, 0, 5, 3), 0, 255, 0));
    EXPECT(same(ask(18, 0, 0, 9, 0), 0, 255, 1));
    EXPECT(same(ask(24, 0, 7, 8, 9), 0, 0, 1));
    EXPECT(same(ask(26, 0, 2, 4, 0), 0, 255, 1)); /* message 0 on thread 2's channel 4 */
    EXPECT(same(ask(24, 0, 1, 2, 3), 0, 1, 1));   /* message 1 held by thread 1 */
    EXPECT(same(ask(18, 0, 0, 9, 0), 0, 255, 2));
    EXPECT(same(ask(7, 0, 0, 7, 0), 0, 255, 3));
    EXPECT(same(ask(21, 0, 0, 0, 0), 0, 255, 4));
    EXPECT(same(ask(27, 0, 5, 0, 0), 0, 255, 5));
    EXPECT(same(ask(8, 0, 0, 0, 0), 0, 255, 5));
    memcpy(&base, &k, sizeof k);
}

static void places(void)
{
    BREAKS(memset(&k.ready[7], 0, sizeof k.ready[7]));
    BREAKS(k.ready[7].place[k.ready[7].length++] = 6);
    BREAKS(k.ready[8].place[k.ready[8].length++] = 6);
    BREAKS(k.ready[0].place[k.ready[0].length++] = 6);
    BREAKS(k.ready[9].place[k.ready[9].length++] = 20);
    BREAKS(k.ready[3].place[k.ready[3].length++] = 0);
    BREAKS(memset(&k.semaphore_waiters[0], 0, sizeof k.semaphore_waiters[0]));
    BREAKS(k.semaphore_waiters[1].place[k.semaphore_waiters[1].length++] = 1);
    BREAKS(k.semaphore_waiters[0].place[k.semaphore_waiters[0].length++] = 1);
    BREAKS(k.semaphore_waiters[0].place[k.semaphore_waiters[0].length++] = 3);
    BREAKS(k.semaphore_waiters[5] = k.semaphore_waiters[0]; k.threads[0].object = k.threads[1].object = 5;
           memset(&k.semaphore_waiters[0], 0, sizeof k.semaphore_waiters[0]));
    BREAKS(k.event_waiters[0].length = 0; k.event_waiters[0].place[0] = 0);
    BREAKS(k.event_waiters[7].place[k.event_waiters[7].length++] = 3);
    BREAKS(k.ready[7].length = 33);
    BREAKS(k.time_queue.length = 255);
    BREAKS(k.channels[2][3].length = 65);
    BREAKS(k.ready[7].place[0] = 32);
    BREAKS(k.channels[2][3].place[0] = 64);
    BREAKS(k.semaphore_waiters[0].place[0] = 1, k.semaphore_waiters[0].place[1] = 0);
}

static void unused_store(void)
{
    BREAKS(k.ready[0].place[31] = 1);
    BREAKS(k.ready[30].place[4] = 1);
    BREAKS(k.ready[7].place[1] = 6);
    BREAKS(k.time_queue.place[31] = 1);
    BREAKS(k.semaphore_waiters[15].place[0] = 1);
    BREAKS(k.semaphore_waiters[0].place[2] = 1);
    BREAKS(k.event_waiters[7].place[31] = 255);
    BREAKS(k.channels[31][14].place[63] = 1);
    BREAKS(k.channels[2][3].place[1] = 1);
}

static void time_queue(void)
{
    BREAKS(k.time_queue.place[0] = 0, k.time_queue.place[1] = 2); /* 9 before 7 */
    KEEPS(k.time_queue.place[1] = 1, k.time_queue.place[2] = 0);  /* equal ticks left */
    BREAKS(k.time_queue.place[2] = 0, k.time_queue.length = 2);
    BREAKS(k.time_queue.place[k.time_queue.length++] = 1);
    BREAKS(k.time_queue.place[k.time_queue.length++] = 3);
    BREAKS(k.time_queue.place[k.time_queue.length++] = 6);
    BREAKS(k.time_queue.place[k.time_queue.length++] = 31);
    BREAKS(k.threads[2].ticks_left = 0);
    BREAKS(k.threads[2].ticks_left = 10);
    BREAKS(k.threads[3].ticks_left = 10);
    BREAKS(k.threads[1].ticks_left = 0);
    BREAKS(k.threads[5].ticks_left = 1);
    BREAKS(k.threads[5].ticks_left = 1; k.time_queue.place[3] = 5; k.time_queue.length = 4);
}

static void thread_fields(void)
{
    BREAKS(k.threads[6].live = 0);
    BREAKS(k.threads[6].live = 2);
    BREAKS(k.threads[20].reply = NONE);
    BREAKS(k.threads[20].priority = 1);
    BREAKS(k.threads[20].wake_reason = MET);
    BREAKS(k.threads[20].ticks_left = 1);
    BREAKS(k.threads[4].priority = 0);
    BREAKS(k.threads[4].priority = 31);
    BREAKS(k.threads[6].priority = 6);
    BREAKS(k.threads[6].first_priority = 0);
    BREAKS(k.threads[6].first_priority = 31);
    BREAKS(k.threads[4].condition = 6);
    BREAKS(k.threads[6].object = 1);
    BREAKS(k.threads[2].object = 1);
    BREAKS(k.threads[4].object = 0);
    BREAKS(k.threads[4].object = 32768);
    BREAKS(k.threads[3].object = 8);
    BREAKS(k.threads[0].object = 16);
    BREAKS(k.threads[6].wake_reason = 3);
    BREAKS(k.threads[6].wake_reason = TIMED_OUT);
    BREAKS(k.threads[6].wake_reason = TIMED_OUT, k.threads[6].timed_out_kind = ASLEEP);
    BREAKS(k.threads[6].wake_reason = TIMED_OUT, k.threads[6].timed_out_kind = 6);
    BREAKS(k.threads[6].wake_reason = MET, k.threads[6].timed_out_kind = WAITS_EVENT);
    BREAKS(k.threads[6].reply = 64);
    KEEPS(k.threads[6].reply = 63);
    KEEPS(k.threads[6].wake_reason = TIMED_OUT, k.threads[6].timed_out_kind = WAITS_MESSAGE);
    KEEPS(k.threads[2].wake_reason = MET, k.threads[2].reply = 7);
    KEEPS(k.threads[6].first_priority = 1);
}

static void objects(void)
{
    BREAKS(k.semaphores[0].count = 1);
    BREAKS(k.semaphores[1].count = 2);
    BREAKS(k.semaphores[1].count = 0, k.semaphores[1].maximum = 0);
    BREAKS(k.semaphores[1].period = 0);
    BREAKS(k.semaphores[1].ticks_left = 0);
    BREAKS(k.semaphores[0].ticks_left = 1);
    BREAKS(k.semaphores[0].live = 0);
    BREAKS(k.semaphores[1].live = 3);
    BREAKS(k.semaphores[15].maximum = 1);
    BREAKS(k.semaphores[15].period = k.semaphores[15].ticks_left = 1);
    KEEPS(k.semaphores[1].ticks_left = 4000000000);
    BREAKS(k.events[7].mode = 2);
    BREAKS(k.events[0].mode = MODE_ALL);
    BREAKS(k.events[0].mask = 1);
    BREAKS(k.events[0].mask = k.events[0].values = k.bits = 0x80000000);
    KEEPS(k.events[0].mask = k.events[0].values = 0x80000000);
    KEEPS(k.events[0].values = 5);
}

static void messages(void)
{
    BREAKS(k.messages[1].owner = 20);
    BREAKS(k.messages[1].owner = 32);
    BREAKS(k.messages[1].sender = 32);
    BREAKS(k.messages[1].live = 2);
    BREAKS(k.messages[1].live = 0);
    BREAKS(k.messages[63].size = 1);
    BREAKS(k.messages[0].owner = 1);
    BREAKS(k.channels[2][3].place[k.channels[2][3].length++] = 0);
    BREAKS(k.channels[2][0].place[k.channels[2][0].length++] = 0);
    BREAKS(k.channels[2][0].place[k.channels[2][0].length++] = 1);
    BREAKS(k.channels[2][0].place[k.channels[2][0].length++] = 9);
    BREAKS(k.channels[20][0].place[k.channels[20][0].length++] = 9);
    BREAKS(k.messages[1].owner = 4, k.channels[4][2].length = 1, k.channels[4][2].place[0] = 1);
    KEEPS(k.messages[1].owner = 4, k.channels[4][1].length = 1, k.channels[4][1].place[0] = 1);
    KEEPS(k.messages[1].owner = 4);
    KEEPS(k.messages[1].sender = 20);
    KEEPS(memset(&k.channels[2][3], 0, sizeof k.channels[2][3])); /* then it is held */
}

static void running(void)
{
    BREAKS(k.running = NONE);
    BREAKS(k.running = 4);
    BREAKS(k.running = 20);
    BREAKS(k.running = 32);
    KEEPS(k.running = 6);
    KEEPS(k.unscheduled = 255, k.critical = 255);
    KEEPS(k.unscheduled = 0, k.critical = 1, k.running = 6);
    KEEPS(k.unscheduled = 0);
    BREAKS(k.unscheduled = 0, k.running = 6);
    BREAKS(k.unscheduled = 0, k.running = NONE);
}

static void counts(void)
{
    COUNTS(0, 0, 0, 0, ask(8, 0, 0, 0, 0));
    COUNTS(1, 0, 0, 0, ask(2, 9, 0, 0, 0));
    COUNTS(0, 1, 0, 0, ask(14, 0, 0, 1, 0));
    COUNTS(0, 0, 1, 0, ask(24, 0, 0, 0, 0));
    COUNTS(3, 1, 0, 0, ask(1, 0, 0, 0, 0));
    COUNTS(1, 0, 0, 0, ask(19, 0, 0, 0, 0));  /* wakes and leaves the count */
    COUNTS(0, 0, 0, 0, ask(19, 1, 0, 0, 0));  /* at the maximum */
    COUNTS(0, 1, 0, 0, ask(18, 1, 0, 0, 0));
    COUNTS(0, 1, 0, 0, ask(15, 1, 0, 0, 0));
    COUNTS(0, 0, 0, 0, ask(16, 1, 0, 5, 3));
    COUNTS(0, 1, 0, 0, ask(17, 1, 0, 0, 0));
    COUNTS(0, 0, 0, 0, ask(4, 5, 6, 0, 0));
    COUNTS(1, 0, 0, 0, ask(4, 0, 9, 0, 0));
    COUNTS(0, 0, 0, 0, ask(5, 1, 0, 0, 0));
    COUNTS(1, 0, 1, 0, ask(3, 1, 0, 0, 0));
    COUNTS(1, 0, 1, 0, ask(3, 2, 0, 0, 0));
    COUNTS(0, 0, 0, 0, ask(22, 1, 0, 0, 0));
    COUNTS(1, 0, 0, 0, ask(20, 0, 0, 0, 0)); /* mode all with mask 0 wakes thread 3 */
}

/* Post to oneself by the sender and the pend that takes it change no record. */
static void message_counts(void)
{
    memcpy(&k, &base, sizeof k);
    EXPECT(same(ask(24, 0, 0, 0, 0), 0, 2, 5));
    memcpy(&base, &k, sizeof k);
    COUNTS(1, 0, 1, 0, ask(26, 2, 4, 3, 0)); /* thread 4 waits on channel 3 */
    EXPECT(k.threads[4].reply == 2 && k.threads[4].wake_reason == MET && k.messages[2].owner == 4);
    COUNTS(0, 0, 1, 0, ask(26, 2, 4, 2, 0)); /* but not on channel 2 */
    COUNTS(0, 0, 0, 0, ask(26, 2, 5, 2, 0));
    memcpy(&base, &k, sizeof k);
    COUNTS(0, 0, 0, 0, ask(27, 0, 2, 0, 0));
}

/* Uptime 4,294,967,295, then a tick; and the reasons that a long sleep and two timeouts leave. */
static void ticks(void)
{
    make_fresh(&k);
    k.uptime = 4294967295;
    EXPECT(same(ask(1, 0, 0, 0, 0), 0, 255, 255) && k.uptime == 0);
    memcpy(&k, &base, sizeof k);
    for (int i = 0; i < 9; i++)
        EXPECT(same(ask(1, 0, 0, 0, 0), 0, 255, 5));
    EXPECT(k.threads[2].wake_reason == MET && k.threads[2].reply == NONE);
    EXPECT(k.threads[0].wake_reason == TIMED_OUT && k.threads[0].timed_out_kind == WAITS_SEMAPHORE);
    EXPECT(k.semaphore_waiters[0].length == 0 && k.time_queue.length == 0);
    EXPECT(k.ready[5].length == 2 && k.ready[5].place[0] == 2 && k.ready[5].place[1] == 1);
    EXPECT(k.semaphores[1].ticks_left == 2 && k.semaphores[1].count == 1 && k.uptime == 9);
    EXPECT(same(ask(9, 0, 0, 0, 0), 0, 255, 0));
}

/* Goes on where ticks() ended: only waking and blocking change reason and reply. */
static void reasons(void)
{
    const struct thread *t = &k.threads[0], *receiver = &k.threads[4];
    EXPECT(same(ask(18, 1, 0, 0, 0), 0, 255, 0)); /* a pend that passes */
    EXPECT(same(ask(6, 0, 0, 0, 0), 0, 255, 0));
    EXPECT(same(ask(4, 0, 1, 0, 0), 0, 255, 0));
    EXPECT(t->wake_reason == TIMED_OUT && t->timed_out_kind == WAITS_SEMAPHORE && t->reply == NONE);
    EXPECT(same(ask(24, 0, 0, 0, 0), 0, 3, 0));
    EXPECT(same(ask(26, 3, 4, 1, 0), 0, 255, 0)); /* received by thread 4 as its reply */
    EXPECT(same(ask(4, 4, 1, 0, 0), 0, 255, 0));
    EXPECT(same(ask(27, 0, 4, 2, 0), 0, 255, 4));
    EXPECT(t->wake_reason == REASON_NONE && t->timed_out_kind == 0 && t->reply == NONE);
    EXPECT(same(ask(25, 3, 0, 0, 0), 0, 255, 4));
    EXPECT(receiver->wake_reason == MET && receiver->reply == 3); /* though 3 is gone */
    EXPECT(same(ask(21, 0, 0, 2, 0), 0, 255, 2));
    EXPECT(receiver->wake_reason == REASON_NONE && receiver->reply == NONE);
    EXPECT(same(ask(1, 0, 0, 0, 0), 0, 255, 2));
    EXPECT(same(ask(1, 0, 0, 0, 0), 0, 255, 0));
    EXPECT(t->wake_reason == TIMED_OUT && t->timed_out_kind == WAITS_MESSAGE);
    EXPECT(receiver->wake_reason == TIMED_OUT && receiver->timed_out_kind == WAITS_EVENT);
    EXPECT(same(ask(3, 4, 0, 0, 0), 0, 255, 0));
    EXPECT(!receiver->live && receiver->reply == 0 && receiver->timed_out_kind == 0);
}

/* ---- notes, worked out by hand from docs/LAYOUT.md ---- */

int notes_as(const uint8_t *sections, size_t n, uint8_t kind, uint8_t a, uint16_t b, uint32_t c, uint32_t d)
{
    static struct log log;
    static struct kernel before, after;
    uint8_t r[RECORD];
    make_record(r, kind, a, b, c, d);
    memcpy(&before, &k, sizeof k);
    log.used = 0;
    int right = call_noted(&k, r, &log).number == 0 && log.used == RECORD + n + 2
        && memcmp(log.bytes, r, RECORD) == 0 && memcmp(log.bytes + RECORD, sections, n) == 0
        && log.bytes[RECORD + n] == RECORD + n + 2 && log.bytes[RECORD + n + 1] == 0;
    memcpy(&after, &k, sizeof k);
    if (right)
        undo_last(&after, &log);
    return right && log.used == 0 && states_are_equal(&before, &after);
}

static void notes_of_threads(void)
{
    make_fresh(&k);
    NOTES(2, 5, 0, 0, 0, EMPTY, 1, 0, 0, EMPTY, EMPTY, EMPTY, EMPTY); /* was all zero */
    memcpy(&k, &base, sizeof k);
    NOTES(19, 0, 0, 0, 0, EMPTY, 8, 0, 0x80, 0xc8, 9, 0, 0, 0, 2, 1, EMPTY, EMPTY, EMPTY, EMPTY); /* behind two */
    memcpy(&k, &base, sizeof k);
    NOTES(20, 0, 0, 0, 0, EMPTY, 3, 0, 0x83, 0x40, 4, EMPTY, 3, 0, 0x80, 1, 1, EMPTY, EMPTY); /* was mode any */
    NOTES(4, 6, 7, 0, 0, EMPTY, 3, 0, 0x86, 0x40, 2, EMPTY, EMPTY, EMPTY, EMPTY); /* the same priority */
    NOTES(9, 0, 0, 0, 0, 2, 0, 4, 5, EMPTY, EMPTY, EMPTY, EMPTY, EMPTY); /* 3 runs now */
    NOTES(7, 0, 0, 3, 0, EMPTY, 1, 0, 3, EMPTY, EMPTY, EMPTY, EMPTY);    /* met, as predicted */
    NOTES(7, 0, 0, 3, 0, EMPTY, 3, 0, 0x85, 0x10, 0, EMPTY, EMPTY, EMPTY, EMPTY); /* 5 was never woken */
}

/* Thread 2 wakes at the seventh tick; at the ninth 0 and 1, which stand behind three ready threads, time out. */
static void notes_of_ticks(void)
{
    memcpy(&k, &base, sizeof k);
    for (int i = 1; i <= 9; i++)
        if (i == 2) /* its ticks are its period now, as if it had been posted */
            NOTES(1, 0, 0, 0, 0, EMPTY, EMPTY, 8, 0, 0x81, 0x0a, 1, 0, 4, 0, 0, 0, EMPTY, EMPTY, EMPTY);
        else if (i == 7)
            NOTES(1, 0, 0, 0, 0, EMPTY, 1, 0, 2, EMPTY, EMPTY, EMPTY, EMPTY);
        else if (i == 9)
            NOTES(1, 0, 0, 0, 0, EMPTY, 7, 0, 0x80, 0x40, 3, 0x81, 0xc0, 4, 1, EMPTY, EMPTY, EMPTY, EMPTY);
        else
            NOTES(1, 0, 0, 0, 0, EMPTY, EMPTY, EMPTY, EMPTY, EMPTY, EMPTY); /* ageing alone; posts at the maximum too */
    NOTES(16, 1, 0, 1, 1, EMPTY, EMPTY, 10, 0, 0x81, 0x18, 2, 0, 0, 0, 3, 0, 0, 0, EMPTY, EMPTY, EMPTY);
    NOTES(16, 1, 0, 1, 1, EMPTY, EMPTY, EMPTY, EMPTY, EMPTY, EMPTY);
    NOTES(16, 0, 0, 1, 1, EMPTY, EMPTY, 10, 0, 0x80, 0x18, 0, 0, 0, 0, 0, 0, 0, 0, EMPTY, EMPTY, EMPTY);
    NOTES(1, 0, 0, 0, 0, EMPTY, EMPTY, EMPTY, EMPTY, EMPTY, EMPTY);    /* counted, and told */
    NOTES(1, 0, 0, 0, 0, EMPTY, EMPTY, 1, 0, 0, EMPTY, EMPTY, EMPTY);  /* counted, and full now */
    NOTES(1, 0, 0, 0, 0, EMPTY, EMPTY, EMPTY, EMPTY, EMPTY, EMPTY);    /* full before */
}

static void notes_of_levels_and_bits(void)
{
    memcpy(&k, &base, sizeof k);
    NOTES(22, 1, 0, 0, 0, EMPTY, EMPTY, EMPTY, 1, 0, 8, EMPTY, EMPTY);
    NOTES(22, 1, 0, 0, 0, EMPTY, EMPTY, EMPTY, EMPTY, EMPTY, EMPTY);
    NOTES(8, 0, 0, 0, 0, EMPTY, EMPTY, EMPTY, EMPTY, EMPTY, EMPTY);
    NOTES(10, 0, 0, 0, 0, 2, 0, 1, 2, EMPTY, EMPTY, EMPTY, EMPTY, EMPTY);
    NOTES(11, 0, 0, 0, 0, EMPTY, EMPTY, EMPTY, EMPTY, EMPTY, EMPTY);
    EXPECT(same(ask(2, 1, 0, 0, 0), 0, 7, 5));
    NOTES(12, 0, 0, 0, 0, 2, 0, 4, 5, EMPTY, EMPTY, EMPTY, EMPTY, EMPTY); /* 7 runs now */
}

static void notes_of_messages(void)
{
    memcpy(&k, &base, sizeof k);
    NOTES(24, 0, 1, 2, 3, EMPTY, EMPTY, EMPTY, EMPTY, EMPTY, 1, 0, 2);
    NOTES(26, 2, 5, 9, 0, EMPTY, EMPTY, EMPTY, EMPTY, EMPTY, 1, 0, 2);
    NOTES(27, 0, 256, 0, 0, EMPTY, EMPTY, EMPTY, EMPTY, EMPTY, 4, 0, 0x82, 0xc0, 9, 1); /* behind message 0 */
    NOTES(25, 2, 0, 0, 0, EMPTY, EMPTY, EMPTY, EMPTY, EMPTY, 12, 0, 0x82, 0x38, 1, 0, 2, 0, 0, 0, 3, 0, 0, 0);
    NOTES(3, 1, 0, 0, 0, EMPTY, 11, 0, 0xc1, 3, 0xcb, 5, 5, 9, 0, 0, 0, 3, 2, EMPTY, EMPTY, EMPTY,
          12, 0, 0x81, 0x38, 1, 0, 2, 0, 0, 0, 3, 0, 0, 0); /* held */
    NOTES(3, 2, 0, 0, 0, EMPTY, 9, 0, 0xc2, 2, 0x0b, 5, 5, 7, 0, 0, 0, EMPTY, EMPTY, EMPTY,
          15, 0, 0x80, 0xfc, 1, 7, 0, 8, 0, 0, 0, 9, 0, 0, 0, 4, 0); /* queued, from another sender */
    memcpy(&k, &base, sizeof k);
    EXPECT(same(ask(24, 0, 0, 0, 0), 0, 2, 5));
    NOTES(26, 2, 4, 1, 0, EMPTY, 4, 0, 0x84, 0x04, 5, 0, EMPTY, EMPTY, EMPTY, 1, 0, 2); /* 4 waited with mask 5 */
}

/* A log with room for a note of 30 bytes, but for none of 31. */
static void full_log(void)
{
    static struct log log;
    uint8_t r[RECORD];
    make_record(r, 2, 5, 0, 0, 0);
    make_fresh(&k);
    log.used = LOG_LENGTH - 30;
    EXPECT(same(call_noted(&k, r, &log), 13, 255, 255) && log.used == LOG_LENGTH - 30 && !k.threads[0].live);
    make_record(r, 1, 0, 0, 0, 0);
    EXPECT(same(call_noted(&k, r, &log), 0, 255, 255) && log.used == LOG_LENGTH && k.uptime == 1);
    EXPECT(same(call_noted(&k, r, &log), 13, 255, 255) && log.used == LOG_LENGTH && k.uptime == 1);
    undo_last(&k, &log);
    EXPECT(k.uptime == 0 && log.used == LOG_LENGTH - 30);
    log.used = LOG_LENGTH - 31;
    make_record(r, 2, 5, 0, 0, 0);
    EXPECT(same(call_noted(&k, r, &log), 0, 0, 0) && log.used == LOG_LENGTH);
}

int main(void)
{
    make_base();
    notes_of_threads();
    notes_of_ticks();
    notes_of_levels_and_bits();
    notes_of_messages();
    full_log();
    places();
    unused_store();
    time_queue();
    thread_fields();
    objects();
    messages();
    running();
    counts();
    message_counts();
    ticks();
    reasons();
    flags();
    images();
    printf("unit %d checks, %d failures\n", checks, failures);
    return failures != 0;
}
