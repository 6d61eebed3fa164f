/* The second replay: the kernel of documents 01 and 02 once more, in plain C, to be compared with the proved one. */
#ifndef REPLAY_H
#define REPLAY_H

#include <stdint.h>

enum {
    THREADS = 32, PRIORITIES = 30, SEMAPHORES = 16, EVENTS = 8,
    BITS = 32, FLAGS = 16, MESSAGES = 64, CHANNELS = 15, RECORD = 16, NONE = 255
};

enum condition { READY, ASLEEP, WAITS_SEMAPHORE, WAITS_EVENT, WAITS_MESSAGE, WAITS_FLAG };
enum wake_reason { REASON_NONE, MET, TIMED_OUT };
enum mode { MODE_ALL, MODE_ANY };

struct thread {
    uint8_t live, priority, first_priority;
    uint8_t condition;      /* enum condition */
    uint16_t object;        /* id of the semaphore, event or flag, or channel mask, waited for; else 0 */
    uint32_t ticks_left;
    uint8_t wake_reason;    /* enum wake_reason */
    uint8_t timed_out_kind; /* with TIMED_OUT: WAITS_SEMAPHORE, _EVENT, _MESSAGE or _FLAG, else 0 */
    uint8_t reply;          /* message id or NONE */
};

struct semaphore {
    uint8_t live;
    uint16_t count, maximum;
    uint32_t ticks_left, period;
};

struct event {
    uint8_t mode; /* enum mode */
    uint32_t mask, values;
};

/* A device flag (document 02, request 1). */
struct flag {
    uint8_t live;
};

struct message {
    uint8_t live, owner, sender;
    uint16_t type;
    uint32_t size, address;
};

/* First place at 0; the store behind the length is 0. */
struct queue {
    uint8_t length, place[THREADS];
};
struct channel {
    uint8_t length, place[MESSAGES];
};

struct kernel {
    uint32_t uptime;
    uint8_t unscheduled, critical; /* the two region levels */
    uint8_t running;               /* thread id or NONE */
    uint32_t bits;
    struct thread threads[THREADS];
    struct queue ready[PRIORITIES + 1];         /* by priority; list 0 stays empty */
    struct queue time_queue;
    struct channel channels[THREADS][CHANNELS]; /* channel n stands at n - 1 */
    struct semaphore semaphores[SEMAPHORES];
    struct queue semaphore_waiters[SEMAPHORES];
    struct event events[EVENTS];
    struct queue event_waiters[EVENTS];
    struct flag flags[FLAGS];
    struct queue flag_waiters[FLAGS];
    struct message messages[MESSAGES];
};

struct answer {
    int number, value, runner;
};

/* How many records differ between two states. */
struct counts {
    int T, S, M, F;
};

void make_fresh(struct kernel *k);
int event_is_true(const struct kernel *k, int event);
uint8_t first_ready(const struct kernel *k);

/* The answer to one call record; the state changes only where the number is 0. */
struct answer call(struct kernel *k, const uint8_t record[RECORD]);
/* The same for a state known to keep the rules: the test for number 14 is left out. */
struct answer call_kept(struct kernel *k, const uint8_t record[RECORD]);

int keeps_rules(const struct kernel *k);
struct counts count_differences(const struct kernel *before, const struct kernel *after);
/* All fields and all places. */
int states_are_equal(const struct kernel *x, const struct kernel *y);

#endif
