/* Forward meaning of the call kinds (document 01, "What each call does", "What comes back"; document 02, request 1). */
#include <assert.h>
#include <string.h>

#include "notes.h"
#include "replay.h"

struct record {
    uint8_t kind, a;
    uint16_t b;
    uint32_t c, d, e;
};

/* Used fields and caller class of each kind; no other flag means that the running thread calls. */
enum { A = 1, B = 2, C = 4, D = 8, INTERRUPT = 16, BOOT = 32, KNOWN = 64 };
enum { LAST_KIND = 34 };
static const uint8_t kinds[LAST_KIND + 1] = {
    [1] = KNOWN | INTERRUPT, [2] = KNOWN | BOOT | A, [3] = KNOWN | A, [4] = KNOWN | A | B,
    [5] = KNOWN | A, [6] = KNOWN, [7] = KNOWN | C, [8] = KNOWN, [9] = KNOWN, [10] = KNOWN,
    [11] = KNOWN, [12] = KNOWN, [13] = KNOWN, [14] = KNOWN | BOOT | B | C, [15] = KNOWN | A,
    [16] = KNOWN | A | C | D, [17] = KNOWN | A, [18] = KNOWN | A | C, [19] = KNOWN | A,
    [20] = KNOWN | BOOT | A | B | C | D, [21] = KNOWN | A | C, [22] = KNOWN | A, [23] = KNOWN | A,
    [24] = KNOWN | B | C | D, [25] = KNOWN | A, [26] = KNOWN | A | B | C, [27] = KNOWN | B | C,
    [28] = KNOWN | INTERRUPT | A, [29] = KNOWN | INTERRUPT | A, [30] = KNOWN | INTERRUPT | A,
    [31] = KNOWN, [32] = KNOWN | A, [33] = KNOWN | A | C, [34] = KNOWN | A,
};

static uint32_t four_bytes(const uint8_t *p)
{
    return p[0] | (uint32_t)p[1] << 8 | (uint32_t)p[2] << 16 | (uint32_t)p[3] << 24;
}

static struct record decode(const uint8_t p[RECORD])
{
    struct record r = { p[0], p[1], (uint16_t)(p[2] | p[3] << 8),
                        four_bytes(p + 4), four_bytes(p + 8), four_bytes(p + 12) };
    return r;
}

/* ---- places in queues and channels ---- */

static void put_at(uint8_t *place, uint8_t *length, int at, uint8_t id)
{
    memmove(place + at + 1, place + at, (size_t)(*length - at));
    place[at] = id;
    ++*length;
}

/* Does nothing where id has no place. */
static void take_out(uint8_t *place, uint8_t *length, uint8_t id)
{
    const uint8_t *found = memchr(place, id, *length);
    if (!found)
        return;
    int at = (int)(found - place);
    memmove(place + at, place + at + 1, (size_t)(*length - at - 1));
    --*length;
    place[*length] = 0; /* unused store is 0 */
}

static void join_ready(struct kernel *k, uint8_t t)
{
    struct queue *q = &k->ready[k->threads[t].priority];
    put_at(q->place, &q->length, q->length, t);
}

static struct queue *waiting_queue(struct kernel *k, uint8_t t)
{
    const struct thread *th = &k->threads[t];
    if (th->condition == WAITS_SEMAPHORE)
        return &k->semaphore_waiters[th->object];
    if (th->condition == WAITS_EVENT)
        return &k->event_waiters[th->object];
    if (th->condition == WAITS_FLAG)
        return &k->flag_waiters[th->object];
    return 0; /* sleepers and message waiters stand in no such queue */
}

/* Behind equal priorities. */
static void join_waiting(struct kernel *k, uint8_t t)
{
    struct queue *q = waiting_queue(k, t);
    int at = 0;
    if (!q)
        return;
    while (at < q->length && k->threads[q->place[at]].priority <= k->threads[t].priority)
        at++;
    put_at(q->place, &q->length, at, t);
}

/* Behind equal ticks left. */
static void join_time_queue(struct kernel *k, uint8_t t)
{
    struct queue *q = &k->time_queue;
    int at = 0;
    while (at < q->length && k->threads[q->place[at]].ticks_left <= k->threads[t].ticks_left)
        at++;
    put_at(q->place, &q->length, at, t);
}

/* Leaves the ready list or the waiting queue, whichever it stands in. */
static void leave_list(struct kernel *k, uint8_t t)
{
    struct queue *q = waiting_queue(k, t);
    if (k->threads[t].condition == READY)
        q = &k->ready[k->threads[t].priority];
    if (q)
        take_out(q->place, &q->length, t);
}

static void leave_every_queue(struct kernel *k, uint8_t t)
{
    leave_list(k, t);
    take_out(k->time_queue.place, &k->time_queue.length, t);
}

/* ---- waking, blocking, scheduling ---- */

static void wake(struct kernel *k, uint8_t t, enum wake_reason reason)
{
    struct thread *th = &k->threads[t];
    if (touched)
        touch_thread(touched, k, t);
    leave_every_queue(k, t);
    th->wake_reason = (uint8_t)reason;
    th->timed_out_kind = reason == TIMED_OUT ? th->condition : 0;
    th->condition = READY;
    th->object = 0;
    th->ticks_left = 0;
    join_ready(k, t);
}

/* The running thread sleeps or waits; ticks 0 waits for ever. */
static void block(struct kernel *k, enum condition condition, uint16_t object, uint32_t ticks)
{
    uint8_t t = k->running;
    struct thread *th = &k->threads[t];
    if (touched)
        touch_thread(touched, k, t);
    leave_list(k, t);
    th->condition = (uint8_t)condition;
    th->object = object;
    th->ticks_left = ticks;
    th->wake_reason = REASON_NONE;
    th->timed_out_kind = 0;
    th->reply = NONE;
    join_waiting(k, t);
    if (ticks > 0)
        join_time_queue(k, t);
}

uint8_t first_ready(const struct kernel *k)
{
    for (int p = 1; p <= PRIORITIES; p++)
        if (k->ready[p].length > 0)
            return k->ready[p].place[0];
    return NONE;
}

static void schedule(struct kernel *k)
{
    if (k->unscheduled == 0 && k->critical == 0)
        k->running = first_ready(k);
}

/* ---- threads ---- */

static uint8_t create_thread(struct kernel *k, uint8_t priority)
{
    uint8_t t = 0;
    while (k->threads[t].live)
        t++;
    if (touched)
        touch_thread(touched, k, t);
    k->threads[t] = (struct thread){ .live = 1, .priority = priority,
                                     .first_priority = priority, .reply = NONE };
    join_ready(k, t);
    return t;
}

static void destroy_thread(struct kernel *k, uint8_t t)
{
    if (touched) {
        touch_thread(touched, k, t);
        touch_messages_of(touched, k, t);
    }
    leave_every_queue(k, t);
    memset(k->channels[t], 0, sizeof k->channels[t]);
    for (int m = 0; m < MESSAGES; m++) /* held and queued ones alike */
        if (k->messages[m].live && k->messages[m].owner == t)
            k->messages[m] = (struct message){ 0 };
    k->threads[t] = (struct thread){ 0 };
}

/* A ready thread goes last, a waiter behind equals; its place in the time queue stays. */
static void change_priority(struct kernel *k, uint8_t t, uint8_t priority)
{
    if (touched) /* even where the record stays: it moves */
        touch_thread(touched, k, t);
    leave_list(k, t);
    k->threads[t].priority = priority;
    if (k->threads[t].condition == READY)
        join_ready(k, t);
    else
        join_waiting(k, t);
}

static void yield(struct kernel *k)
{
    if (touched)
        touch_thread(touched, k, k->running);
    leave_list(k, k->running);
    join_ready(k, k->running);
}

/* ---- semaphores and ticks ---- */

static uint8_t create_semaphore(struct kernel *k, uint16_t count, uint16_t maximum)
{
    uint8_t s = 0;
    while (k->semaphores[s].live)
        s++;
    if (touched)
        touch_semaphore(touched, k, s);
    k->semaphores[s] = (struct semaphore){ .live = 1, .count = count, .maximum = maximum };
    return s;
}

static void destroy_semaphore(struct kernel *k, uint8_t s)
{
    if (touched)
        touch_semaphore(touched, k, s);
    k->semaphores[s] = (struct semaphore){ 0 };
}

static void make_periodic(struct kernel *k, uint8_t s, uint32_t delay, uint32_t period)
{
    struct semaphore *sem = &k->semaphores[s];
    if (touched && (sem->ticks_left != delay || sem->period != period))
        touch_semaphore(touched, k, s);
    sem->ticks_left = delay;
    sem->period = period;
}

static void pend_semaphore(struct kernel *k, uint8_t s, uint32_t timeout)
{
    if (k->semaphores[s].count == 0) {
        block(k, WAITS_SEMAPHORE, s, timeout);
        return;
    }
    if (touched)
        touch_semaphore(touched, k, s);
    k->semaphores[s].count--;
}

static void post_semaphore(struct kernel *k, uint8_t s)
{
    struct semaphore *sem = &k->semaphores[s];
    if (k->semaphore_waiters[s].length > 0) {
        wake(k, k->semaphore_waiters[s].place[0], MET);
    } else if (sem->count < sem->maximum) {
        if (touched)
            touch_semaphore(touched, k, s);
        sem->count++;
    }
}

static void tick(struct kernel *k)
{
    struct queue *q = &k->time_queue;
    k->uptime++;
    for (int i = 0; i < q->length; i++)
        k->threads[q->place[i]].ticks_left--;
    while (q->length > 0 && k->threads[q->place[0]].ticks_left == 0)
        wake(k, q->place[0], k->threads[q->place[0]].condition == ASLEEP ? MET : TIMED_OUT);
    for (uint8_t s = 0; s < SEMAPHORES; s++) {
        struct semaphore *sem = &k->semaphores[s];
        if (sem->period == 0)
            continue;
        sem->ticks_left--;
        if (touched && (sem->ticks_left == 0 || sem->ticks_left == sem->period))
            touch_semaphore(touched, k, s); /* posted, or as if */
        if (sem->ticks_left == 0) {
            post_semaphore(k, s);
            sem->ticks_left = sem->period;
        }
    }
}

/* ---- events ---- */

int event_is_true(const struct kernel *k, int event)
{
    const struct event *e = &k->events[event];
    uint32_t equal = ~(k->bits ^ e->values) & e->mask;
    return e->mode == MODE_ALL ? equal == e->mask : equal != 0;
}

static void work_out_events(struct kernel *k)
{
    for (int e = 0; e < EVENTS; e++)
        while (event_is_true(k, e) && k->event_waiters[e].length > 0)
            wake(k, k->event_waiters[e].place[0], MET);
}

static void load_event(struct kernel *k, const struct record *r)
{
    struct event *e = &k->events[r->a];
    if (touched && (e->mode != r->b || e->mask != r->c || e->values != r->d))
        touch_event(touched, k, r->a);
    *e = (struct event){ (uint8_t)r->b, r->c, r->d };
    work_out_events(k);
}

static void pend_event(struct kernel *k, uint8_t event, uint32_t timeout)
{
    if (!event_is_true(k, event))
        block(k, WAITS_EVENT, event, timeout);
}

static void change_bit(struct kernel *k, uint8_t bit, int set)
{
    uint32_t one = (uint32_t)1 << bit;
    k->bits = set ? k->bits | one : k->bits & ~one;
    work_out_events(k);
}

/* ---- device flags ---- */

static uint8_t create_flag(struct kernel *k)
{
    uint8_t f = 0;
    while (k->flags[f].live)
        f++;
    if (touched)
        touch_flag(touched, f);
    k->flags[f].live = 1;
    return f;
}

/* The level that it takes off is the only one held, so the scheduler chooses afterwards. */
static void pend_flag(struct kernel *k, uint8_t f, uint32_t timeout)
{
    k->critical = 0;
    block(k, WAITS_FLAG, f, timeout);
}

static void post_flag(struct kernel *k, uint8_t f)
{
    while (k->flag_waiters[f].length > 0)
        wake(k, k->flag_waiters[f].place[0], MET);
}

/* ---- messages ---- */

static uint8_t create_message(struct kernel *k, const struct record *r)
{
    uint8_t m = 0;
    while (k->messages[m].live)
        m++;
    if (touched)
        touch_message(touched, k, m);
    k->messages[m] = (struct message){ 1, k->running, k->running, r->b, r->c, r->d };
    return m;
}

static void destroy_message(struct kernel *k, uint8_t m)
{
    if (touched)
        touch_message(touched, k, m);
    k->messages[m] = (struct message){ 0 };
}

static void post_message(struct kernel *k, uint8_t m, uint8_t to, uint32_t channel)
{
    struct thread *th = &k->threads[to];
    struct channel *ch = &k->channels[to][channel - 1];
    if (touched)
        touch_message(touched, k, m);
    k->messages[m].owner = to;
    k->messages[m].sender = k->running;
    if (th->condition == WAITS_MESSAGE && th->object >> (channel - 1) & 1) {
        wake(k, to, MET); /* received at the post: held, never queued */
        th->reply = m;
    } else {
        put_at(ch->place, &ch->length, ch->length, m);
    }
}

/* The running thread's lowest masked channel that has a message, or 0. */
static struct channel *filled_channel(struct kernel *k, uint16_t mask)
{
    for (int c = 0; c < CHANNELS; c++)
        if (mask >> c & 1 && k->channels[k->running][c].length > 0)
            return &k->channels[k->running][c];
    return 0;
}

static uint8_t pend_message(struct kernel *k, uint16_t mask, uint32_t timeout)
{
    struct channel *ch = filled_channel(k, mask);
    if (!ch) {
        block(k, WAITS_MESSAGE, mask, timeout);
        return NONE;
    }
    uint8_t m = ch->place[0];
    if (touched)
        touch_queued(touched, k, m, (int)(ch - k->channels[k->running]) + 1);
    take_out(ch->place, &ch->length, m);
    return m;
}

static int is_queued(const struct kernel *k, uint8_t m)
{
    const struct channel *ch = k->channels[k->messages[m].owner];
    for (int c = 0; c < CHANNELS; c++)
        if (memchr(ch[c].place, m, ch[c].length))
            return 1;
    return 0;
}

/* ---- refusals, one test for each number ---- */

static int is_number_1(const struct record *r)
{
    uint8_t use = r->kind <= LAST_KIND ? kinds[r->kind] : 0;
    return !(use & KNOWN) || (!(use & A) && r->a) || (!(use & B) && r->b)
        || (!(use & C) && r->c) || (!(use & D) && r->d) || r->e;
}

static int is_number_5(const struct record *r)
{
    switch (r->kind) {
    case 2: return r->a < 1 || r->a > PRIORITIES;
    case 4: return r->b < 1 || r->b > PRIORITIES;
    case 7: return r->c == 0;
    case 14: return r->c < 1 || r->c > 65535 || r->b > r->c;
    case 16: return r->c == 0 || r->d == 0;
    case 20: return r->b > MODE_ANY;
    case 26: return r->c < 1 || r->c > CHANNELS;
    case 27: return r->b == 0 || r->b > 32767;
    default: return 0;
    }
}

static int thread_lives(const struct kernel *k, uint32_t id)
{
    return id < THREADS && k->threads[id].live;
}

static int semaphore_lives(const struct kernel *k, uint32_t id)
{
    return id < SEMAPHORES && k->semaphores[id].live;
}

static int flag_lives(const struct kernel *k, uint32_t id)
{
    return id < FLAGS && k->flags[id].live;
}

static int message_lives(const struct kernel *k, uint32_t id)
{
    return id < MESSAGES && k->messages[id].live;
}

static int is_number_4(const struct kernel *k, const struct record *r)
{
    switch (r->kind) {
    case 3: case 4: case 5:
        return !thread_lives(k, r->a);
    case 15: case 16: case 17: case 18: case 19: case 28:
        return !semaphore_lives(k, r->a);
    case 20: case 21:
        return r->a >= EVENTS;
    case 22: case 23: case 29: case 30:
        return r->a >= BITS;
    case 25:
        return !message_lives(k, r->a);
    case 26:
        return !message_lives(k, r->a) || !thread_lives(k, r->b);
    case 32: case 33: case 34:
        return !flag_lives(k, r->a);
    default:
        return 0;
    }
}

static int is_number_10(const struct kernel *k, const struct record *r)
{
    return (r->kind == 15 && k->semaphore_waiters[r->a].length > 0)
        || (r->kind == 32 && k->flag_waiters[r->a].length > 0);
}

static int is_number_11(const struct kernel *k, const struct record *r)
{
    return ((r->kind == 9 || r->kind == 10) && k->unscheduled == 0)
        || ((r->kind == 12 || r->kind == 13) && k->critical == 0);
}

static int is_number_6(struct kernel *k, const struct record *r)
{
    if (r->kind == 33) /* a rule of its own: from inside one critical region, and no other */
        return k->critical != 1 || k->unscheduled != 0;
    if (k->unscheduled == 0 && k->critical == 0)
        return 0;
    switch (r->kind) {
    case 3: return r->a == k->running;
    case 6: case 7: return 1;
    case 18: return k->semaphores[r->a].count == 0;
    case 21: return !event_is_true(k, r->a);
    case 27: return !filled_channel(k, r->b);
    default: return 0;
    }
}

static int is_number_7(const struct kernel *k, const struct record *r)
{
    int live = 0;
    switch (r->kind) {
    case 2:
        for (int i = 0; i < THREADS; i++)
            live += k->threads[i].live;
        return live == THREADS;
    case 8: return k->unscheduled == 255;
    case 11: return k->critical == 255;
    case 14:
        for (int i = 0; i < SEMAPHORES; i++)
            live += k->semaphores[i].live;
        return live == SEMAPHORES;
    case 24:
        for (int i = 0; i < MESSAGES; i++)
            live += k->messages[i].live;
        return live == MESSAGES;
    case 31:
        for (int i = 0; i < FLAGS; i++)
            live += k->flags[i].live;
        return live == FLAGS;
    default: return 0;
    }
}

/* Table order; 0 where no refusal applies. */
static uint8_t refusal(struct kernel *k, const struct record *r)
{
    if (is_number_1(r))
        return 1;
    if (kinds[r->kind] & INTERRUPT && k->critical > 0)
        return 3;
    if (!(kinds[r->kind] & (INTERRUPT | BOOT)) && k->running == NONE)
        return 2;
    if (is_number_5(r))
        return 5;
    if (is_number_4(k, r))
        return 4;
    if ((r->kind == 25 || r->kind == 26) && is_queued(k, r->a))
        return 9;
    if ((r->kind == 25 || r->kind == 26) && k->messages[r->a].owner != k->running)
        return 8;
    if (is_number_10(k, r))
        return 10;
    if (r->kind == 17 && k->semaphores[r->a].period == 0)
        return 12;
    if (is_number_11(k, r))
        return 11;
    if (is_number_6(k, r))
        return 6;
    return is_number_7(k, r) ? 7 : 0;
}

/* ---- the accepted call ---- */

/* Returns the answer's value. */
static uint8_t carry_out(struct kernel *k, const struct record *r)
{
    switch (r->kind) {
    case 1: tick(k); break;
    case 2: return create_thread(k, r->a);
    case 3: destroy_thread(k, r->a); break;
    case 4: change_priority(k, r->a, (uint8_t)r->b); break;
    case 5: change_priority(k, r->a, k->threads[r->a].first_priority); break;
    case 6: yield(k); break;
    case 7: block(k, ASLEEP, 0, r->c); break;
    case 8: k->unscheduled++; break;
    case 9: k->unscheduled--; break;
    case 10: k->unscheduled = 0; break;
    case 11: k->critical++; break;
    case 12: k->critical--; break;
    case 13: k->critical = 0; break;
    case 14: return create_semaphore(k, r->b, (uint16_t)r->c);
    case 15: destroy_semaphore(k, r->a); break;
    case 16: make_periodic(k, r->a, r->c, r->d); break;
    case 17: make_periodic(k, r->a, 0, 0); break;
    case 18: pend_semaphore(k, r->a, r->c); break;
    case 19: case 28: post_semaphore(k, r->a); break;
    case 20: load_event(k, r); break;
    case 21: pend_event(k, r->a, r->c); break;
    case 22: case 29: change_bit(k, r->a, 1); break;
    case 23: case 30: change_bit(k, r->a, 0); break;
    case 24: return create_message(k, r);
    case 25: destroy_message(k, r->a); break;
    case 26: post_message(k, r->a, (uint8_t)r->b, r->c); break;
    case 27: return pend_message(k, r->b, r->c);
    case 31: return create_flag(k);
    case 32: k->flags[r->a].live = 0; break;
    case 33: pend_flag(k, r->a, r->c); break;
    case 34: post_flag(k, r->a); break;
    }
    return NONE;
}

struct answer call_kept(struct kernel *k, const uint8_t bytes[RECORD])
{
    struct record r = decode(bytes);
    uint8_t number = refusal(k, &r);
    if (number != 0)
        return (struct answer){ number, NONE, k->running };
    uint8_t value = carry_out(k, &r);
    schedule(k);
    return (struct answer){ 0, value, k->running };
}

struct answer call(struct kernel *k, const uint8_t bytes[RECORD])
{
    if (!keeps_rules(k))
        return (struct answer){ 14, NONE, NONE };
    struct answer answer = call_kept(k, bytes);
    assert(keeps_rules(k));
    return answer;
}

void make_fresh(struct kernel *k)
{
    memset(k, 0, sizeof *k);
    k->running = NONE;
    for (int e = 0; e < EVENTS; e++)
        k->events[e].mode = MODE_ANY;
}
