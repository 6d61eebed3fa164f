/* The state rules of documents 01 and 02, one function for each group; what differs between two states. */
#include <string.h>

#include "replay.h"

/* Length and ids in their sizes, unused store 0. */
static int store_is_whole(const uint8_t *place, int length, int capacity, int ids)
{
    static const uint8_t zeros[MESSAGES]; /* as long as the longest store */
    if (length > capacity)
        return 0;
    for (int i = 0; i < length; i++)
        if (place[i] >= ids)
            return 0;
    return memcmp(place + length, zeros, (size_t)(capacity - length)) == 0;
}

static int queue_is_whole(const struct queue *q)
{
    return store_is_whole(q->place, q->length, THREADS, THREADS);
}

/* Every later rule may index by the ids found in queues. */
static int stores_are_whole(const struct kernel *k)
{
    if (!queue_is_whole(&k->time_queue) || k->ready[0].length > 0)
        return 0;
    for (int p = 0; p <= PRIORITIES; p++)
        if (!queue_is_whole(&k->ready[p]))
            return 0;
    for (int s = 0; s < SEMAPHORES; s++)
        if (!queue_is_whole(&k->semaphore_waiters[s]))
            return 0;
    for (int e = 0; e < EVENTS; e++)
        if (!queue_is_whole(&k->event_waiters[e]))
            return 0;
    for (int f = 0; f < FLAGS; f++)
        if (!queue_is_whole(&k->flag_waiters[f]))
            return 0;
    for (int t = 0; t < THREADS; t++)
        for (int c = 0; c < CHANNELS; c++) {
            const struct channel *ch = &k->channels[t][c];
            if (!store_is_whole(ch->place, ch->length, MESSAGES, MESSAGES))
                return 0;
        }
    return 1;
}

static int places_of(const struct queue *q, int t)
{
    int n = 0;
    for (int i = 0; i < q->length; i++)
        n += q->place[i] == t;
    return n;
}

/* ---- threads ---- */

static int dead_thread_is_zero(const struct thread *t)
{
    return !t->priority && !t->first_priority && !t->condition && !t->object && !t->ticks_left
        && !t->wake_reason && !t->timed_out_kind && !t->reply;
}

static int reason_is_whole(const struct thread *t)
{
    if (t->wake_reason == TIMED_OUT)
        return t->timed_out_kind >= WAITS_SEMAPHORE && t->timed_out_kind <= WAITS_FLAG;
    return t->wake_reason <= MET && t->timed_out_kind == 0;
}

/* The condition's object lies in its size and, for a semaphore or a flag, is live. */
static int condition_is_whole(const struct kernel *k, const struct thread *t)
{
    switch (t->condition) {
    case READY: case ASLEEP: return t->object == 0;
    case WAITS_SEMAPHORE: return t->object < SEMAPHORES && k->semaphores[t->object].live;
    case WAITS_EVENT: return t->object < EVENTS;
    case WAITS_MESSAGE: return t->object >= 1 && t->object <= 32767;
    case WAITS_FLAG: return t->object < FLAGS && k->flags[t->object].live;
    default: return 0;
    }
}

static int thread_fields_keep(const struct kernel *k)
{
    for (int i = 0; i < THREADS; i++) {
        const struct thread *t = &k->threads[i];
        if (t->live > 1 || (!t->live && !dead_thread_is_zero(t)))
            return 0;
        if (!t->live)
            continue;
        if (t->priority < 1 || t->priority > PRIORITIES)
            return 0;
        if (t->first_priority < 1 || t->first_priority > PRIORITIES)
            return 0;
        if (t->reply >= MESSAGES && t->reply != NONE)
            return 0;
        if (!reason_is_whole(t) || !condition_is_whole(k, t))
            return 0;
    }
    return 1;
}

/* Sleepers and message waiters have no place but the time queue's. */
static int has_its_place(const struct kernel *k, int t)
{
    const struct thread *th = &k->threads[t];
    switch (th->condition) {
    case READY: return places_of(&k->ready[th->priority], t) == 1;
    case WAITS_SEMAPHORE: return places_of(&k->semaphore_waiters[th->object], t) == 1;
    case WAITS_EVENT: return places_of(&k->event_waiters[th->object], t) == 1;
    case WAITS_FLAG: return places_of(&k->flag_waiters[th->object], t) == 1;
    default: return 1;
    }
}

static int has_its_time_place(const struct kernel *k, int t)
{
    const struct thread *th = &k->threads[t];
    int timed = th->condition == ASLEEP || (th->condition != READY && th->ticks_left > 0);
    return places_of(&k->time_queue, t) == timed && (th->ticks_left > 0) == timed;
}

static int threads_have_places(const struct kernel *k)
{
    for (int t = 0; t < THREADS; t++)
        if (k->threads[t].live && (!has_its_place(k, t) || !has_its_time_place(k, t)))
            return 0;
    return 1;
}

/* ---- queues hold no other places, and are in order ---- */

static int ready_lists_hold_no_other(const struct kernel *k)
{
    for (int p = 1; p <= PRIORITIES; p++)
        for (int i = 0; i < k->ready[p].length; i++) {
            const struct thread *t = &k->threads[k->ready[p].place[i]];
            if (!t->live || t->condition != READY || t->priority != p)
                return 0;
        }
    return 1;
}

static int waiting_queue_keeps(const struct kernel *k, const struct queue *q, int condition, int object)
{
    for (int i = 0; i < q->length; i++) {
        const struct thread *t = &k->threads[q->place[i]];
        if (!t->live || t->condition != condition || t->object != object)
            return 0;
        if (i > 0 && k->threads[q->place[i - 1]].priority > t->priority)
            return 0;
    }
    return 1;
}

static int time_queue_keeps(const struct kernel *k)
{
    const struct queue *q = &k->time_queue;
    for (int i = 0; i < q->length; i++) {
        const struct thread *t = &k->threads[q->place[i]];
        if (!t->live || t->condition == READY || t->ticks_left == 0)
            return 0;
        if (i > 0 && k->threads[q->place[i - 1]].ticks_left > t->ticks_left)
            return 0;
    }
    return 1;
}

/* ---- semaphores, events and flags ---- */

static int semaphores_keep(const struct kernel *k)
{
    for (int i = 0; i < SEMAPHORES; i++) {
        const struct semaphore *s = &k->semaphores[i];
        const struct queue *q = &k->semaphore_waiters[i];
        if (s->live > 1 || !waiting_queue_keeps(k, q, WAITS_SEMAPHORE, i))
            return 0;
        if (!s->live && (s->count || s->maximum || s->ticks_left || s->period || q->length))
            return 0;
        if (!s->live)
            continue;
        if (s->maximum < 1 || s->count > s->maximum || (q->length > 0 && s->count > 0))
            return 0;
        if ((s->period > 0) != (s->ticks_left > 0))
            return 0;
    }
    return 1;
}

static int events_keep(const struct kernel *k)
{
    for (int e = 0; e < EVENTS; e++) {
        const struct queue *q = &k->event_waiters[e];
        if (k->events[e].mode > MODE_ANY || !waiting_queue_keeps(k, q, WAITS_EVENT, e))
            return 0;
        if (q->length > 0 && event_is_true(k, e))
            return 0;
    }
    return 1;
}

static int flags_keep(const struct kernel *k)
{
    for (int f = 0; f < FLAGS; f++) {
        const struct queue *q = &k->flag_waiters[f];
        if (k->flags[f].live > 1 || !waiting_queue_keeps(k, q, WAITS_FLAG, f))
            return 0;
        if (!k->flags[f].live && q->length > 0)
            return 0;
    }
    return 1;
}

/* ---- messages ---- */

static int message_fields_keep(const struct kernel *k)
{
    for (int i = 0; i < MESSAGES; i++) {
        const struct message *m = &k->messages[i];
        if (m->live > 1)
            return 0;
        if (!m->live && (m->owner || m->sender || m->type || m->size || m->address))
            return 0;
        if (m->live && (m->owner >= THREADS || !k->threads[m->owner].live || m->sender >= THREADS))
            return 0;
    }
    return 1;
}

/* Each place is a live message's only one, on a channel of its owner. */
static int channels_keep(const struct kernel *k)
{
    uint8_t seen[MESSAGES] = { 0 };
    for (int t = 0; t < THREADS; t++)
        for (int c = 0; c < CHANNELS; c++)
            for (int i = 0; i < k->channels[t][c].length; i++) {
                uint8_t m = k->channels[t][c].place[i];
                if (!k->messages[m].live || k->messages[m].owner != t || seen[m])
                    return 0;
                seen[m] = 1;
            }
    return 1;
}

static int message_waiters_keep(const struct kernel *k)
{
    for (int t = 0; t < THREADS; t++) {
        if (!k->threads[t].live || k->threads[t].condition != WAITS_MESSAGE)
            continue;
        for (int c = 0; c < CHANNELS; c++)
            if (k->threads[t].object >> c & 1 && k->channels[t][c].length > 0)
                return 0;
    }
    return 1;
}

/* ---- the running thread ---- */

static int running_keeps(const struct kernel *k)
{
    uint8_t first = NONE;
    for (int p = PRIORITIES; p >= 1; p--)
        if (k->ready[p].length > 0)
            first = k->ready[p].place[0];
    if (k->unscheduled == 0 && k->critical == 0)
        return k->running == first;
    return k->running < THREADS && k->threads[k->running].live
        && k->threads[k->running].condition == READY;
}

int keeps_rules(const struct kernel *k)
{
    return stores_are_whole(k) && thread_fields_keep(k) && threads_have_places(k)
        && ready_lists_hold_no_other(k) && time_queue_keeps(k) && semaphores_keep(k)
        && events_keep(k) && flags_keep(k) && message_fields_keep(k) && channels_keep(k)
        && message_waiters_keep(k) && running_keeps(k);
}

/* ---- counts ---- */

static int threads_differ(const struct thread *x, const struct thread *y)
{
    return x->live != y->live || x->priority != y->priority
        || x->first_priority != y->first_priority || x->condition != y->condition
        || x->object != y->object || x->ticks_left != y->ticks_left
        || x->wake_reason != y->wake_reason || x->timed_out_kind != y->timed_out_kind
        || x->reply != y->reply;
}

static int semaphores_differ(const struct semaphore *x, const struct semaphore *y)
{
    return x->live != y->live || x->count != y->count || x->maximum != y->maximum
        || x->ticks_left != y->ticks_left || x->period != y->period;
}

static int messages_differ(const struct message *x, const struct message *y)
{
    return x->live != y->live || x->owner != y->owner || x->sender != y->sender
        || x->type != y->type || x->size != y->size || x->address != y->address;
}

struct counts count_differences(const struct kernel *before, const struct kernel *after)
{
    struct counts n = { 0, 0, 0, 0 };
    for (int i = 0; i < THREADS; i++)
        n.T += threads_differ(&before->threads[i], &after->threads[i]);
    for (int i = 0; i < SEMAPHORES; i++)
        n.S += semaphores_differ(&before->semaphores[i], &after->semaphores[i]);
    for (int i = 0; i < MESSAGES; i++)
        n.M += messages_differ(&before->messages[i], &after->messages[i]);
    for (int i = 0; i < FLAGS; i++)
        n.F += before->flags[i].live != after->flags[i].live;
    return n;
}

static int same_places(const struct kernel *x, const struct kernel *y)
{
    return memcmp(x->ready, y->ready, sizeof x->ready) == 0
        && memcmp(&x->time_queue, &y->time_queue, sizeof x->time_queue) == 0
        && memcmp(x->channels, y->channels, sizeof x->channels) == 0
        && memcmp(x->semaphore_waiters, y->semaphore_waiters, sizeof x->semaphore_waiters) == 0
        && memcmp(x->event_waiters, y->event_waiters, sizeof x->event_waiters) == 0
        && memcmp(x->flag_waiters, y->flag_waiters, sizeof x->flag_waiters) == 0;
}

int states_are_equal(const struct kernel *x, const struct kernel *y)
{
    struct counts n = count_differences(x, y);
    for (int e = 0; e < EVENTS; e++)
        if (x->events[e].mode != y->events[e].mode || x->events[e].mask != y->events[e].mask
            || x->events[e].values != y->events[e].values)
            return 0;
    return n.T == 0 && n.S == 0 && n.M == 0 && n.F == 0 && same_places(x, y) && x->uptime == y->uptime
        && x->unscheduled == y->unscheduled && x->critical == y->critical
        && x->running == y->running && x->bits == y->bits;
}
