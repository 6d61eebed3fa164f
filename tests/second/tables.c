/* The tables `places`, `time` and `posted`, and the queues that they are made of. */
#include <string.h>

#include "tables.h"

static void add_queue(struct table *t, const uint8_t *place, int length)
{
    memcpy(t->place + t->length, place, (size_t)length);
    t->length += length;
}

static void append(uint8_t *place, uint8_t *length, uint8_t id)
{
    place[(*length)++] = id;
}

void add_places(struct table *t, const struct kernel *k)
{
    for (int p = 1; p <= PRIORITIES; p++)
        add_queue(t, k->ready[p].place, k->ready[p].length);
    for (int s = 0; s < SEMAPHORES; s++)
        add_queue(t, k->semaphore_waiters[s].place, k->semaphore_waiters[s].length);
    for (int e = 0; e < EVENTS; e++)
        add_queue(t, k->event_waiters[e].place, k->event_waiters[e].length);
    for (int f = 0; f < FLAGS; f++)
        add_queue(t, k->flag_waiters[f].place, k->flag_waiters[f].length);
}

void add_time(struct table *t, const struct kernel *k)
{
    add_queue(t, k->time_queue.place, k->time_queue.length);
}

void add_posted(struct table *t, uint8_t channel[MESSAGES], const struct kernel *k)
{
    for (int owner = 0; owner < THREADS; owner++)
        for (int c = 0; c < CHANNELS; c++) {
            const struct channel *ch = &k->channels[owner][c];
            add_queue(t, ch->place, ch->length);
            for (int i = 0; i < ch->length; i++)
                channel[ch->place[i]] = (uint8_t)(c + 1);
        }
}

void deal_places(struct kernel *k, const struct table *t)
{
    memset(k->ready, 0, sizeof k->ready);
    memset(k->semaphore_waiters, 0, sizeof k->semaphore_waiters);
    memset(k->event_waiters, 0, sizeof k->event_waiters);
    memset(k->flag_waiters, 0, sizeof k->flag_waiters);
    for (int i = 0; i < t->length; i++) {
        const struct thread *th = &k->threads[t->place[i]];
        struct queue *q = th->condition == READY ? &k->ready[th->priority]
            : th->condition == WAITS_SEMAPHORE ? &k->semaphore_waiters[th->object]
            : th->condition == WAITS_EVENT ? &k->event_waiters[th->object] : &k->flag_waiters[th->object];
        append(q->place, &q->length, t->place[i]);
    }
}

void deal_time(struct kernel *k, const struct table *t)
{
    memset(&k->time_queue, 0, sizeof k->time_queue);
    for (int i = 0; i < t->length; i++)
        append(k->time_queue.place, &k->time_queue.length, t->place[i]);
}

void deal_posted(struct kernel *k, const uint8_t channel[MESSAGES], const struct table *t)
{
    memset(k->channels, 0, sizeof k->channels);
    for (int i = 0; i < t->length; i++) {
        uint8_t m = t->place[i];
        struct channel *ch = &k->channels[k->messages[m].owner][channel[m] - 1];
        append(ch->place, &ch->length, m);
    }
}
