/* The reversal note of an accepted call, written from what the call touched. */
#include <string.h>

#include "entries.h"
#include "notes.h"

struct touched *touched;

/* ---- places in the three tables ---- */

static int total(const struct queue *q, int queues)
{
    int n = 0;
    for (int i = 0; i < queues; i++)
        n += q[i].length;
    return n;
}

/* NONE where id has no place. */
static int index_in(const struct queue *q, uint8_t id)
{
    const uint8_t *found = memchr(q->place, id, q->length);
    return found ? (int)(found - q->place) : NONE;
}

/* In `places`: the ready lists, then the semaphores' queues, then the events', then the flags'. */
static int place_now(const struct kernel *k, uint8_t id)
{
    const struct thread *t = &k->threads[id];
    if (!t->live || t->condition == ASLEEP || t->condition == WAITS_MESSAGE)
        return NONE;
    if (t->condition == READY)
        return total(k->ready, t->priority) + index_in(&k->ready[t->priority], id);
    int front = total(k->ready, PRIORITIES + 1);
    if (t->condition == WAITS_SEMAPHORE)
        return front + total(k->semaphore_waiters, t->object) + index_in(&k->semaphore_waiters[t->object], id);
    front += total(k->semaphore_waiters, SEMAPHORES);
    if (t->condition == WAITS_EVENT)
        return front + total(k->event_waiters, t->object) + index_in(&k->event_waiters[t->object], id);
    front += total(k->event_waiters, EVENTS);
    return front + total(k->flag_waiters, t->object) + index_in(&k->flag_waiters[t->object], id);
}

/* In `posted`: the channels by owner, then by number. */
static int posted_before(const struct kernel *k, int owner, int channel)
{
    int n = 0;
    for (int t = 0; t < owner; t++)
        for (int c = 0; k->threads[t].live && c < CHANNELS; c++)
            n += k->channels[t][c].length;
    for (int c = 0; c < channel - 1; c++)
        n += k->channels[owner][c].length;
    return n;
}

/* The place before the call: each who left at this place or before it stood in front, the last one seen first. */
static uint8_t place_before(struct leavers *l, int at)
{
    int place = at;
    for (int i = l->count; i-- > 0;)
        place += l->at[i] <= place;
    l->at[l->count++] = (uint8_t)at;
    return (uint8_t)place;
}

/* ---- what a call touches ---- */

static void begin_touched(struct touched *t, const struct kernel *k, const uint8_t record[RECORD])
{
    t->tick = record[0] == 1;
    t->unscheduled = k->unscheduled;
    t->critical = k->critical;
    t->running = k->running;
    t->bits = k->bits;
    t->thread_ids = t->semaphore_ids = t->event_ids = 0;
    t->message_ids = 0;
    t->flag_made = NONE;
    t->woken = t->places.count = t->time.count = 0;
}

/* Where a call touches several, each is one that waited or slept and wakes: the others now stand in the ready lists. */
void touch_thread(struct touched *t, const struct kernel *k, uint8_t id)
{
    struct touched_thread *x = &t->threads[id];
    int place = place_now(k, id);
    int time_place = k->threads[id].condition == READY ? NONE : index_in(&k->time_queue, id);
    x->old = k->threads[id];
    x->old.ticks_left += t->tick && time_place != NONE;
    x->place = place == NONE ? NONE : place_before(&t->places, place - t->woken);
    x->time_place = time_place == NONE ? NONE : place_before(&t->time, time_place);
    t->thread_ids |= (uint32_t)1 << id;
    t->woken++;
}

/* A tick touches one whose time is up, and again where its post changes the count; and one that looks so afterwards. */
void touch_semaphore(struct touched *t, const struct kernel *k, uint8_t id)
{
    if (t->semaphore_ids >> id & 1)
        return;
    t->semaphores[id] = k->semaphores[id];
    t->semaphores[id].ticks_left += (uint32_t)t->tick;
    t->semaphore_ids |= (uint32_t)1 << id;
}

void touch_event(struct touched *t, const struct kernel *k, uint8_t id)
{
    t->events[id] = k->events[id];
    t->event_ids |= (uint32_t)1 << id;
}

void touch_flag(struct touched *t, uint8_t id)
{
    t->flag_made = id;
}

void touch_message(struct touched *t, const struct kernel *k, uint8_t id)
{
    t->messages[id] = (struct touched_message){ k->messages[id], 0, NONE };
    t->message_ids |= (uint64_t)1 << id;
}

void touch_queued(struct touched *t, const struct kernel *k, uint8_t id, int channel)
{
    touch_message(t, k, id);
    t->messages[id].channel = (uint8_t)channel;
    t->messages[id].place = (uint8_t)posted_before(k, k->messages[id].owner, channel);
}

void touch_messages_of(struct touched *t, const struct kernel *k, uint8_t owner)
{
    for (uint8_t m = 0; m < MESSAGES; m++)
        if (k->messages[m].live && k->messages[m].owner == owner)
            touch_message(t, k, m);
    for (int c = 1; c <= CHANNELS; c++) {
        const struct channel *ch = &k->channels[owner][c - 1];
        int front = ch->length > 0 ? posted_before(k, owner, c) : 0;
        for (int i = 0; i < ch->length; i++) {
            t->messages[ch->place[i]].channel = (uint8_t)c;
            t->messages[ch->place[i]].place = (uint8_t)(front + i);
        }
    }
}

/* ---- what a tick alone explains ---- */

/* The ticks are the period: it was posted. Its count went up by one, unless it is 0 (a waiter woke) or at its maximum. */
void aged_back(struct semaphore *s)
{
    if (s->period == 0)
        return;
    if (s->ticks_left != s->period) {
        s->ticks_left++;
        return;
    }
    s->ticks_left = 1;
    if (s->count > 0 && s->count < s->maximum)
        s->count--;
}

/* ---- what is predicted ---- */

void predict_scheduler(uint32_t *row, const uint8_t *record, const struct kernel *after)
{
    int kind = record[0];
    row[0] = (uint32_t)(after->unscheduled - (kind == 8) + (kind == 9));
    row[1] = (uint32_t)(after->critical - (kind == 11) + (kind == 12 || kind == 33));
    row[2] = after->running;
}

int predict_code(const uint8_t *record, const struct thread *after)
{
    switch (record[0]) {
    case 1: return reason_code(after) + 1; /* met: it slept */
    case 2: return NOT_LIVE;
    case 4: case 5: return after->live ? after->condition + 1 : NOT_LIVE;
    case 19: case 28: return WAITED_SEMAPHORE;
    case 20: case 22: case 23: case 29: case 30: return WAITED_EVENT;
    case 26: return WAITED_MESSAGE;
    case 34: return WAITED_FLAG;
    default: return WAS_READY;
    }
}

void predict_thread(uint32_t *row, const uint8_t *record, int code, const struct thread *after)
{
    int kind = record[0], blocked = code >= WAS_ASLEEP;
    int woken = blocked && after->live && after->condition == READY;
    int blocks = code == WAS_READY && after->condition != READY;
    row[0] = code == NOT_LIVE ? 0 : after->priority;
    row[1] = code == NOT_LIVE ? 0 : after->first_priority;
    row[2] = code < WAITED_SEMAPHORE ? 0 : kind == 19 || kind == 28 || kind == 34 ? record[1]
        : code == WAITED_MESSAGE ? after->object : after->object % 256u;
    row[3] = !blocked ? 0 : kind == 1 ? 1 : after->ticks_left;
    row[4] = woken ? REASON_NONE : blocks ? MET : reason_code(after);
    row[5] = code == NOT_LIVE ? 0 : woken || !after->live ? NONE : after->reply;
    row[6] = code == WAS_READY || code == WAITED_SEMAPHORE || code == WAITED_EVENT || code == WAITED_FLAG ? 0 : NONE;
    if (kind == 34)
        row[6] = 1; /* behind the poster */
    row[7] = code == WAS_ASLEEP || (kind == 1 && blocked) ? 0 : NONE;
}

void predict_semaphore(uint32_t *row, const uint8_t *record, const struct semaphore *after)
{
    int kind = record[0], created = kind == 14;
    row[0] = !created;
    row[1] = created ? 0 : after->count;
    if (kind == 18 && after->count < 65535)
        row[1] = after->count + 1u; /* the pend took one off */
    if ((kind == 19 || kind == 28 || (kind == 1 && after->count == after->maximum)) && after->count > 0)
        row[1] = after->count - 1u; /* the post added one */
    row[2] = created ? 0 : after->maximum;
    row[3] = kind == 1 ? 1 : after->ticks_left;
    row[4] = after->period;
}

void predict_event(uint32_t *row, const struct event *after)
{
    row[0] = after->mode;
    row[1] = after->mask;
    row[2] = after->values;
}

void predict_message(uint32_t *row, const uint8_t *record, uint8_t runner, const struct message *after)
{
    int kind = record[0], created = kind == 24;
    row[0] = !created;
    row[1] = kind == 26 ? after->sender : after->owner;
    row[2] = after->sender;
    if (kind == 3 || kind == 25)
        row[1] = row[2] = kind == 3 ? record[1] : runner;
    if (created)
        row[1] = row[2] = 0;
    row[3] = created ? 0 : after->type;
    row[4] = created ? 0 : after->size;
    row[5] = created ? 0 : after->address;
    row[6] = 0;
    row[7] = kind == 27 ? 0 : NONE;
}

/* ---- the sections ---- */

/* With both levels 0 the old runner is the first ready thread of the old state, and not written. */
static uint8_t *put_scheduler(uint8_t *start, const uint8_t *record, const struct kernel *k, const struct touched *t)
{
    uint32_t predicted[FIELDS], old[FIELDS] = { t->unscheduled, t->critical, t->running };
    predict_scheduler(predicted, record, k);
    if (t->unscheduled == 0 && t->critical == 0)
        old[2] = predicted[2];
    uint8_t *end = put_fields(start + 2, &scheduler_layout, old, predicted);
    return end_section(start, end);
}

static uint8_t *put_threads(uint8_t *start, const uint8_t *record, const struct kernel *k, const struct touched *t)
{
    uint8_t *p = start + 2;
    for (uint32_t rest = t->thread_ids; rest != 0; rest &= rest - 1) {
        int id = __builtin_ctz(rest);
        const struct touched_thread *x = &t->threads[id];
        int code = x->old.live ? x->old.condition + 1 : NOT_LIVE;
        uint32_t old[FIELDS] = { x->old.priority, x->old.first_priority, x->old.object, x->old.ticks_left,
                                 reason_code(&x->old), x->old.reply, x->place, x->time_place };
        uint32_t predicted[FIELDS];
        predict_thread(predicted, record, code, &k->threads[id]);
        p = put_thread_entry(p, id, code, predict_code(record, &k->threads[id]), old, predicted);
    }
    return end_section(start, p);
}

/* A tick's post is told by the new record: no entry where the old one is as ageing says. */
static int semaphore_aged(const struct semaphore *old, const struct semaphore *now)
{
    struct semaphore told = *now;
    aged_back(&told);
    return old->ticks_left == told.ticks_left && old->count == told.count;
}

static uint8_t *put_semaphores(uint8_t *start, const uint8_t *record, const struct kernel *k, const struct touched *t)
{
    uint8_t *p = start + 2;
    for (uint32_t rest = t->semaphore_ids; rest != 0; rest &= rest - 1) {
        int id = __builtin_ctz(rest);
        const struct semaphore *x = &t->semaphores[id];
        if (t->tick && semaphore_aged(x, &k->semaphores[id]))
            continue;
        uint32_t predicted[FIELDS], old[FIELDS] = { x->live, x->count, x->maximum, x->ticks_left, x->period };
        predict_semaphore(predicted, record, &k->semaphores[id]);
        p = put_entry(p, id, &semaphore_layout, old, predicted);
    }
    return end_section(start, p);
}

static uint8_t *put_events(uint8_t *start, const struct kernel *k, const struct touched *t)
{
    uint8_t *p = start + 2;
    if (t->bits != k->bits)
        *p++ = EVENTS; /* no event's head: bit a was the other way */
    for (uint32_t rest = t->event_ids; rest != 0; rest &= rest - 1) {
        int id = __builtin_ctz(rest);
        const struct event *x = &t->events[id];
        uint32_t predicted[FIELDS], old[FIELDS] = { x->mode, x->mask, x->values };
        predict_event(predicted, &k->events[id]);
        p = put_entry(p, id, &event_layout, old, predicted);
    }
    return end_section(start, p);
}

/* The flag that the call made; one that it destroyed is its a. */
static uint8_t *put_flags(uint8_t *start, const struct touched *t)
{
    uint8_t *p = start + 2;
    if (t->flag_made != NONE)
        *p++ = t->flag_made;
    return end_section(start, p);
}

static uint8_t *put_messages(uint8_t *start, const uint8_t *record, const struct kernel *k, const struct touched *t)
{
    uint8_t *p = start + 2;
    for (uint64_t rest = t->message_ids; rest != 0; rest &= rest - 1) {
        int id = __builtin_ctzll(rest);
        const struct touched_message *x = &t->messages[id];
        uint32_t old[FIELDS] = { x->old.live, x->old.owner, x->old.sender, x->old.type, x->old.size,
                                 x->old.address, x->channel, x->place };
        uint32_t predicted[FIELDS];
        predict_message(predicted, record, k->running, &k->messages[id]);
        p = put_entry(p, id, &message_layout, old, predicted);
    }
    return end_section(start, p);
}

size_t write_note(uint8_t *note, const uint8_t record[RECORD], const struct kernel *k, const struct touched *t)
{
    memcpy(note, record, RECORD);
    uint8_t *p = put_scheduler(note + RECORD, record, k, t);
    p = put_threads(p, record, k, t);
    p = put_semaphores(p, record, k, t);
    p = put_events(p, k, t);
    p = put_flags(p, t);
    p = put_messages(p, record, k, t);
    size_t length = (size_t)(p - note) + 2;
    put(p, 2, (uint32_t)length);
    return length;
}

/* ---- a call with a log ---- */

static struct answer call_touching(struct kernel *k, const uint8_t record[RECORD], struct touched *t)
{
    begin_touched(t, k, record);
    touched = t;
    struct answer answer = call_kept(k, record);
    touched = NULL;
    return answer;
}

/* The note is written beside the log first; where it doesn't fit, a copy of the state comes back. */
static struct answer call_near_end(struct kernel *k, const uint8_t record[RECORD], struct log *log)
{
    static struct kernel before; /* too large for some stacks */
    struct touched t;
    uint8_t note[LONGEST_NOTE];
    before = *k;
    struct answer answer = call_touching(k, record, &t);
    if (answer.number != 0)
        return answer;
    size_t length = write_note(note, record, k, &t);
    if (length > LOG_LENGTH - log->used) {
        *k = before;
        return (struct answer){ 13, NONE, before.running };
    }
    memcpy(log->bytes + log->used, note, length);
    log->used += length;
    return answer;
}

struct answer call_noted(struct kernel *k, const uint8_t record[RECORD], struct log *log)
{
    struct touched t;
    if (LOG_LENGTH - log->used < LONGEST_NOTE)
        return call_near_end(k, record, log);
    struct answer answer = call_touching(k, record, &t);
    if (answer.number == 0)
        log->used += write_note(log->bytes + log->used, record, k, &t);
    return answer;
}
