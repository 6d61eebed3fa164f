/* The way back: a note's bytes read by docs/LAYOUT.md. Notes of this replay's own calls are taken as they are. */
#include <string.h>

#include "entries.h"
#include "notes.h"
#include "tables.h"

/* A note's entries of one kind: which ids they have, and who of them stood at each place (NONE: nobody). */
struct returned {
    uint64_t ids;
    uint8_t at[NONE + 1];
};

struct section {
    const uint8_t *at, *end;
};

/* The next section of the note; `*p` goes behind it. */
static struct section next_section(const uint8_t **p)
{
    struct section s = { *p + 2, *p + 2 + number(*p, 2) };
    *p = s.end;
    return s;
}

/* Where `there` says so, the flags and the flagged fields; the others keep what the row has, which is predicted. */
static void read_fields(struct section *s, int there, const struct layout *l, uint32_t *row)
{
    int flags = there ? *s->at++ : 0;
    for (int i = 0; i < l->fields; i++)
        if (flags >> i & 1) {
            row[i] = number(s->at, l->width[i]);
            s->at += l->width[i];
        }
}

/* ---- the tables ---- */

static void begin_returned(struct returned *r)
{
    r->ids = 0;
    memset(r->at, NONE, sizeof r->at);
}

static void add_returned(struct returned *r, uint8_t id, uint32_t place)
{
    r->ids |= (uint64_t)1 << id;
    if (place != NONE)
        r->at[place] = id;
}

/* The noted ones stand at their old places again, the others keep their order around them. */
static void put_back(struct table *t, const struct returned *r)
{
    struct table stayed = { 0 };
    for (int i = 0; i < t->length; i++)
        if (!(r->ids >> t->place[i] & 1))
            stayed.place[stayed.length++] = t->place[i];
    t->length = 0;
    for (int place = 0, next = 0; place < MESSAGES; place++)
        if (r->at[place] != NONE)
            t->place[t->length++] = r->at[place];
        else if (next < stayed.length)
            t->place[t->length++] = stayed.place[next++];
}

/* ---- threads ---- */

static void undo_threads(struct kernel *k, const uint8_t *record, struct section s)
{
    struct returned lists, times;
    struct table places = { 0 }, time = { 0 };
    uint32_t row[FIELDS];
    if (s.at == s.end)
        return;
    add_places(&places, k); /* before the records change */
    add_time(&time, k);
    begin_returned(&lists);
    begin_returned(&times);
    while (s.at < s.end) {
        int head = *s.at++;
        uint8_t id = head & HEAD_ID;
        int code = head & HEAD_CODE ? *s.at++ : predict_code(record, &k->threads[id]);
        predict_thread(row, record, code, &k->threads[id]);
        read_fields(&s, head & HEAD_FIELDS, code == WAITED_MESSAGE ? &receiver_layout : &thread_layout, row);
        k->threads[id] = thread_from(code, row);
        add_returned(&lists, id, row[6]);
        add_returned(&times, id, row[7]);
    }
    put_back(&places, &lists);
    put_back(&time, &times);
    deal_places(k, &places);
    deal_time(k, &time);
}

/* ---- semaphores and events ---- */

/* A record without an entry is what ageing says; an entry's fields are predicted from the record after the call. */
static void undo_semaphores(struct kernel *k, const uint8_t *record, struct section s)
{
    struct semaphore after[SEMAPHORES];
    uint32_t row[FIELDS];
    memcpy(after, k->semaphores, sizeof after);
    for (int i = 0; record[0] == 1 && i < SEMAPHORES; i++)
        aged_back(&k->semaphores[i]);
    while (s.at < s.end) {
        int head = *s.at++;
        uint8_t id = head & HEAD_ID;
        predict_semaphore(row, record, &after[id]);
        read_fields(&s, head & HEAD_FIELDS, &semaphore_layout, row);
        k->semaphores[id] = (struct semaphore){ (uint8_t)row[0], (uint16_t)row[1], (uint16_t)row[2], row[3], row[4] };
    }
}

static void undo_events(struct kernel *k, const uint8_t *record, struct section s)
{
    uint32_t row[FIELDS];
    if (s.at < s.end && *s.at == EVENTS) {
        s.at++;
        k->bits ^= (uint32_t)1 << record[1];
    }
    while (s.at < s.end) {
        int head = *s.at++;
        uint8_t id = head & HEAD_ID;
        predict_event(row, &k->events[id]);
        read_fields(&s, head & HEAD_FIELDS, &event_layout, row);
        k->events[id] = (struct event){ (uint8_t)row[0], row[1], row[2] };
    }
}

/* A destroyed flag is named by the call, one that was made by the section. */
static void undo_flags(struct kernel *k, const uint8_t *record, struct section s)
{
    if (record[0] == 32)
        k->flags[record[1]].live = 1;
    if (s.at < s.end)
        k->flags[*s.at].live = 0;
}

/* ---- messages ---- */

static void undo_messages(struct kernel *k, const uint8_t *record, uint8_t runner, struct section s)
{
    struct returned queued;
    struct table posted = { 0 };
    uint8_t channel[MESSAGES];
    uint32_t row[FIELDS];
    if (s.at == s.end)
        return;
    add_posted(&posted, channel, k);
    begin_returned(&queued);
    while (s.at < s.end) {
        int head = *s.at++;
        uint8_t id = head & HEAD_ID;
        predict_message(row, record, runner, &k->messages[id]);
        read_fields(&s, head & HEAD_FIELDS, &message_layout, row);
        k->messages[id] = (struct message){ (uint8_t)row[0], (uint8_t)row[1], (uint8_t)row[2],
                                            (uint16_t)row[3], row[4], row[5] };
        channel[id] = (uint8_t)row[6];
        add_returned(&queued, id, row[7]);
    }
    put_back(&posted, &queued);
    deal_posted(k, channel, &posted);
}

/* ---- the scheduler and the whole note ---- */

/* A tick is taken off uptime, and back onto every thread that is still timed; a noted record replaces it afterwards. */
static void undo_ageing(struct kernel *k)
{
    k->uptime--;
    for (int i = 0; i < k->time_queue.length; i++)
        k->threads[k->time_queue.place[i]].ticks_left++;
}

void undo_last(struct kernel *k, struct log *log)
{
    const uint8_t *note = log->bytes + log->used - number(log->bytes + log->used - 2, 2);
    const uint8_t *record = note, *next = note + RECORD;
    uint8_t runner = k->running;
    uint32_t row[FIELDS];
    struct section s = next_section(&next);
    predict_scheduler(row, record, k);
    read_fields(&s, s.at < s.end, &scheduler_layout, row);
    if (record[0] == 1)
        undo_ageing(k);
    undo_threads(k, record, next_section(&next));
    undo_semaphores(k, record, next_section(&next));
    undo_events(k, record, next_section(&next));
    undo_flags(k, record, next_section(&next));
    undo_messages(k, record, runner, next_section(&next));
    k->unscheduled = (uint8_t)row[0];
    k->critical = (uint8_t)row[1];
    k->running = row[0] == 0 && row[1] == 0 ? first_ready(k) : (uint8_t)row[2];
    log->used = (size_t)(note - log->bytes);
}
