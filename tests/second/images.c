/* Images written and read by docs/LAYOUT.md. The reader builds a state step by step, and takes it only if its image is what was read. */
#include <string.h>

#include "entries.h"
#include "images.h"
#include "tables.h"

enum { LAST_REASON = WAITS_FLAG }; /* its byte is the condition that timed out */

/* ---- what is predicted, in every image ---- */

/* One that is ready or waits for a semaphore, an event or a flag stands in `places`. */
static int is_listed(int code)
{
    return code == WAS_READY || code == WAITED_SEMAPHORE || code == WAITED_EVENT || code == WAITED_FLAG;
}

static void predict_thread_of(uint32_t *row, int code)
{
    memset(row, 0, FIELDS * sizeof *row);
    row[5] = NONE; /* reply */
    row[6] = is_listed(code) ? 0 : NONE;
    row[7] = code == WAS_ASLEEP ? 0 : NONE;
}

static const uint32_t predicted_semaphore[FIELDS] = { 1 };           /* live */
static const uint32_t predicted_event[FIELDS] = { MODE_ANY };        /* the fresh one */
static const uint32_t predicted_message[FIELDS] = { 1, [7] = NONE }; /* live, and held */

/* ---- the writer ---- */

/* Where each id stands in a table, or NONE. */
static void find_places(uint8_t *at, int ids, const struct table *t)
{
    memset(at, NONE, (size_t)ids);
    for (int i = 0; i < t->length; i++)
        at[t->place[i]] = (uint8_t)i;
}

static uint8_t *put_scheduler(uint8_t *start, const struct kernel *k)
{
    uint8_t *p = put(start + 2, 4, k->uptime);
    p = put(p, 1, k->unscheduled);
    p = put(p, 1, k->critical);
    p = put(p, 1, k->running);
    return end_section(start, p);
}

static uint8_t *put_threads(uint8_t *start, const struct kernel *k)
{
    struct table places = { 0 }, time = { 0 };
    uint8_t place[THREADS], time_place[THREADS], *p = start + 2;
    uint32_t predicted[FIELDS];
    add_places(&places, k);
    add_time(&time, k);
    find_places(place, THREADS, &places);
    find_places(time_place, THREADS, &time);
    for (int id = 0; id < THREADS; id++) {
        const struct thread *t = &k->threads[id];
        if (!t->live)
            continue;
        uint32_t row[FIELDS] = { t->priority, t->first_priority, t->object, t->ticks_left, reason_code(t), t->reply,
                                 place[id], time_place[id] };
        predict_thread_of(predicted, t->condition + 1);
        p = put_thread_entry(p, id, t->condition + 1, WAS_READY, row, predicted);
    }
    return end_section(start, p);
}

static uint8_t *put_semaphores(uint8_t *start, const struct kernel *k)
{
    uint8_t *p = start + 2;
    for (int id = 0; id < SEMAPHORES; id++) {
        const struct semaphore *s = &k->semaphores[id];
        uint32_t row[FIELDS] = { s->live, s->count, s->maximum, s->ticks_left, s->period };
        if (s->live)
            p = put_entry(p, id, &semaphore_layout, row, predicted_semaphore);
    }
    return end_section(start, p);
}

static uint8_t *put_events(uint8_t *start, const struct kernel *k)
{
    uint8_t *p = put(start + 2, 4, k->bits);
    for (int id = 0; id < EVENTS; id++) {
        const struct event *e = &k->events[id];
        uint32_t row[FIELDS] = { e->mode, e->mask, e->values };
        if (memcmp(row, predicted_event, sizeof row) != 0)
            p = put_entry(p, id, &event_layout, row, predicted_event);
    }
    return end_section(start, p);
}

static uint8_t *put_flags(uint8_t *start, const struct kernel *k)
{
    uint32_t live = 0;
    for (int id = 0; id < FLAGS; id++)
        live |= (uint32_t)k->flags[id].live << id;
    return end_section(start, put(start + 2, 2, live));
}

static uint8_t *put_messages(uint8_t *start, const struct kernel *k)
{
    struct table posted = { 0 };
    uint8_t place[MESSAGES], channel[MESSAGES] = { 0 }, *p = start + 2;
    add_posted(&posted, channel, k);
    find_places(place, MESSAGES, &posted);
    for (int id = 0; id < MESSAGES; id++) {
        const struct message *m = &k->messages[id];
        uint32_t row[FIELDS] = { m->live, m->owner, m->sender, m->type, m->size, m->address, channel[id], place[id] };
        if (m->live)
            p = put_entry(p, id, &message_layout, row, predicted_message);
    }
    return end_section(start, p);
}

size_t write_image(uint8_t image[LONGEST_IMAGE], const struct kernel *k)
{
    uint8_t *p = put(image, 1, EDITION);
    p = put_scheduler(p, k);
    p = put_threads(p, k);
    p = put_semaphores(p, k);
    p = put_events(p, k);
    p = put_flags(p, k);
    p = put_messages(p, k);
    return (size_t)(p - image);
}

/* ---- the reader's bytes ---- */

/* Bytes still to be read; `bad` once more were asked for than there are, or they can't be an image's. */
struct bytes {
    const uint8_t *at, *end;
    int bad;
};

/* 0 where there aren't so many. */
static uint32_t take(struct bytes *b, int width)
{
    if (b->end - b->at < width) {
        b->bad = 1;
        return 0;
    }
    uint32_t n = number(b->at, width);
    b->at += width;
    return n;
}

/* The next section, and `b` goes behind it. */
static struct bytes take_section(struct bytes *b)
{
    ptrdiff_t length = (ptrdiff_t)take(b, 2);
    struct bytes section = { b->at, b->at, b->bad };
    if (length > b->end - b->at)
        section.bad = b->bad = 1;
    else
        section.end = b->at += length;
    return section;
}

static int is_read(const struct bytes *b)
{
    return !b->bad && b->at == b->end;
}

/* Whether another entry begins here. */
static int more_entries(const struct bytes *b)
{
    return !b->bad && b->at < b->end;
}

/* The id of a head, above the last one's; `last` becomes it. */
static uint8_t take_id(struct bytes *b, uint32_t head, int ids, int *last)
{
    int id = (int)(head & HEAD_ID);
    if (id <= *last || id >= ids) {
        b->bad = 1;
        return 0;
    }
    *last = id;
    return (uint8_t)id;
}

/* The flags and the flagged fields where the head says so; the others keep what the row has, which is predicted. */
static void take_fields(struct bytes *b, uint32_t head, const struct layout *l, uint32_t *row)
{
    uint32_t flags = head & HEAD_FIELDS ? take(b, 1) : 0;
    if (flags >> l->fields != 0)
        b->bad = 1;
    for (int i = 0; i < l->fields; i++)
        if (flags >> i & 1)
            row[i] = take(b, l->width[i]);
}

/* An entry without a code; the row begins as predicted. */
static uint8_t take_entry(struct bytes *b, int ids, int *last, const struct layout *l, uint32_t *row)
{
    uint32_t head = take(b, 1);
    uint8_t id = take_id(b, head, ids, last);
    if (head & HEAD_CODE)
        b->bad = 1;
    take_fields(b, head, l, row);
    return id;
}

/* ---- the reader's tables ---- */

static void begin_table(struct table *t)
{
    t->length = 0;
    memset(t->place, NONE, sizeof t->place);
}

/* Each place is one id's only; NONE is no place. */
static int seat(struct table *t, uint8_t id, uint32_t place)
{
    if (place == NONE)
        return 1;
    if (place >= MESSAGES || t->place[place] != NONE)
        return 0;
    t->place[place] = id;
    t->length++;
    return 1;
}

/* From place 0 on, without a gap. */
static int is_filled(const struct table *t)
{
    return !memchr(t->place, NONE, (size_t)t->length);
}

/* ---- the sections read; each answers whether it can be an image's ---- */

static int read_scheduler(struct kernel *k, struct bytes b)
{
    k->uptime = take(&b, 4);
    k->unscheduled = (uint8_t)take(&b, 1);
    k->critical = (uint8_t)take(&b, 1);
    k->running = (uint8_t)take(&b, 1);
    return is_read(&b);
}

/* What it is ready with or waits for lies in its size, so that it can be put into that list. */
static int has_a_list(const struct thread *t)
{
    switch (t->condition) {
    case READY: return t->priority <= PRIORITIES;
    case WAITS_SEMAPHORE: return t->object < SEMAPHORES;
    case WAITS_EVENT: return t->object < EVENTS;
    case WAITS_FLAG: return t->object < FLAGS;
    default: return 1;
    }
}

static int read_thread(struct kernel *k, struct bytes *b, int *last, struct table *places, struct table *time)
{
    uint32_t row[FIELDS], head = take(b, 1);
    uint8_t id = take_id(b, head, THREADS, last);
    int code = head & HEAD_CODE ? (int)take(b, 1) : WAS_READY;
    if (code < WAS_READY || code > WAITED_FLAG)
        return 0;
    predict_thread_of(row, code);
    take_fields(b, head, code == WAITED_MESSAGE ? &receiver_layout : &thread_layout, row);
    if (b->bad || row[4] > LAST_REASON || (row[6] != NONE) != is_listed(code))
        return 0;
    k->threads[id] = thread_from(code, row);
    return has_a_list(&k->threads[id]) && seat(places, id, row[6]) && seat(time, id, row[7]);
}

static int read_threads(struct kernel *k, struct bytes b)
{
    struct table places, time;
    int last = -1;
    begin_table(&places);
    begin_table(&time);
    while (more_entries(&b))
        if (!read_thread(k, &b, &last, &places, &time))
            return 0;
    if (!is_read(&b) || !is_filled(&places) || !is_filled(&time))
        return 0;
    deal_places(k, &places);
    deal_time(k, &time);
    return 1;
}

static int read_semaphores(struct kernel *k, struct bytes b)
{
    int last = -1;
    while (more_entries(&b)) {
        uint32_t row[FIELDS];
        memcpy(row, predicted_semaphore, sizeof row);
        uint8_t id = take_entry(&b, SEMAPHORES, &last, &semaphore_layout, row);
        k->semaphores[id] = (struct semaphore){ (uint8_t)row[0], (uint16_t)row[1], (uint16_t)row[2], row[3], row[4] };
    }
    return is_read(&b);
}

static int read_events(struct kernel *k, struct bytes b)
{
    int last = -1;
    k->bits = take(&b, 4);
    while (more_entries(&b)) {
        uint32_t row[FIELDS];
        memcpy(row, predicted_event, sizeof row);
        uint8_t id = take_entry(&b, EVENTS, &last, &event_layout, row);
        k->events[id] = (struct event){ (uint8_t)row[0], row[1], row[2] };
    }
    return is_read(&b);
}

static int read_flags(struct kernel *k, struct bytes b)
{
    uint32_t live = take(&b, 2);
    for (int id = 0; id < FLAGS; id++)
        k->flags[id].live = live >> id & 1;
    return is_read(&b);
}

static int read_message(struct kernel *k, struct bytes *b, int *last, uint8_t channel[MESSAGES], struct table *posted)
{
    uint32_t row[FIELDS];
    memcpy(row, predicted_message, sizeof row);
    uint8_t id = take_entry(b, MESSAGES, last, &message_layout, row);
    if (b->bad || row[1] >= THREADS || row[6] > CHANNELS || (row[6] != 0) != (row[7] != NONE))
        return 0;
    k->messages[id] = (struct message){ (uint8_t)row[0], (uint8_t)row[1], (uint8_t)row[2], (uint16_t)row[3], row[4], row[5] };
    channel[id] = (uint8_t)row[6];
    return seat(posted, id, row[7]);
}

static int read_messages(struct kernel *k, struct bytes b)
{
    struct table posted;
    uint8_t channel[MESSAGES];
    int last = -1;
    begin_table(&posted);
    while (more_entries(&b))
        if (!read_message(k, &b, &last, channel, &posted))
            return 0;
    if (!is_read(&b) || !is_filled(&posted))
        return 0;
    deal_posted(k, channel, &posted);
    return 1;
}

/* ---- the whole image ---- */

/* Edition, six sections and nothing behind them; every index that the rules and the writer use lies in its size. */
static int read_sections(struct kernel *k, struct bytes b)
{
    return take(&b, 1) == EDITION && read_scheduler(k, take_section(&b)) && read_threads(k, take_section(&b))
        && read_semaphores(k, take_section(&b)) && read_events(k, take_section(&b))
        && read_flags(k, take_section(&b)) && read_messages(k, take_section(&b)) && is_read(&b);
}

/* A state has one image: a field written though it is as predicted, or places in another order, gives other bytes here. */
static int is_image_of(const struct kernel *k, const uint8_t *image, size_t length)
{
    uint8_t again[LONGEST_IMAGE];
    return write_image(again, k) == length && memcmp(again, image, length) == 0;
}

int read_image(struct kernel *k, const uint8_t *image, size_t length)
{
    static struct kernel found; /* too large for some stacks */
    make_fresh(&found);
    if (!read_sections(&found, (struct bytes){ image, image + length, 0 }))
        return NOT_AN_IMAGE;
    if (!keeps_rules(&found) || !is_image_of(&found, image, length))
        return NOT_AN_IMAGE;
    *k = found;
    return 0;
}
