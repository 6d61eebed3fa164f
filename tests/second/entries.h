/* Entries of notes and images (docs/LAYOUT.md): a record as a row of fields, those that aren't as predicted, and their bytes. */
#ifndef ENTRIES_H
#define ENTRIES_H

#include "replay.h"

enum { FIELDS = 8 };

/* ---- a record as a row of fields, in the order of the layout ---- */

struct layout {
    int fields;
    uint8_t width[FIELDS];
};
static const struct layout scheduler_layout = { 3, { 1, 1, 1 } };
static const struct layout thread_layout = { 8, { 1, 1, 1, 4, 1, 1, 1, 1 } };   /* object id */
static const struct layout receiver_layout = { 8, { 1, 1, 2, 4, 1, 1, 1, 1 } }; /* mask */
static const struct layout semaphore_layout = { 5, { 1, 2, 2, 4, 4 } };
static const struct layout event_layout = { 3, { 1, 4, 4 } };
static const struct layout message_layout = { 8, { 1, 1, 1, 2, 4, 4, 1, 1 } };

/* An entry's head: the id, whether a code follows, and whether flags and fields do. */
enum { HEAD_ID = 63, HEAD_CODE = 64, HEAD_FIELDS = 128 };

/* What a thread's condition was, or is in an image. */
enum code { NOT_LIVE, WAS_READY, WAS_ASLEEP, WAITED_SEMAPHORE, WAITED_EVENT, WAITED_MESSAGE, WAITED_FLAG };

/* The wake reason's byte: with a timeout the waiter's condition, 2 to 5. */
static inline uint8_t reason_code(const struct thread *t)
{
    return t->wake_reason == TIMED_OUT ? t->timed_out_kind : t->wake_reason;
}

/* The thread of a code and a row; a code above 6 or a reason above 5 isn't one of a whole thread. */
static inline struct thread thread_from(int code, const uint32_t *row)
{
    struct thread t = { .live = code != NOT_LIVE, .priority = (uint8_t)row[0], .first_priority = (uint8_t)row[1],
                        .condition = (uint8_t)(code == NOT_LIVE ? READY : code - 1), .object = (uint16_t)row[2],
                        .ticks_left = row[3], .wake_reason = (uint8_t)(row[4] >= TIMED_OUT ? TIMED_OUT : row[4]),
                        .timed_out_kind = (uint8_t)(row[4] >= TIMED_OUT ? row[4] : 0), .reply = (uint8_t)row[5] };
    return t;
}

/* ---- bytes ---- */

static inline uint32_t number(const uint8_t *p, int width)
{
    uint32_t n = 0;
    for (int i = 0; i < width; i++)
        n |= (uint32_t)p[i] << 8 * i;
    return n;
}

static inline uint8_t *put(uint8_t *p, int width, uint32_t value)
{
    for (int i = 0; i < width; i++)
        p[i] = (uint8_t)(value >> 8 * i);
    return p + width;
}

/* The flags and the fields that aren't as predicted, or nothing. Each caller's layout is constant, so its loop is written out. */
static inline __attribute__((always_inline))
uint8_t *put_fields(uint8_t *p, const struct layout *l, const uint32_t *row, const uint32_t *predicted)
{
    unsigned flags = 0;
#pragma GCC unroll 8
    for (int i = 0; i < l->fields; i++)
        flags |= (unsigned)(row[i] != predicted[i]) << i;
    if (flags == 0)
        return p;
    *p++ = (uint8_t)flags;
    for (unsigned rest = flags; rest != 0; rest &= rest - 1) {
        int i = __builtin_ctz(rest);
        p = put(p, l->width[i], row[i]);
    }
    return p;
}

/* An entry without a code: the head has the id, and whether fields follow. */
static inline __attribute__((always_inline))
uint8_t *put_entry(uint8_t *head, int id, const struct layout *l, const uint32_t *row, const uint32_t *predicted)
{
    uint8_t *end = put_fields(head + 1, l, row, predicted);
    *head = (uint8_t)(id | (end == head + 1 ? 0 : HEAD_FIELDS));
    return end;
}

/* A thread's entry: a code where it isn't the predicted one. */
static inline __attribute__((always_inline))
uint8_t *put_thread_entry(uint8_t *head, int id, int code, int predicted_code, const uint32_t *row, const uint32_t *predicted)
{
    uint8_t *fields = head + 1;
    if (code != predicted_code)
        *fields++ = (uint8_t)code;
    uint8_t *end = put_fields(fields, code == WAITED_MESSAGE ? &receiver_layout : &thread_layout, row, predicted);
    *head = (uint8_t)(id | (code != predicted_code ? HEAD_CODE : 0) | (end == fields ? 0 : HEAD_FIELDS));
    return end;
}

/* The section from `start` on ends at `end`: its length goes in front. */
static inline uint8_t *end_section(uint8_t *start, uint8_t *end)
{
    put(start, 2, (uint32_t)(end - start - 2));
    return end;
}

#endif
