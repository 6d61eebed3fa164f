/* Reversal notes (docs/LAYOUT.md): what a call touches, the note made of it, and the way back that reads it. */
#ifndef NOTES_H
#define NOTES_H

#include <stddef.h>

#include "replay.h"

enum { LOG_LENGTH = 1048576, SHORTEST_NOTE = 30, LONGEST_NOTE = 2048 };

/* ---- what a call touches, as it was before the call ---- */

struct touched_thread {
    struct thread old;
    uint8_t place, time_place; /* in the tables `places` and `time`, or NONE */
};

struct touched_message {
    struct message old;
    uint8_t channel, place; /* 0 and NONE where its owner held it */
};

/* Where the threads touched so far stood in a table as they left it, in that order. */
struct leavers {
    int count;
    uint8_t at[THREADS];
};

/* A record is set only where its id's bit is, so nothing has to be cleared for a call. */
struct touched {
    int tick; /* the call ages all that is timed before it touches anything */
    uint8_t unscheduled, critical, running;
    uint32_t bits;
    uint32_t thread_ids, semaphore_ids, event_ids;
    uint64_t message_ids;
    uint8_t flag_made; /* NONE where the call makes none */
    int woken;         /* threads touched so far */
    struct leavers places, time;
    struct touched_thread threads[THREADS];
    struct semaphore semaphores[SEMAPHORES];
    struct event events[EVENTS];
    struct touched_message messages[MESSAGES];
};

/* Where a call keeps what its note needs; NULL where no note is wanted. */
extern struct touched *touched;

/* Each is called before the record or the place changes. */
void touch_thread(struct touched *t, const struct kernel *k, uint8_t id);
void touch_semaphore(struct touched *t, const struct kernel *k, uint8_t id);
void touch_event(struct touched *t, const struct kernel *k, uint8_t id);
void touch_flag(struct touched *t, uint8_t id); /* one that is made */
void touch_message(struct touched *t, const struct kernel *k, uint8_t id); /* a held or a free one */
/* The first one on a channel (1..15) of its owner. */
void touch_queued(struct touched *t, const struct kernel *k, uint8_t id, int channel);
/* All messages that a thread owns. */
void touch_messages_of(struct touched *t, const struct kernel *k, uint8_t owner);

/* ---- what is predicted ---- */

/* The record before a tick, as far as ageing explains it; this serves the writer and the reader, as the next ones do. */
void aged_back(struct semaphore *s);

/* What the call and the record after it tell of the old one. */
void predict_scheduler(uint32_t *row, const uint8_t *record, const struct kernel *after);
int predict_code(const uint8_t *record, const struct thread *after);
void predict_thread(uint32_t *row, const uint8_t *record, int code, const struct thread *after);
void predict_semaphore(uint32_t *row, const uint8_t *record, const struct semaphore *after);
void predict_event(uint32_t *row, const struct event *after);
void predict_message(uint32_t *row, const uint8_t *record, uint8_t runner, const struct message *after);

/* ---- notes and logs ---- */

struct log {
    size_t used;
    uint8_t bytes[LOG_LENGTH];
};

/* The note of an accepted call that left the state `k`; at most LONGEST_NOTE bytes. Returns its length. */
size_t write_note(uint8_t *note, const uint8_t record[RECORD], const struct kernel *k, const struct touched *t);
/* `call_kept` with its note behind the log's last; number 13 where it doesn't fit, which changes nothing. */
struct answer call_noted(struct kernel *k, const uint8_t record[RECORD], struct log *log);
/* Takes back the log's last note, which must be that of the call that led to this state. */
void undo_last(struct kernel *k, struct log *log);

#endif
