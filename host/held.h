/*
 * A call or an undo on a copy of all that is lent. Its answer, and every lent byte after it, is held to what replay.h says
 * of every answer; the first thing that isn't so ends the program with status 1. Of docs/LAYOUT.md this uses where an image
 * has the running thread, and how a note begins and ends.
 */
#ifndef HELD_H
#define HELD_H

#include "lines.h"

enum { IMAGE_ROOM = 2048, LOG_ROOM = 4096, RECORD_ROOM = 24 };
enum { ACCEPTED = 0, BAD_RECORD = 1, NO_ROOM = 13, BROKEN_STATE = 14, NO_NOTE = 15, NO_IMAGE = 16, NONE = 255 };

/* All that is lent. */
struct lent {
    uint8_t image[IMAGE_ROOM], log[LOG_ROOM], record[RECORD_ROOM];
    size_t length, used;
};

/* How many bytes of it a call is told of. */
struct rooms {
    size_t image, record, log;
};
extern const struct rooms whole;

/* What the last call or undo left. */
extern struct lent left;

/* What is tried, and at which record: for the message. */
extern const char *trial;
extern unsigned long serial;

/* How many calls and undos there were, and how many of them were answered 16, 13 and 15. */
struct counts {
    unsigned long calls, undos, no_image, no_room, no_note;
};
extern struct counts count;

/* Ends the program where it doesn't hold. */
void must(int holds, const char *what);

uint32_t call_held(const struct lent *start, struct rooms rooms);
uint32_t undo_held(const struct lent *start, struct rooms rooms);

/* From a place up to another. */
int same_bytes(const uint8_t *x, const uint8_t *y, size_t from, size_t to);
/* Every byte and both lengths. */
int same(const struct lent *x, const struct lent *y);
/* The same image and as much of the log; what stands behind them may differ. */
int same_image(const struct lent *x, const struct lent *y);

#endif
