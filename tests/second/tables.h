/* The tables of places (docs/LAYOUT.md): made of a state's queues, in their order, and dealt out to them again. */
#ifndef TABLES_H
#define TABLES_H

#include "replay.h"

/* The ids in order, in its first `length` places. */
struct table {
    int length;
    uint8_t place[MESSAGES];
};

/* Each begins with an empty table; the last also tells the channel of each message that is in one. */
void add_places(struct table *t, const struct kernel *k);
void add_time(struct table *t, const struct kernel *k);
void add_posted(struct table *t, uint8_t channel[MESSAGES], const struct kernel *k);

/* Each clears its queues first. A thread's record tells its list, a message's its owner; all of them must be in their sizes. */
void deal_places(struct kernel *k, const struct table *t);
void deal_time(struct kernel *k, const struct table *t);
void deal_posted(struct kernel *k, const uint8_t channel[MESSAGES], const struct table *t);

#endif
