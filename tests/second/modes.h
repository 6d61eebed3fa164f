/* What main.c, both.c and stored.c share. */
#ifndef MODES_H
#define MODES_H

#include "notes.h"

/* The next whole record of standard input; 0 at the end, where a shorter tail is dropped. */
int next_record(uint8_t record[RECORD]);
/* One call; in a debug build the state must keep the rules afterwards. */
struct answer step(struct kernel *k, const uint8_t record[RECORD]);

/* The same, with its note. */
struct answer step_noted(struct kernel *k, const uint8_t record[RECORD], struct log *log);

/* Each returns the program's exit status. */
int printed(void);
int both(const char *lines_file);
int notes(void);
int back(void);
int rounds(void);
int rounds_plain(void);
int rounds_undo(void);
int images(void);
int images_same(void);
int damaged(unsigned long every);
int recalled(void);

#endif
