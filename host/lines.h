/*
 * What the host's modes share: records from standard input, and lines of words and numbers to standard output. Of the C
 * library the host uses the functions below and no header, since the kit's clang comes without any.
 */
#ifndef LINES_H
#define LINES_H

#include "replay.h"

long read(int file, void *bytes, size_t count);
long write(int file, const void *bytes, size_t count);
void exit(int status);
void *memcpy(void *to, const void *from, size_t count);
int memcmp(const void *x, const void *y, size_t count);

/* The next whole record of standard input; 0 at its end, where a shorter tail is dropped. */
int next_record(uint8_t record[REPLAY_RECORD]);

/* Each adds to what is to be written. */
void put(const char *text);
void put_number(unsigned long number);
/* Writes what was put, to standard output (1) or to standard error (2). */
void flush(int file);
/* Ends the program: the message goes to standard error, the exit status is 2. */
void stop(const char *message);

#endif
