/*
 * A replay of kernel calls over a stored state, for programs in C.
 *
 * A state of the kernel is kept as bytes, its image. A call of the kernel is a record of sixteen bytes. replay_run
 * carries out one record on an image and appends a note to a log; replay_undo takes the log's last note back and restores
 * the image from before that call. All memory is lent by the caller. The functions are written and proved in Rattle; for
 * C they are a static library for x86-64 Linux.
 *
 * What is lent
 *   image, room     `room` bytes at `image`. The first *length of them are the image.
 *   log, log_room   `log_room` bytes at `log`. The first *used of them are notes, the oldest first; 0 for an empty log.
 *   record          one call, little endian: kind (byte 0), a (byte 1), b (bytes 2-3), c, d, e (four bytes each).
 * REPLAY_IMAGE_MOST bytes are room for every image, and REPLAY_NOTE_MOST for every note. Less is allowed: what doesn't
 * fit is refused with 13. docs/LAYOUT.md has the bytes of images, notes and records; nobody needs it in order to call.
 *
 * What holds for every call
 *   So many bytes as room, record_length and log_room say must be there. No pointer may be NULL, even beside a 0. Of
 *   image, log, record, *length and *used no two may overlap.
 *   The bytes may be any, and *length and *used any numbers, damaged ones too: each call is answered.
 *   A refusal (a number other than 0) changes nothing: no byte at image or log, neither *length nor *used.
 *   An accepted call writes only what is said at its function. Every other lent byte is as it was, those behind the new
 *   image and behind the notes too.
 *   No function keeps a pointer, allocates or prints. Each takes less than 48 kilobytes of stack (measured, not proved).
 *
 * The kinds of call; a field that a kind doesn't use must be 0, and a timeout of 0 waits for ever
 *    1  tick                                          18  pend on semaphore a, timeout c
 *    2  create a thread of priority a                 19  post semaphore a
 *    3  destroy thread a                              20  load event a: mode b (0 all, 1 any), mask c, values d
 *    4  set the priority of thread a to b             21  pend on event a, timeout c
 *    5  reset the priority of thread a                22  set event bit a
 *    6  yield                                         23  clear event bit a
 *    7  sleep c ticks                                 24  create a message: type b, size c, address d
 *    8  push the unscheduled level                    25  destroy message a
 *    9  pop it                                        26  post message a to thread b on channel c
 *   10  pop it to 0                                   27  pend on messages, channel mask b, timeout c
 *   11  push the critical level                       28  interrupt: post semaphore a
 *   12  pop it                                        29  interrupt: set event bit a
 *   13  pop it to 0                                   30  interrupt: clear event bit a
 *   14  create a semaphore: count b, maximum c        31  create a device flag
 *   15  destroy semaphore a                           32  destroy device flag a
 *   16  make semaphore a periodic: delay c, period d  33  pend on device flag a, timeout c
 *   17  make semaphore a not periodic                 34  post device flag a
 * Kinds 1, 28, 29 and 30 come from interrupts, all others from the running thread; 2, 14 and 20 also while none runs.
 *
 * An answer is one number of 32 bits, taken apart by the three functions at the end of this file
 *   number   0: accepted; else why it was refused, by the table below
 *   value    the id that the call created, or the message that it received at once; else 255
 *   runner   the thread that runs now, 255 for none
 *
 *   number   given when
 *    0       accepted
 *    1       the record hasn't sixteen bytes, its kind is unknown, or a field that the kind doesn't use isn't 0
 *    2       a thread's call while no thread runs
 *    3       an interrupt's call while the critical level is above 0
 *    4       the record names an id that isn't live or is too large, or an event bit above 31
 *    5       a value is outside its range: priority, channel, mask, count, maximum, mode; a sleep, delay or period is 0
 *    6       inside a region the call would block, sleeps, yields or destroys its caller; or a device flag is pended on
 *            with levels other than critical 1 and unscheduled 0
 *    7       no id is free; or a push at level 255
 *    8       the caller doesn't own the message
 *    9       the message is queued on a channel
 *   10       threads wait for the semaphore or device flag that is to be destroyed
 *   11       a pop of a level that is 0
 *   12       the semaphore isn't periodic
 *   13       no room for the note behind the used part of the log (none at all where *used is above log_room), or for the
 *            new image
 *   14       never given here: the library's number for a state in memory that breaks a rule, in whose place 16 is given
 *   15       only by replay_undo: the log's last bytes aren't the note of a call that leads to this state, the log is
 *            empty, or *used is above log_room
 *   16       the first *length bytes aren't the image of a state that keeps the kernel's rules, or *length is above room
 *
 * Of several that apply, the first in this order is given: 16, 1, 3, 2, 5, 4, 9, 8, 10, 12, 11, 6, 7, 13. An undo has 16,
 * 15, 13. A refusal has value 255, and its runner is the thread that runs; with 16 the runner is 255 too, since no state
 * was read.
 */
#ifndef REPLAY_H
#define REPLAY_H

#include <stddef.h>
#include <stdint.h>

#ifdef __cplusplus
extern "C" {
#endif

#define REPLAY_RECORD 16       /* the length of a record */
#define REPLAY_IMAGE_FRESH 26  /* the length of the fresh state's image */
#define REPLAY_IMAGE_MOST 1922 /* no image is longer */
#define REPLAY_NOTE_MOST 1932  /* no note is longer */

/*
 * Writes the image of the fresh state (no thread, semaphore, device flag or message; uptime 0) to the first
 * REPLAY_IMAGE_FRESH bytes at `image`, and that length to *length, whatever it was. The number is 0, or 13 where `room` is
 * less; value and runner are 255.
 */
uint32_t replay_fresh(uint8_t *image, size_t room, size_t *length);

/*
 * Carries out one record on the image. Accepted: the image after the call stands at `image`, and *length is its length,
 * which may be more or less than before; the note stands where the log's used part ended, and *used is the note's end.
 */
uint32_t replay_run(uint8_t *image, size_t room, size_t *length, const uint8_t *record, size_t record_length,
                    uint8_t *log, size_t log_room, size_t *used);

/*
 * Takes the log's last note back. Accepted: the image from before that call stands at `image`, *length is its length, and
 * *used is where the note begins; the log's bytes stay. The value is 255.
 */
uint32_t replay_undo(uint8_t *image, size_t room, size_t *length, const uint8_t *log, size_t log_room, size_t *used);

/* ---- the parts of an answer ---- */

static inline unsigned replay_number(uint32_t answer)
{
    return answer & 255;
}

static inline unsigned replay_value(uint32_t answer)
{
    return answer >> 8 & 255;
}

static inline unsigned replay_runner(uint32_t answer)
{
    return answer >> 16 & 255;
}

#ifdef __cplusplus
}
#endif

#endif
