/* What must hold of every answer. */
#include "held.h"

enum { RUNNER_AT = 9 };

const struct rooms whole = { IMAGE_ROOM, REPLAY_RECORD, LOG_ROOM };
struct lent left;
const char *trial;
unsigned long serial;
struct counts count;

void must(int holds, const char *what)
{
    if (holds)
        return;
    flush(1);
    put("host: record ");
    put_number(serial);
    put(": ");
    put(trial);
    put(": not so: ");
    put(what);
    put("\n");
    flush(2);
    exit(1);
}

int same_bytes(const uint8_t *x, const uint8_t *y, size_t from, size_t to)
{
    return from >= to || memcmp(x + from, y + from, to - from) == 0;
}

int same(const struct lent *x, const struct lent *y)
{
    return x->length == y->length && x->used == y->used && same_bytes(x->image, y->image, 0, IMAGE_ROOM) &&
           same_bytes(x->log, y->log, 0, LOG_ROOM) && same_bytes(x->record, y->record, 0, RECORD_ROOM);
}

int same_image(const struct lent *x, const struct lent *y)
{
    return x->length == y->length && x->used == y->used && same_bytes(x->image, y->image, 0, x->length);
}

static void hold_refusal(const struct lent *start, uint32_t answer)
{
    must(same(start, &left), "a refusal changes nothing");
    must(replay_value(answer) == NONE, "a refusal has value 255");
    if (replay_number(answer) == NO_IMAGE)
        must(replay_runner(answer) == NONE, "16 has runner 255");
    else
        must(replay_runner(answer) == start->image[RUNNER_AT], "a refusal has the runner of the image");
}

static void hold_image(const struct lent *start, struct rooms rooms, uint32_t answer)
{
    must(left.length <= rooms.image && left.length <= REPLAY_IMAGE_MOST, "the new image is within its room");
    must(same_bytes(start->image, left.image, left.length, IMAGE_ROOM), "the bytes behind the new image are as they were");
    must(same_bytes(start->record, left.record, 0, RECORD_ROOM), "the record is as it was");
    must(replay_runner(answer) == left.image[RUNNER_AT], "the runner is that of the new image");
}

/* The length that stands in the last two bytes of the log's first `used` bytes. */
static size_t last_length(const uint8_t *log, size_t used)
{
    return log[used - 2] + ((size_t)log[used - 1] << 8);
}

static void hold_note(const struct lent *start, struct rooms rooms)
{
    must(start->used <= left.used && left.used <= rooms.log, "the note is within the log");
    must(left.used - start->used >= REPLAY_RECORD + 2, "the note has room for a record and its length");
    must(left.used - start->used <= REPLAY_NOTE_MOST, "the note is no longer than the longest");
    must(same_bytes(start->log, left.log, 0, start->used), "the bytes before the note are as they were");
    must(same_bytes(start->log, left.log, left.used, LOG_ROOM), "the bytes behind the note are as they were");
    must(memcmp(left.log + start->used, start->record, REPLAY_RECORD) == 0, "the note begins with the record");
    must(last_length(left.log, left.used) == left.used - start->used, "the note ends with its length");
}

static void hold_undone(const struct lent *start, struct rooms rooms)
{
    must(same_bytes(start->log, left.log, 0, LOG_ROOM), "the log's bytes are as they were");
    must(left.used < start->used && start->used <= rooms.log, "the used part is within the log and gets shorter");
    must(start->used - left.used >= REPLAY_RECORD + 2, "it gets shorter by a record and a length at least");
    must(last_length(start->log, start->used) == start->used - left.used, "it gets shorter by a note");
}

/* ---- a call and an undo ---- */

static void counted(unsigned number)
{
    count.no_image += number == NO_IMAGE;
    count.no_room += number == NO_ROOM;
    count.no_note += number == NO_NOTE;
}

uint32_t call_held(const struct lent *start, struct rooms rooms)
{
    left = *start;
    uint32_t answer = replay_run(left.image, rooms.image, &left.length, left.record, rooms.record,
                                 left.log, rooms.log, &left.used);
    unsigned number = replay_number(answer);
    must(answer >> 24 == 0, "an answer has three bytes");
    must(number <= NO_IMAGE && number != BROKEN_STATE && number != NO_NOTE, "a call has such a number");
    if (number != ACCEPTED) {
        hold_refusal(start, answer);
    } else {
        hold_image(start, rooms, answer);
        hold_note(start, rooms);
    }
    count.calls++;
    counted(number);
    return answer;
}

uint32_t undo_held(const struct lent *start, struct rooms rooms)
{
    left = *start;
    uint32_t answer = replay_undo(left.image, rooms.image, &left.length, left.log, rooms.log, &left.used);
    unsigned number = replay_number(answer);
    must(answer >> 24 == 0, "an answer has three bytes");
    must(number == ACCEPTED || number == NO_ROOM || number == NO_NOTE || number == NO_IMAGE, "an undo has such a number");
    must(replay_value(answer) == NONE, "an undo has value 255");
    if (number != ACCEPTED) {
        hold_refusal(start, answer);
    } else {
        hold_image(start, rooms, answer);
        hold_undone(start, rooms);
    }
    count.undos++;
    counted(number);
    return answer;
}
