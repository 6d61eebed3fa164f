/*
 * Harm: at a step of a run, calls and undos with a byte damaged, a length wrong or a room too small. held.h has what must
 * hold of every answer, this file what must hold of each kind of harm. Of docs/LAYOUT.md it uses the fresh image, and where
 * an image has the uptime.
 */
#include "harm.h"
#include "held.h"

enum { UPTIME_AT = 3, FILL = 0xa5 };

static const uint8_t fresh[REPLAY_IMAGE_FRESH] = { 1, 7, 0, 0, 0, 0, 0, 0, 0, NONE, 0, 0, 0, 0, 4, 0, 0, 0, 0, 0, 2 };
static const size_t most = (size_t)-1;

static unsigned long harmed_records; /* at which harm was tried */
static unsigned long other_images;   /* damaged images that are those of another state */

/* ---- ways back, and there again ---- */

/* An accepted call on `start` has led to `left`: its undo leads back. */
static void hold_way_back(const struct lent *start)
{
    struct lent after = left;
    must(replay_number(undo_held(&after, whole)) == ACCEPTED, "the undo of an accepted call is accepted");
    must(same_image(start, &left), "the undo leads back to the image from before the call");
}

/* An accepted undo on `start` has led to `left`: the note's call leads there again, with the same note. */
static void hold_way_there(const struct lent *start)
{
    struct lent before = left;
    memcpy(before.record, before.log + before.used, REPLAY_RECORD);
    must(replay_number(call_held(&before, whole)) == ACCEPTED, "the call of an undone note is accepted");
    must(same_image(start, &left), "the call of an undone note leads to the image from before the undo");
    must(same_bytes(start->log, left.log, 0, left.used), "the call of an undone note writes that note");
}

/* ---- images that are none, or another state's ---- */

/* No image: 16, whatever the record is. */
static void try_no_image(const char *what, const struct lent *start, struct rooms rooms)
{
    static const size_t record_lengths[] = { 0, REPLAY_RECORD - 1, REPLAY_RECORD, REPLAY_RECORD + 1 };
    trial = what;
    for (int i = 0; i < 4; i++) {
        rooms.record = record_lengths[i];
        must(replay_number(call_held(start, rooms)) == NO_IMAGE, "the call is answered 16");
    }
    must(replay_number(undo_held(start, rooms)) == NO_IMAGE, "the undo is answered 16");
}

/* Bytes that may be an image: where they are, the undo of an accepted call leads back to them. Returns the call's answer. */
static uint32_t try_some_image(const struct lent *start)
{
    struct rooms short_record = { IMAGE_ROOM, REPLAY_RECORD - 1, LOG_ROOM };
    unsigned number = replay_number(call_held(start, short_record));
    must(number == BAD_RECORD || number == NO_IMAGE, "a record of 15 bytes is answered 1 or 16");
    int is_image = number == BAD_RECORD;
    uint32_t answer = call_held(start, whole);
    must((replay_number(answer) != NO_IMAGE) == is_image, "a whole record is answered 16 where the short one was");
    if (replay_number(answer) == ACCEPTED)
        hold_way_back(start);
    number = replay_number(undo_held(start, whole));
    must((number != NO_IMAGE) == is_image, "the undo is answered 16 where the call was");
    if (number == ACCEPTED)
        hold_way_there(start);
    other_images += (unsigned long)is_image;
    return answer;
}

/* Each byte of the image damaged in turn, in one bit or in all. `good` is the answer on the image as it is. */
static void try_damaged_images(const struct lent *start, uint32_t good)
{
    struct lent harmed = *start;
    trial = "a damaged byte of the image";
    for (size_t i = 0; i < start->length; i++) {
        unsigned turn = (unsigned)((serial + i) % 9);
        harmed.image[i] ^= (uint8_t)(turn == 8 ? 255 : 1 << turn);
        uint32_t answer = try_some_image(&harmed);
        if (i < UPTIME_AT)
            must(replay_number(answer) == NO_IMAGE, "another edition or length of the first section is answered 16");
        else if (i < UPTIME_AT + 4)
            must(answer == good, "another uptime changes no answer");
        harmed.image[i] = start->image[i];
    }
}

static void try_lengths(const struct lent *start)
{
    struct lent harmed = *start;
    struct rooms rooms = whole;
    harmed.length = start->length - 1;
    try_no_image("an image without its last byte", &harmed, whole);
    harmed.length = start->length + 1;
    try_no_image("an image and a byte more", &harmed, whole);
    harmed.length = 0;
    try_no_image("no byte", &harmed, whole);
    harmed.length = IMAGE_ROOM + 1;
    try_no_image("a length one above the room", &harmed, whole);
    harmed.length = most;
    try_no_image("the greatest length", &harmed, whole);
    rooms.image = start->length - 1;
    try_no_image("a room one below the length", start, rooms);
    rooms.image = 0;
    try_no_image("no room", start, rooms);
}

/* ---- a good image ---- */

static void try_records(const struct lent *start)
{
    static const size_t record_lengths[] = { 0, REPLAY_RECORD - 1, REPLAY_RECORD + 1 };
    trial = "a record of 0, 15 or 17 bytes";
    for (int i = 0; i < 3; i++) {
        struct rooms rooms = { IMAGE_ROOM, record_lengths[i], LOG_ROOM };
        must(replay_number(call_held(start, rooms)) == BAD_RECORD, "the call is answered 1");
    }
}

/* Other bytes behind the image and behind the notes: the same answer, image and note. */
static void try_other_filling(const struct lent *start, uint32_t good, const struct lent *after)
{
    struct lent other = *start;
    trial = "other bytes behind the image and the notes";
    for (size_t i = start->length; i < IMAGE_ROOM; i++)
        other.image[i] = (uint8_t)~other.image[i];
    for (size_t i = start->used; i < LOG_ROOM; i++)
        other.log[i] = (uint8_t)~other.log[i];
    must(call_held(&other, whole) == good, "the answer is the same");
    must(same_image(after, &left), "the new image is the same");
    must(same_bytes(after->log, left.log, 0, left.used), "the note is the same");
}

static void try_used(const char *what, const struct lent *start, struct rooms rooms, uint32_t good)
{
    trial = what;
    uint32_t answer = call_held(start, rooms);
    if (replay_number(good) == ACCEPTED)
        must(replay_number(answer) == NO_ROOM, "the call is answered 13");
    else
        must(answer == good, "a refused call is refused as with room");
    must(replay_number(undo_held(start, rooms)) == NO_NOTE, "the undo is answered 15");
}

/* Used lengths beyond the log. */
static void try_used_lengths(const struct lent *start, uint32_t good)
{
    struct lent harmed = *start;
    struct rooms rooms = whole;
    harmed.used = LOG_ROOM + 1;
    try_used("a used length one above the log", &harmed, whole, good);
    harmed.used = most;
    try_used("the greatest used length", &harmed, whole, good);
    harmed.used = most - REPLAY_RECORD;
    try_used("a used length that wraps with a note behind it", &harmed, whole, good);
    rooms.log = 0;
    harmed.used = 0;
    try_used("no log", &harmed, rooms, good);
    rooms.log = start->used;
    harmed.used = start->used + 1;
    try_used("a log that ends with its notes, and a used length one above it", &harmed, rooms, good);
    if (start->used > 0) {
        rooms.log = start->used - 1;
        try_used("a log one below the used length", start, rooms, good);
    }
}

static size_t larger(size_t x, size_t y)
{
    return x > y ? x : y;
}

/* An accepted call leads from `start` to `after`: rooms and logs that just suffice, and those one byte smaller. */
static void try_call_rooms(const struct lent *start, const struct lent *after)
{
    struct rooms rooms = whole;
    trial = "a log that just holds the note";
    rooms.log = after->used;
    must(replay_number(call_held(start, rooms)) == ACCEPTED && same(after, &left), "the call does as with more room");
    trial = "a log one byte short of the note";
    rooms.log = after->used - 1;
    must(replay_number(call_held(start, rooms)) == NO_ROOM, "the call is answered 13");
    trial = "a room that just holds both images";
    rooms.log = after->used;
    rooms.image = larger(start->length, after->length);
    must(replay_number(call_held(start, rooms)) == ACCEPTED && same(after, &left), "the call does as with more room");
    trial = "a room one byte short of the new image";
    rooms.image = after->length - 1;
    if (rooms.image >= start->length)
        must(replay_number(call_held(start, rooms)) == NO_ROOM, "the call is answered 13");
}

/* The same for its undo. */
static void try_undo_rooms(const struct lent *start, const struct lent *after)
{
    struct rooms rooms = whole;
    trial = "the undo";
    must(replay_number(undo_held(after, whole)) == ACCEPTED && same_image(start, &left), "it leads back");
    struct lent back = left;
    trial = "an undo in a log and a room that just suffice";
    rooms.log = after->used;
    rooms.image = larger(start->length, after->length);
    must(replay_number(undo_held(after, rooms)) == ACCEPTED && same(&back, &left), "it does as with more room");
    trial = "an undo in a room one byte short of the earlier image";
    rooms.image = start->length - 1;
    if (rooms.image >= after->length)
        must(replay_number(undo_held(after, rooms)) == NO_ROOM, "it is answered 13");
}

/* Logs whose last note isn't the one of the call that led to `after`. */
static void try_notes(const struct lent *start, const struct lent *after)
{
    struct lent harmed = *after;
    trial = "an empty log";
    harmed.used = 0;
    must(replay_number(undo_held(&harmed, whole)) == NO_NOTE, "the undo is answered 15");
    trial = "a byte more behind the note";
    harmed.used = after->used + 1;
    harmed.log[after->used] = FILL;
    must(replay_number(undo_held(&harmed, whole)) == NO_NOTE, "the undo is answered 15");
    harmed = *after;
    trial = "a damaged byte of the note";
    for (size_t i = start->used; i < after->used; i++) {
        harmed.log[i] ^= (uint8_t)(1 << (serial + i) % 8);
        if (replay_number(undo_held(&harmed, whole)) == ACCEPTED)
            hold_way_there(&harmed);
        harmed.log[i] = after->log[i];
    }
}

/* ---- the run ---- */

static void fill(uint8_t *bytes, size_t room)
{
    for (size_t i = 0; i < room; i++)
        bytes[i] = FILL;
}

static void try_fresh(const struct lent *start, size_t room)
{
    trial = "the fresh image";
    left = *start;
    uint32_t answer = replay_fresh(left.image, room, &left.length);
    must(answer >> 8 == 0xffff, "value and runner are 255");
    if (room < REPLAY_IMAGE_FRESH) {
        must(replay_number(answer) == NO_ROOM && same(start, &left), "too little room gives 13 and changes nothing");
        return;
    }
    must(replay_number(answer) == ACCEPTED, "there is room for it");
    must(left.length == REPLAY_IMAGE_FRESH && same_bytes(fresh, left.image, 0, left.length), "it is that of the layout");
    must(same_bytes(start->image, left.image, left.length, IMAGE_ROOM), "the bytes behind it are as they were");
}

static void try_all(const struct lent *start, uint32_t good, const struct lent *after)
{
    try_damaged_images(start, good);
    try_lengths(start);
    try_records(start);
    try_other_filling(start, good, after);
    try_used_lengths(start, good);
    if (replay_number(good) == ACCEPTED) {
        try_call_rooms(start, after);
        try_undo_rooms(start, after);
        try_notes(start, after);
    }
    harmed_records++;
}

static void put_count(const char *what, unsigned long number)
{
    put(what);
    put_number(number);
}

static void put_counts(void)
{
    put_count("records ", serial);
    put_count(" harmed ", harmed_records);
    put_count(" calls ", count.calls - serial); /* without the run's own */
    put_count(" undos ", count.undos);
    put_count(" no-image ", count.no_image);
    put_count(" no-room ", count.no_room);
    put_count(" no-note ", count.no_note);
    put_count(" other-image ", other_images);
    put("\n");
}

void harm(unsigned long every)
{
    static struct lent now, after;
    fill(now.image, IMAGE_ROOM);
    fill(now.log, LOG_ROOM);
    fill(now.record, RECORD_ROOM);
    now.length = most;
    for (size_t room = 0; room <= REPLAY_IMAGE_FRESH; room++)
        try_fresh(&now, room);
    try_fresh(&now, IMAGE_ROOM);
    now = left;
    while (next_record(now.record)) {
        serial++;
        trial = "the call";
        if (now.used + REPLAY_NOTE_MOST + 1 > LOG_ROOM) {
            now.used = 0; /* a new log */
            fill(now.log, LOG_ROOM);
        }
        uint32_t good = call_held(&now, whole);
        must(replay_number(good) != NO_IMAGE && replay_number(good) != NO_ROOM, "there is an image, and room");
        after = left;
        if (serial % every == 0)
            try_all(&now, good, &after);
        now = after;
    }
    put_counts();
}
