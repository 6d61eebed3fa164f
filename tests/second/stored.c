/* The modes of stored states: a log run over images, damaged images, and what the reader says of them. */
#include <stdio.h>
#include <stdlib.h>
#include <string.h>

#include "entries.h"
#include "images.h"
#include "modes.h"

enum { LONGEST_LENT = 65535 }; /* what two bytes of length can say */

struct image {
    size_t length;
    uint8_t bytes[LONGEST_IMAGE + 1]; /* room for a byte too many */
};

static struct kernel now; /* too large for some stacks */
static struct log own;
static struct image stored;

/* ---- a log run over images ---- */

static void store(void)
{
    stored.length = write_image(stored.bytes, &now);
}

/* An image of this replay's own must read back. */
static void recall(void)
{
    if (read_image(&now, stored.bytes, stored.length) != 0) {
        fprintf(stderr, "an own image isn't read\n");
        exit(1);
    }
}

/* Bytes after their length. */
static void put_lent(const uint8_t *bytes, size_t length)
{
    uint8_t front[2];
    put(front, 2, (uint32_t)length);
    fwrite(front, 1, sizeof front, stdout);
    fwrite(bytes, 1, length, stdout);
}

static void put_step(struct answer a)
{
    uint8_t said[] = { (uint8_t)a.number, (uint8_t)a.value, (uint8_t)a.runner };
    fwrite(said, 1, sizeof said, stdout);
    put_lent(stored.bytes, stored.length);
}

/* Nothing but the image and the log goes from one call to the next. */
int images(void)
{
    uint8_t record[RECORD];
    make_fresh(&now);
    store();
    while (next_record(record)) {
        recall();
        struct answer a = step_noted(&now, record, &own);
        store();
        put_step(a);
    }
    while (own.used > 0) {
        recall();
        undo_last(&now, &own);
        store();
        put_step((struct answer){ 0, NONE, now.running });
    }
    return 0;
}

/* The state stays beside its image here, and what is read must be equal to it. */
int images_same(void)
{
    static struct kernel found;
    uint8_t record[RECORD];
    unsigned long count = 0, bytes = 0;
    size_t longest = 0;
    make_fresh(&now);
    while (next_record(record)) {
        step(&now, record);
        store();
        count++;
        if (read_image(&found, stored.bytes, stored.length) != 0 || !states_are_equal(&found, &now)) {
            printf("record %lu: its image gives another state\n", count);
            return 1;
        }
        bytes += stored.length;
        longest = stored.length > longest ? stored.length : longest;
    }
    printf("records %lu longest %zu mean %.1f same\n", count, longest, count ? (double)bytes / (double)count : 0.0);
    return 0;
}

/* ---- damaged images ---- */

static void put_changed(struct image *im)
{
    for (size_t i = 0; i < im->length; i++) {
        uint8_t right = im->bytes[i];
        for (int bit = 0; bit < 8; bit++) {
            im->bytes[i] = (uint8_t)(right ^ 1 << bit);
            put_lent(im->bytes, im->length);
        }
        im->bytes[i] = 255;
        put_lent(im->bytes, im->length);
        im->bytes[i] = 0;
        put_lent(im->bytes, im->length);
        im->bytes[i] = right;
    }
}

static void put_cut(const struct image *im)
{
    for (size_t n = 0; n < im->length; n++)
        put_lent(im->bytes, n);
}

static void put_extended(struct image *im)
{
    const uint8_t more[] = { 0, 1, im->bytes[im->length - 1] };
    for (size_t i = 0; i < sizeof more; i++) {
        im->bytes[im->length] = more[i];
        put_lent(im->bytes, im->length + 1);
    }
}

/* The image of the state now in every damaged form, and then as it is. */
static void put_damaged(void)
{
    store();
    put_changed(&stored);
    put_cut(&stored);
    put_extended(&stored);
    put_lent(stored.bytes, stored.length);
}

int damaged(unsigned long every)
{
    uint8_t record[RECORD];
    unsigned long count = 0;
    make_fresh(&now);
    put_damaged();
    while (next_record(record)) {
        step(&now, record);
        if (++count % every == 0)
            put_damaged();
    }
    return 0;
}

/* Read to the end of its store, so that a sanitizer sees a read beyond it. Returns where it begins, or 0 at the end of the stream. */
static const uint8_t *next_lent(size_t *length)
{
    static uint8_t lent[LONGEST_LENT];
    uint8_t front[2];
    if (fread(front, 1, sizeof front, stdin) < sizeof front)
        return 0;
    *length = number(front, 2);
    uint8_t *at = lent + sizeof lent - *length;
    return fread(at, 1, *length, stdin) == *length ? at : 0;
}

int recalled(void)
{
    size_t length;
    const uint8_t *image;
    while ((image = next_lent(&length)))
        printf("%d\n", read_image(&now, image, length));
    if (ferror(stdin)) {
        perror("standard input");
        return 2;
    }
    return 0;
}
