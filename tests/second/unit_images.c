/* Stored states (document 02, request 2): images worked out by hand from docs/LAYOUT.md, and bytes that are none. */
#include <string.h>

#include "images.h"
#include "unit.h"

enum { LENT = 4096, TRIALS = 20000 };

/* Read at the end of its store, so that a sanitizer sees a read beyond it. */
static int read_lent(struct kernel *found, const uint8_t *image, size_t length)
{
    static uint8_t lent[LENT];
    memcpy(lent + LENT - length, image, length);
    return read_image(found, lent + LENT - length, length);
}

int reads_back(void)
{
    static struct kernel found;
    uint8_t image[LONGEST_IMAGE];
    size_t length = write_image(image, &k);
    return length <= LONGEST_IMAGE && read_lent(&found, image, length) == 0 && states_are_equal(&found, &k);
}

/* The state's image is just these bytes, and reads back. */
static int image_is(const uint8_t *bytes, size_t length)
{
    uint8_t image[LONGEST_IMAGE];
    return write_image(image, &k) == length && memcmp(image, bytes, length) == 0 && reads_back();
}

/* 16, and the state that was there stays. */
static int is_refused(const uint8_t *bytes, size_t length)
{
    static struct kernel found, before;
    memcpy(&found, &base, sizeof found);
    memcpy(&before, &base, sizeof before);
    return read_lent(&found, bytes, length) == NOT_AN_IMAGE && memcmp(&found, &before, sizeof found) == 0;
}

static int is_read(const uint8_t *bytes, size_t length)
{
    static struct kernel found;
    return read_lent(&found, bytes, length) == 0;
}

/* The bytes are static: as literals on the stack they take a sanitizer's build ten seconds. */
#define TEST(holds, what, ...) do { static const uint8_t bytes[] = { __VA_ARGS__ }; \
    expect(holds(bytes, sizeof bytes), what #__VA_ARGS__, __FILE__, __LINE__); } while (0)
#define IMAGE(...) TEST(image_is, "should be the image: ", __VA_ARGS__)
#define REFUSED(...) TEST(is_refused, "should be refused: ", __VA_ARGS__)
#define READ(...) TEST(is_read, "should be read: ", __VA_ARGS__)

/* Sections with their lengths: uptime, levels and bits are 0. */
#define RUNS(runner) 7, 0, 0, 0, 0, 0, 0, 0, runner
#define NO_EVENTS 4, 0, 0, 0, 0, 0
#define NO_FLAGS 2, 0, 0, 0

/* ---- images of states ---- */

/* The fresh state, and the example of docs/LAYOUT.md. */
static void images_of_layout(void)
{
    make_fresh(&k);
    IMAGE(1, RUNS(255), EMPTY, EMPTY, NO_EVENTS, NO_FLAGS, EMPTY);
    EXPECT(same(ask(2, 5, 0, 0, 0), 0, 0, 0));
    EXPECT(same(ask(14, 0, 0, 1, 0), 0, 0, 0));
    EXPECT(same(ask(18, 0, 0, 0, 0), 0, 255, 255));
    IMAGE(0x01, 0x07, 0x00, 0x00, 0x00, 0x00, 0x00, 0x00, 0x00, 0xff, 0x05, 0x00, 0xc0, 0x03, 0x03, 0x05, 0x05,
          0x04, 0x00, 0x80, 0x04, 0x01, 0x00, 0x04, 0x00, 0x00, 0x00, 0x00, 0x00, 0x02, 0x00, 0x00, 0x00, 0x00, 0x00);
}

/* Two ready threads of one priority; one of them runs in regions with another priority than its first. */
static void images_of_ready(void)
{
    make_fresh(&k);
    EXPECT(same(ask(2, 5, 0, 0, 0), 0, 0, 0));
    EXPECT(same(ask(2, 5, 0, 0, 0), 0, 1, 0));
    IMAGE(1, RUNS(0), 9, 0, 0x80, 0x03, 5, 5, 0x81, 0x43, 5, 5, 1, EMPTY, NO_EVENTS, NO_FLAGS, EMPTY);
    EXPECT(same(ask(6, 0, 0, 0, 0), 0, 255, 1));
    IMAGE(1, RUNS(1), 9, 0, 0x80, 0x43, 5, 5, 1, 0x81, 0x03, 5, 5, EMPTY, NO_EVENTS, NO_FLAGS, EMPTY);
    EXPECT(same(ask(8, 0, 0, 0, 0), 0, 255, 1));
    EXPECT(same(ask(11, 0, 0, 0, 0), 0, 255, 1));
    EXPECT(same(ask(11, 0, 0, 0, 0), 0, 255, 1));
    EXPECT(same(ask(4, 1, 7, 0, 0), 0, 255, 1));
    IMAGE(1, 7, 0, 0, 0, 0, 0, 1, 2, 1, 9, 0, 0x80, 0x03, 5, 5, 0x81, 0x43, 7, 5, 1, EMPTY, NO_EVENTS, NO_FLAGS, EMPTY);
}

/* Two sleepers and a receiver with a time-out in the time queue: the receiver's mask has two bytes. */
static void images_of_timed(void)
{
    make_fresh(&k);
    for (uint8_t i = 0; i < 3; i++)
        EXPECT(same(ask(2, (uint8_t)(3 + i), 0, 0, 0), 0, i, 0));
    EXPECT(same(ask(7, 0, 0, 300, 0), 0, 255, 1));
    EXPECT(same(ask(7, 0, 0, 300, 0), 0, 255, 2));
    EXPECT(same(ask(27, 0, 0x4001, 500, 0), 0, 255, 255));
    EXPECT(same(ask(1, 0, 0, 0, 0), 0, 255, 255)); /* 299 and 499 ticks left */
    IMAGE(1, 7, 0, 1, 0, 0, 0, 0, 0, 255,
          31, 0, 0xc0, 2, 0x0b, 3, 3, 0x2b, 1, 0, 0, 0xc1, 2, 0x8b, 4, 4, 0x2b, 1, 0, 0, 1,
          0xc2, 5, 0x8f, 5, 5, 0x01, 0x40, 0xf3, 1, 0, 0, 2, EMPTY, NO_EVENTS, NO_FLAGS, EMPTY);
}

/* An event in mode all with a waiter, one in mode any with values only, and a bit. */
static void images_of_events(void)
{
    make_fresh(&k);
    EXPECT(same(ask(2, 9, 0, 0, 0), 0, 0, 0));
    EXPECT(same(ask(20, 3, 0, 0x80000001, 1), 0, 255, 0));
    EXPECT(same(ask(20, 5, 1, 0, 7), 0, 255, 0));
    EXPECT(same(ask(21, 3, 0, 0, 0), 0, 255, 255));
    EXPECT(same(ask(29, 4, 0, 0, 0), 0, 255, 255));
    IMAGE(1, RUNS(255), 6, 0, 0xc0, 4, 0x07, 9, 9, 3, EMPTY,
          21, 0, 0x10, 0, 0, 0, 0x83, 0x07, 0, 0x01, 0, 0, 0x80, 1, 0, 0, 0, 0x85, 0x04, 7, 0, 0, 0, NO_FLAGS, EMPTY);
}

/* Flag 1 has a waiter with a time-out, who stands behind the ready thread; flag 0 was destroyed. */
static void images_of_flags(void)
{
    make_fresh(&k);
    EXPECT(same(ask(2, 3, 0, 0, 0), 0, 0, 0));
    EXPECT(same(ask(2, 5, 0, 0, 0), 0, 1, 0));
    EXPECT(same(ask(31, 0, 0, 0, 0), 0, 0, 0));
    EXPECT(same(ask(31, 0, 0, 0, 0), 0, 1, 0));
    EXPECT(same(ask(32, 0, 0, 0, 0), 0, 255, 0));
    EXPECT(same(ask(11, 0, 0, 0, 0), 0, 255, 0));
    EXPECT(same(ask(33, 1, 0, 10, 0), 0, 255, 1));
    IMAGE(1, RUNS(1), 16, 0, 0xc0, 6, 0xcf, 3, 3, 1, 10, 0, 0, 0, 1, 0, 0x81, 0x03, 5, 5, EMPTY, NO_EVENTS, 2, 0, 2, 0, EMPTY);
}

/* Message 0 on thread 1's channel 4, 1 held by thread 0; then 2 on thread 0's own channel 9 stands before it in `posted`. */
static void images_of_messages(void)
{
    make_fresh(&k);
    EXPECT(same(ask(2, 5, 0, 0, 0), 0, 0, 0));
    EXPECT(same(ask(2, 5, 0, 0, 0), 0, 1, 0));
    EXPECT(same(ask(24, 0, 0x0102, 7, 0x80000001), 0, 0, 0));
    EXPECT(same(ask(26, 0, 1, 4, 0), 0, 255, 0));
    EXPECT(same(ask(24, 0, 0, 0, 0), 0, 1, 0));
    IMAGE(1, RUNS(0), 9, 0, 0x80, 0x03, 5, 5, 0x81, 0x43, 5, 5, 1, EMPTY, NO_EVENTS, NO_FLAGS,
          16, 0, 0x80, 0xfa, 1, 0x02, 0x01, 7, 0, 0, 0, 0x01, 0, 0, 0x80, 4, 0, 1);
    EXPECT(same(ask(24, 0, 0, 0, 0), 0, 2, 0));
    EXPECT(same(ask(26, 2, 0, 9, 0), 0, 255, 0));
    IMAGE(1, RUNS(0), 9, 0, 0x80, 0x03, 5, 5, 0x81, 0x43, 5, 5, 1, EMPTY, NO_EVENTS, NO_FLAGS,
          20, 0, 0x80, 0xfa, 1, 0x02, 0x01, 7, 0, 0, 0, 0x01, 0, 0, 0x80, 4, 1, 1, 0x82, 0xc0, 9, 0);
}

/* Thread 0 got message 0 as its reply; thread 1 timed out on a message; semaphore 0 is periodic. */
static void images_of_woken(void)
{
    make_fresh(&k);
    EXPECT(same(ask(2, 3, 0, 0, 0), 0, 0, 0));
    EXPECT(same(ask(2, 3, 0, 0, 0), 0, 1, 0));
    EXPECT(same(ask(14, 0, 2, 300, 0), 0, 0, 0));
    EXPECT(same(ask(16, 0, 0, 6, 9), 0, 255, 0));
    EXPECT(same(ask(27, 0, 1, 0, 0), 0, 255, 1));
    EXPECT(same(ask(24, 0, 0, 0, 0), 0, 0, 1));
    EXPECT(same(ask(26, 0, 0, 1, 0), 0, 255, 1)); /* 1 still runs */
    EXPECT(same(ask(27, 0, 2, 1, 0), 0, 255, 0));
    EXPECT(same(ask(1, 0, 0, 0, 0), 0, 255, 0));
    IMAGE(1, 7, 0, 1, 0, 0, 0, 0, 0, 0, 12, 0, 0x80, 0x33, 3, 3, 1, 0, 0x81, 0x53, 3, 3, 4, 1,
          14, 0, 0x80, 0x1e, 2, 0, 0x2c, 1, 5, 0, 0, 0, 9, 0, 0, 0, NO_EVENTS, NO_FLAGS, 3, 0, 0x80, 0x04, 1);
}

/* Each field written that can be: 1 + 9 + 2 + 32·14 + 2 + 16·14 + 6 + 8·11 + 4 + 2 + 64·16 bytes. */
static void longest_image(void)
{
    uint8_t image[LONGEST_IMAGE];
    make_fresh(&k);
    for (uint8_t i = 0; i < THREADS; i++) {
        k.threads[i] = (struct thread){ 1, 1, 1, WAITS_MESSAGE, 1, 1, MET, 0, 63 };
        k.time_queue.place[k.time_queue.length++] = i;
    }
    for (int i = 0; i < SEMAPHORES; i++)
        k.semaphores[i] = (struct semaphore){ 1, 1, 1, 1, 1 };
    for (int i = 0; i < EVENTS; i++)
        k.events[i] = (struct event){ MODE_ALL, 1, 1 };
    for (uint8_t i = 0; i < MESSAGES; i++) {
        k.messages[i] = (struct message){ 1, 31, 31, 1, 1, 1 };
        k.channels[31][14].place[k.channels[31][14].length++] = i;
    }
    EXPECT(keeps_rules(&k) && write_image(image, &k) == 1810 && reads_back());
}

/* ---- bytes that are no image ---- */

static void refused_frames(void)
{
    READ(1, RUNS(255), EMPTY, EMPTY, NO_EVENTS, NO_FLAGS, EMPTY);
    REFUSED(0, RUNS(255), EMPTY, EMPTY, NO_EVENTS, NO_FLAGS, EMPTY);
    REFUSED(2, RUNS(255), EMPTY, EMPTY, NO_EVENTS, NO_FLAGS, EMPTY); /* another edition */
    REFUSED(1, RUNS(255), EMPTY, EMPTY, NO_EVENTS, NO_FLAGS, EMPTY, 0); /* bytes behind */
    REFUSED(1, RUNS(255), EMPTY, EMPTY, NO_EVENTS, NO_FLAGS, EMPTY, EMPTY);
    REFUSED(1, RUNS(255), EMPTY, EMPTY, NO_EVENTS, NO_FLAGS, 0);
    REFUSED(1, RUNS(255), EMPTY, EMPTY, NO_EVENTS, NO_FLAGS);
    REFUSED(1, RUNS(255), EMPTY, EMPTY, NO_EVENTS, EMPTY, EMPTY);
    REFUSED(1, RUNS(255), EMPTY, EMPTY, NO_EVENTS, 1, 0, 0, EMPTY);
    REFUSED(1, RUNS(255), EMPTY, EMPTY, NO_EVENTS, 3, 0, 0, 0, 0, EMPTY);
    REFUSED(1, RUNS(255), EMPTY, EMPTY, EMPTY, NO_FLAGS, EMPTY);
    REFUSED(1, 6, 0, 0, 0, 0, 0, 0, 255, EMPTY, EMPTY, NO_EVENTS, NO_FLAGS, EMPTY);
    REFUSED(1, 8, 0, 0, 0, 0, 0, 0, 0, 255, 0, EMPTY, EMPTY, NO_EVENTS, NO_FLAGS, EMPTY);
    REFUSED(1, RUNS(255), EMPTY, EMPTY, NO_EVENTS, NO_FLAGS, 1, 0); /* a length one too large */
    REFUSED(1, RUNS(255), EMPTY, 1, 0, NO_EVENTS, NO_FLAGS, EMPTY);
    REFUSED(1, RUNS(255), 255, 255, EMPTY, NO_EVENTS, NO_FLAGS, EMPTY);
    REFUSED(1);
    EXPECT(is_refused((const uint8_t[]){ 1 }, 0)); /* no bytes */
}

/* Two threads of priority 5, and what is wrong with their section. */
#define THREADS_ARE(runner, ...) 1, RUNS(runner), __VA_ARGS__, EMPTY, NO_EVENTS, NO_FLAGS, EMPTY

static void refused_threads(void)
{
    READ(THREADS_ARE(0, 9, 0, 0x80, 0x03, 5, 5, 0x81, 0x43, 5, 5, 1));
    REFUSED(THREADS_ARE(0, 10, 0, 0x80, 0x03, 5, 5, 0x81, 0x43, 5, 5, 1));       /* one too large */
    REFUSED(THREADS_ARE(0, 8, 0, 0x80, 0x03, 5, 5, 0x81, 0x43, 5, 5, 1));
    REFUSED(THREADS_ARE(0, 9, 0, 0x81, 0x43, 5, 5, 1, 0x80, 0x03, 5, 5));        /* out of order */
    REFUSED(THREADS_ARE(0, 9, 0, 0x80, 0x03, 5, 5, 0x80, 0x43, 5, 5, 1));        /* twice the same id */
    REFUSED(THREADS_ARE(0, 10, 0, 0x80, 0x43, 5, 5, 0, 0x81, 0x43, 5, 5, 1));    /* a place that is predicted */
    REFUSED(THREADS_ARE(0, 10, 0, 0x80, 0x23, 5, 5, 255, 0x81, 0x43, 5, 5, 1));  /* a reply */
    REFUSED(THREADS_ARE(0, 10, 0, 0xc0, 1, 0x03, 5, 5, 0x81, 0x43, 5, 5, 1));    /* a code */
    REFUSED(THREADS_ARE(0, 8, 0, 0x80, 0x03, 5, 5, 0x81, 0x03, 5, 5));           /* both first */
    REFUSED(THREADS_ARE(0, 9, 0, 0x80, 0x03, 5, 5, 0x81, 0x43, 5, 5, 2));        /* a gap */
    REFUSED(THREADS_ARE(0, 9, 0, 0x80, 0x03, 5, 5, 0x81, 0x43, 5, 5, 64));
    REFUSED(THREADS_ARE(0, 9, 0, 0x80, 0x03, 5, 5, 0x81, 0x43, 5, 5, 255));      /* no place */
    REFUSED(THREADS_ARE(0, 9, 0, 0x80, 0x03, 6, 6, 0x81, 0x43, 5, 5, 1));        /* 6 before 5 */
    READ(THREADS_ARE(1, 9, 0, 0x80, 0x43, 6, 6, 1, 0x81, 0x03, 5, 5));
    REFUSED(THREADS_ARE(1, 9, 0, 0x80, 0x03, 5, 5, 0x81, 0x43, 5, 5, 1));        /* not the first one runs */
    REFUSED(THREADS_ARE(0, 9, 0, 0x80, 0x03, 5, 5, 0x81, 0x43, 5, 31, 1));       /* no such priority */
    REFUSED(THREADS_ARE(0, 9, 0, 0x80, 0x03, 5, 5, 0x81, 0x43, 255, 5, 1));
    REFUSED(THREADS_ARE(255, 1, 0, 0));
    REFUSED(THREADS_ARE(0, 4, 0, 0xa0, 0x03, 5, 5));                             /* thread 32 */
    READ(THREADS_ARE(31, 4, 0, 0x9f, 0x03, 5, 5));
    READ(THREADS_ARE(0, 5, 0, 0x80, 0x13, 5, 5, 5));
    REFUSED(THREADS_ARE(0, 5, 0, 0x80, 0x13, 5, 5, 6));                          /* no such wake reason */
    READ(THREADS_ARE(0, 5, 0, 0x80, 0x23, 5, 5, 63));
    REFUSED(THREADS_ARE(0, 5, 0, 0x80, 0x23, 5, 5, 64));                         /* no such message */
    REFUSED(THREADS_ARE(255, 5, 0, 0xc0, 0, 0x03, 5, 5));                        /* no such code */
    REFUSED(THREADS_ARE(255, 5, 0, 0xc0, 7, 0x03, 5, 5));
    REFUSED(THREADS_ARE(255, 2, 0, 0xc0, 2));                                    /* fields that aren't there */
    REFUSED(THREADS_ARE(255, 1, 0, 0xc0));
}

/* Conditions that need a place in the time queue or what they wait for. */
static void refused_waiters(void)
{
    READ(THREADS_ARE(255, 9, 0, 0xc0, 2, 0x0b, 5, 5, 1, 0, 0, 0));
    REFUSED(THREADS_ARE(255, 10, 0, 0xc0, 2, 0x4b, 5, 5, 1, 0, 0, 0, 0));        /* asleep, and in a list */
    REFUSED(THREADS_ARE(255, 10, 0, 0xc0, 2, 0x8b, 5, 5, 1, 0, 0, 0, 255));      /* not in the time queue */
    REFUSED(THREADS_ARE(255, 5, 0, 0xc0, 2, 0x03, 5, 5));                        /* no ticks left */
    REFUSED(THREADS_ARE(255, 19, 0, 0xc0, 2, 0x0b, 5, 5, 2, 0, 0, 0, 0xc1, 2, 0x8b, 5, 5, 1, 0, 0, 0, 1)); /* 2 ticks before 1 */
    READ(THREADS_ARE(255, 7, 0, 0xc0, 5, 0x07, 5, 5, 0xff, 0x7f));
    REFUSED(THREADS_ARE(255, 7, 0, 0xc0, 5, 0x07, 5, 5, 0, 0x80));               /* no such channel */
    REFUSED(THREADS_ARE(255, 5, 0, 0xc0, 5, 0x03, 5, 5));
    READ(THREADS_ARE(255, 6, 0, 0xc0, 4, 0x07, 5, 5, 7));
    REFUSED(THREADS_ARE(255, 6, 0, 0xc0, 4, 0x07, 5, 5, 8));                     /* no such event */
    REFUSED(THREADS_ARE(255, 6, 0, 0xc0, 3, 0x07, 5, 5, 16));
    REFUSED(THREADS_ARE(255, 6, 0, 0xc0, 6, 0x07, 5, 5, 255));
    REFUSED(THREADS_ARE(255, 5, 0, 0xc0, 3, 0x03, 5, 5));                        /* not live */
    REFUSED(THREADS_ARE(255, 5, 0, 0xc0, 6, 0x03, 5, 5));
    READ(1, RUNS(255), 5, 0, 0xc0, 6, 0x03, 5, 5, EMPTY, NO_EVENTS, 2, 0, 1, 0, EMPTY);
    REFUSED(1, RUNS(255), 5, 0, 0xc0, 3, 0x03, 5, 5, 6, 0, 0x80, 0x06, 1, 0, 1, 0, NO_EVENTS, NO_FLAGS, EMPTY); /* a count */
    REFUSED(1, RUNS(255), 5, 0, 0xc0, 4, 0x03, 5, 5, EMPTY, 10, 0, 0, 0, 0, 0, 0x80, 0x02, 1, 0, 0, 0, NO_FLAGS, EMPTY); /* TRUE */
}

static void refused_objects(void)
{
    READ(1, RUNS(255), EMPTY, 8, 0, 0x80, 0x04, 1, 0, 0x8f, 0x04, 1, 0, NO_EVENTS, NO_FLAGS, EMPTY);
    REFUSED(1, RUNS(255), EMPTY, 8, 0, 0x8f, 0x04, 1, 0, 0x80, 0x04, 1, 0, NO_EVENTS, NO_FLAGS, EMPTY);
    REFUSED(1, RUNS(255), EMPTY, 4, 0, 0x90, 0x04, 1, 0, NO_EVENTS, NO_FLAGS, EMPTY);       /* semaphore 16 */
    REFUSED(1, RUNS(255), EMPTY, 5, 0, 0x80, 0x05, 1, 1, 0, NO_EVENTS, NO_FLAGS, EMPTY);    /* live, as predicted */
    REFUSED(1, RUNS(255), EMPTY, 5, 0, 0x80, 0x05, 2, 1, 0, NO_EVENTS, NO_FLAGS, EMPTY);
    REFUSED(1, RUNS(255), EMPTY, 3, 0, 0x80, 0x01, 0, NO_EVENTS, NO_FLAGS, EMPTY);          /* one that isn't live */
    REFUSED(1, RUNS(255), EMPTY, 5, 0, 0xc0, 1, 0x04, 1, 0, NO_EVENTS, NO_FLAGS, EMPTY);    /* a code */
    REFUSED(1, RUNS(255), EMPTY, 4, 0, 0x80, 0x24, 1, 0, NO_EVENTS, NO_FLAGS, EMPTY);       /* a sixth field */
    REFUSED(1, RUNS(255), EMPTY, 1, 0, 0, NO_EVENTS, NO_FLAGS, EMPTY);                      /* maximum 0 */
    READ(1, RUNS(255), EMPTY, EMPTY, 7, 0, 0, 0, 0, 0, 0x87, 0x01, 0, NO_FLAGS, EMPTY);
    REFUSED(1, RUNS(255), EMPTY, EMPTY, 7, 0, 0, 0, 0, 0, 0x88, 0x01, 0, NO_FLAGS, EMPTY);  /* event 8 */
    REFUSED(1, RUNS(255), EMPTY, EMPTY, 7, 0, 0, 0, 0, 0, 0x87, 0x01, 1, NO_FLAGS, EMPTY);  /* the fresh one */
    REFUSED(1, RUNS(255), EMPTY, EMPTY, 7, 0, 0, 0, 0, 0, 0x87, 0x01, 2, NO_FLAGS, EMPTY);
    REFUSED(1, RUNS(255), EMPTY, EMPTY, 5, 0, 0, 0, 0, 0, 0, NO_FLAGS, EMPTY);
    REFUSED(1, RUNS(255), EMPTY, EMPTY, 6, 0, 0, 0, 0, 0, 0x80, 0, NO_FLAGS, EMPTY);        /* no flag set */
    REFUSED(1, RUNS(255), EMPTY, EMPTY, 3, 0, 0, 0, 0, NO_FLAGS, EMPTY);
    READ(1, RUNS(255), EMPTY, EMPTY, 4, 0, 0xff, 0xff, 0xff, 0xff, 2, 0, 0xff, 0xff, EMPTY);
}

/* Thread 0 runs; the messages are its own where no owner is written. */
#define MESSAGES_ARE(...) 1, RUNS(0), 4, 0, 0x80, 0x03, 5, 5, EMPTY, NO_EVENTS, NO_FLAGS, __VA_ARGS__

static void refused_messages(void)
{
    READ(MESSAGES_ARE(2, 0, 0, 63));
    REFUSED(MESSAGES_ARE(2, 0, 63, 0));
    REFUSED(MESSAGES_ARE(2, 0, 0, 0));
    REFUSED(MESSAGES_ARE(1, 0, 64));                                      /* a code */
    READ(MESSAGES_ARE(8, 0, 0x80, 0xc0, 15, 1, 0x81, 0xc0, 2, 0));        /* channel 15 behind 2 */
    REFUSED(MESSAGES_ARE(8, 0, 0x80, 0xc0, 15, 0, 0x81, 0xc0, 2, 1));
    REFUSED(MESSAGES_ARE(8, 0, 0x80, 0xc0, 15, 0, 0x81, 0xc0, 2, 0));     /* both first */
    REFUSED(MESSAGES_ARE(8, 0, 0x80, 0xc0, 15, 2, 0x81, 0xc0, 2, 0));     /* a gap */
    REFUSED(MESSAGES_ARE(4, 0, 0x80, 0xc0, 16, 0));                       /* no such channel */
    REFUSED(MESSAGES_ARE(4, 0, 0x80, 0xc0, 255, 0));
    REFUSED(MESSAGES_ARE(3, 0, 0x80, 0x80, 0));                           /* a place without a channel */
    REFUSED(MESSAGES_ARE(3, 0, 0x80, 0x40, 1));                           /* a channel without a place */
    REFUSED(MESSAGES_ARE(3, 0, 0x80, 0x02, 1));                           /* the owner isn't live */
    REFUSED(MESSAGES_ARE(3, 0, 0x80, 0x02, 32));
    REFUSED(MESSAGES_ARE(5, 0, 0x80, 0xc2, 255, 1, 0));
    READ(MESSAGES_ARE(3, 0, 0x80, 0x04, 31));                             /* the sender needn't be */
    REFUSED(MESSAGES_ARE(3, 0, 0x80, 0x04, 32));
    REFUSED(MESSAGES_ARE(3, 0, 0x80, 0x01, 1));
    REFUSED(MESSAGES_ARE(3, 0, 0x80, 0x01, 0));
    REFUSED(1, RUNS(255), 7, 0, 0xc0, 5, 0x07, 5, 5, 1, 0, EMPTY, NO_EVENTS, NO_FLAGS, 4, 0, 0x80, 0xc0, 1, 0); /* it waits for that */
    READ(1, RUNS(255), 7, 0, 0xc0, 5, 0x07, 5, 5, 1, 0, EMPTY, NO_EVENTS, NO_FLAGS, 4, 0, 0x80, 0xc0, 2, 0);
}

/* One to four bytes of an image at random: whatever is taken is the image of what was read. */
static void changed_images(void)
{
    static struct kernel found;
    uint8_t image[LONGEST_IMAGE], changed[LONGEST_IMAGE], again[LONGEST_IMAGE];
    uint32_t random = 1;
    int refused = 0, wrong = 0;
    memcpy(&k, &base, sizeof k);
    size_t length = write_image(image, &k);
    for (int i = 0; i < TRIALS; i++) {
        memcpy(changed, image, length);
        for (int n = i % 4; n >= 0; n--) {
            random = random * 1664525 + 1013904223;
            changed[(random >> 16) % length] = (uint8_t)(random >> 8);
        }
        if (read_lent(&found, changed, length) != 0)
            refused++;
        else
            wrong += !keeps_rules(&found) || write_image(again, &found) != length || memcmp(again, changed, length) != 0;
    }
    EXPECT(wrong == 0 && refused > TRIALS / 2 && refused < TRIALS);
}

void images(void)
{
    images_of_layout();
    images_of_ready();
    images_of_timed();
    images_of_events();
    images_of_flags();
    images_of_messages();
    images_of_woken();
    longest_image();
    refused_frames();
    refused_threads();
    refused_waiters();
    refused_objects();
    refused_messages();
    changed_images();
}
