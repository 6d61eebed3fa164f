/* What the unit tests share: a state to work on, one to start from, and what is expected of them. */
#ifndef UNIT_H
#define UNIT_H

#include "notes.h"

extern struct kernel base, k;

void expect(int holds, const char *what, const char *file, int line);
struct answer ask(uint8_t kind, uint8_t a, uint16_t b, uint32_t c, uint32_t d);
int same(struct answer x, int number, int value, int runner);
int gives_14(void);
int notes_as(const uint8_t *sections, size_t n, uint8_t kind, uint8_t a, uint16_t b, uint32_t c, uint32_t d);

/* The tests of unit_flags.c and unit_images.c. */
void flags(void);
void images(void);
/* The state's image gives it back. */
int reads_back(void);

#define EXPECT(condition) expect(condition, #condition, __FILE__, __LINE__)
#define BREAKS(...) do { memcpy(&k, &base, sizeof k); __VA_ARGS__; \
    expect(!keeps_rules(&k) && gives_14(), "should break: " #__VA_ARGS__, __FILE__, __LINE__); } while (0)
#define KEEPS(...) do { memcpy(&k, &base, sizeof k); __VA_ARGS__; \
    expect(keeps_rules(&k) && reads_back(), "should keep: " #__VA_ARGS__, __FILE__, __LINE__); } while (0)
#define COUNTS(t, s, m, f, ...) do { memcpy(&k, &base, sizeof k); EXPECT((__VA_ARGS__).number == 0); \
    struct counts n = count_differences(&base, &k); \
    expect(n.T == t && n.S == s && n.M == m && n.F == f, "counts of " #__VA_ARGS__, __FILE__, __LINE__); } while (0)

#define EMPTY 0, 0
/* The call's note has just these sections, and leads back. */
#define NOTES(kind, a, b, c, d, ...) expect( \
    notes_as((uint8_t[]){ __VA_ARGS__ }, sizeof (uint8_t[]){ __VA_ARGS__ }, kind, a, b, c, d), \
    "note of " #kind ": " #__VA_ARGS__, __FILE__, __LINE__)

#endif
