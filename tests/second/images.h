/* Stored states (docs/LAYOUT.md, document 02 request 2): the image of a state, and the strict reader of images. */
#ifndef IMAGES_H
#define IMAGES_H

#include <stddef.h>

#include "replay.h"

enum { EDITION = 1, LONGEST_IMAGE = 1922, NOT_AN_IMAGE = 16 };

/* The image of a state that keeps the rules. Returns its length. */
size_t write_image(uint8_t image[LONGEST_IMAGE], const struct kernel *k);
/* 0 and the state where these bytes, of any length, are its image; else NOT_AN_IMAGE, and `k` stays. */
int read_image(struct kernel *k, const uint8_t *image, size_t length);

#endif
