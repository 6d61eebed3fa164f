/* For the kit's clang, which has no headers of its own: what replay.h uses of this one. */
#ifndef BARE_STDINT_H
#define BARE_STDINT_H

typedef __UINT8_TYPE__ uint8_t;
typedef __UINT32_TYPE__ uint32_t;

#endif
