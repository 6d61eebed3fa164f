/* For the kit's clang, which has no headers of its own: what replay.h uses of this one. */
#ifndef BARE_STDDEF_H
#define BARE_STDDEF_H

typedef __SIZE_TYPE__ size_t;

#endif
