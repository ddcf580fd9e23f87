/* The kit's clang has no headers of its own: what tinyboot.h asks for. */
#ifndef CHIPS_STDDEF_H
#define CHIPS_STDDEF_H
typedef __SIZE_TYPE__ size_t;
#endif
