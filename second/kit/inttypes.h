/* See stddef.h beside this file. */
#ifndef KIT_INTTYPES_H
#define KIT_INTTYPES_H
#include <stdint.h>
#define PRIu64 "lu"
#define PRIx64 "lx"
#endif
