/* The kit has a C library and no C headers. These few declarations are all that second/, bench/ and tests/ use of it, for
 * x86-64, so that they build with nothing installed; built with another compiler they use that one's own headers. */
#ifndef KIT_STDDEF_H
#define KIT_STDDEF_H
typedef unsigned long size_t;
#define NULL ((void *)0)
#endif
