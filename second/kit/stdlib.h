/* See stddef.h beside this file. */
#ifndef KIT_STDLIB_H
#define KIT_STDLIB_H
#include <stddef.h>
void *malloc(size_t);
void free(void *);
void exit(int) __attribute__((noreturn));
unsigned long long strtoull(const char *restrict, char **restrict, int);
void qsort(void *, size_t, size_t, int (*)(const void *, const void *));
#endif
