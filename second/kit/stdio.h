/* See stddef.h beside this file. */
#ifndef KIT_STDIO_H
#define KIT_STDIO_H
#include <stddef.h>
int printf(const char *restrict, ...);
int putchar(int);
int getchar(void);
int puts(const char *);
#endif
