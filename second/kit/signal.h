/* See stddef.h beside this file. */
#ifndef KIT_SIGNAL_H
#define KIT_SIGNAL_H
#define SIGILL 4
#define SIGABRT 6
#define SIGFPE 8
#define SIGSEGV 11
void (*signal(int, void (*)(int)))(int);
#endif
