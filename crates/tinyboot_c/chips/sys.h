/* A program without a C library, under an emulator's user mode: it reads, writes and ends by Linux's own calls. */
#ifndef CHIPS_SYS_H
#define CHIPS_SYS_H

#include <stddef.h>
#include <stdint.h>

/* So many bytes read; 0 or less at the end. */
long sys_read(int from, void *to, size_t most);
void sys_write(int to, const void *from, size_t n);
void sys_exit(int status);

/* Calls a function on another stack, whose top this is (a multiple of 16). */
void on_stack(void (*function)(void), void *top);

/* Where the program begins. */
void begin(void);

#endif
