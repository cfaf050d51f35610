/* What picolibc leaves to the program: the three streams, the heap and the end. */
#include <stddef.h>
#include <stdint.h>
#include <stdio.h>
#include <stdlib.h>
#include <unistd.h>
#include "calls.h"

/* The output's line so far: one system call a line, not one a byte. Where the program faults it isn't written. */
static char line[128];
static u32 held;

static int flush_output(FILE *file)
{
    (void)file;
    u32 count = held;
    held = 0;
    return count == 0 || write_to(1, line, count) == (int)count ? 0 : EOF;
}

static int put_output(char c, FILE *file)
{
    line[held++] = c;
    if ((c == '\n' || held == sizeof line) && flush_output(file) != 0)
        return EOF;
    return (u8)c;
}

static int put_error(char c, FILE *file)
{
    flush_output(file);
    return write_to(2, &c, 1) == 1 ? (u8)c : EOF;
}

/* One byte at a time, so that a program can talk to a terminal; its question is written first. */
static int get_input(FILE *file)
{
    u8 c;
    flush_output(file);
    return read_input(&c, 1) == 1 ? c : EOF;
}

static FILE input = FDEV_SETUP_STREAM(NULL, get_input, NULL, _FDEV_SETUP_READ);
static FILE output = FDEV_SETUP_STREAM(put_output, NULL, flush_output, _FDEV_SETUP_WRITE);
static FILE errors = FDEV_SETUP_STREAM(put_error, NULL, NULL, _FDEV_SETUP_WRITE);

/* What the library names, which link-time optimization (-flto) would leave out as unused. */
#define FOR_LIBRARY __attribute__((used))

FOR_LIBRARY FILE *const stdin = &input;
FOR_LIBRARY FILE *const stdout = &output;
FOR_LIBRARY FILE *const stderr = &errors;

/* The heap's old end, after it has grown by so many bytes; malloc asks for it here. */
FOR_LIBRARY void *sbrk(ptrdiff_t bytes)
{
    u32 old = set_break(0);
    if (set_break(old + bytes) != old + bytes)
        return (void *)-1;
    return (void *)old;
}

FOR_LIBRARY void _exit(int code)
{
    flush_output(&output);
    for (;;)
        call(CALL_EXIT, code, 0, 0);
}

/* What start.S calls with main's answer: atexit's functions and C++'s destructors are called, then _exit. */
FOR_LIBRARY void finish(int code)
{
    exit(code);
}

/* For abort, and so for assert: a signal to the program itself ends it, with the status that a shell gives. */
FOR_LIBRARY int getpid(void)
{
    return 1;
}

FOR_LIBRARY int kill(int process, int signal)
{
    (void)process;
    _exit(128 + signal);
}

/* C++ names by it whose destructors are to be called. */
void *__dso_handle;
