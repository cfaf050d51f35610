/* How the programs of this folder tell what they computed: a line of a name and eight hexadecimal digits. */
#ifndef RESULT_H
#define RESULT_H

#include "calls.h"

static inline void write_result(const char *name, u32 value)
{
    char line[32];
    u32 length = 0;
    while (length < 20 && name[length] != 0) {
        line[length] = name[length];
        length++;
    }
    line[length++] = ' ';
    for (int shift = 28; shift >= 0; shift -= 4)
        line[length++] = "0123456789abcdef"[value >> shift & 15];
    line[length++] = '\n';
    write_to(1, line, length);
}

/* The next number of a series that looks random: Numerical Recipes' generator, without its low bits. */
static inline u32 next_random(u32 *state)
{
    *state = *state * 1664525u + 1013904223u;
    return *state >> 8;
}

#endif
