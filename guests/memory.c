/* What the compiler calls to clear and copy, for programs without a C library. */
#include "calls.h"

void *memset(void *to, int value, u32 count);
void *memcpy(void *to, const void *from, u32 count);
void *memmove(void *to, const void *from, u32 count);
int memcmp(const void *left, const void *right, u32 count);

/* A loop here is not to become a call of the function that it is in. */
#pragma GCC optimize("no-tree-loop-distribute-patterns")

void *memset(void *to, int value, u32 count)
{
    for (u8 *at = to; count > 0; count--)
        *at++ = (u8)value;
    return to;
}

void *memcpy(void *to, const void *from, u32 count)
{
    const u8 *source = from;
    for (u8 *at = to; count > 0; count--)
        *at++ = *source++;
    return to;
}

void *memmove(void *to, const void *from, u32 count)
{
    if (to <= from)
        return memcpy(to, from, count);
    for (const u8 *source = from; count > 0; count--)
        ((u8 *)to)[count - 1] = source[count - 1];
    return to;
}

int memcmp(const void *left, const void *right, u32 count)
{
    const u8 *a = left, *b = right;
    for (; count > 0; a++, b++, count--)
        if (*a != *b)
            return *a - *b;
    return 0;
}
