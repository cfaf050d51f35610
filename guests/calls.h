/* The system calls of swic, which are Linux's of the same numbers. */
#ifndef CALLS_H
#define CALLS_H

typedef unsigned int u32;
typedef unsigned char u8;

enum { CALL_READ = 63, CALL_WRITE = 64, CALL_EXIT = 93, CALL_BRK = 214 };

/* The number stands in a7, the arguments in a0 to a2; the answer comes in a0. */
static inline int call(u32 number, u32 first, u32 second, u32 third)
{
    register u32 a0 asm("a0") = first;
    register u32 a1 asm("a1") = second;
    register u32 a2 asm("a2") = third;
    register u32 a7 asm("a7") = number;
    asm volatile("ecall" : "+r"(a0) : "r"(a1), "r"(a2), "r"(a7) : "memory");
    return (int)a0;
}

/* Bytes taken, 0 at the end of the input, or below 0. */
static inline int read_input(void *buffer, u32 count)
{
    return call(CALL_READ, 0, (u32)buffer, count);
}

/* To: 1 the output, 2 the error output. */
static inline int write_to(int to, const void *buffer, u32 count)
{
    return call(CALL_WRITE, to, (u32)buffer, count);
}

/* The break after the call: 'wanted' where that is possible, else the old one. */
static inline u32 set_break(u32 wanted)
{
    return (u32)call(CALL_BRK, wanted, 0, 0);
}

#endif
