/*
 * A firmware by picolibc's own start code and linker script: printf, malloc, qsort and longjmp; byte code by computed gotos, a scanner
 * by a large switch, an instruction that the trap handler makes, and a variable of the thread.
 */
#include <setjmp.h>
#include <stdint.h>
#include <stdio.h>
#include <stdlib.h>
#include <string.h>

#include "board.h"

volatile uint32_t finished;

static int put(char byte, FILE *file)
{
    (void)file;
    uart_put(byte);
    return (unsigned char)byte;
}

static FILE uart = FDEV_SETUP_STREAM(put, NULL, NULL, _FDEV_SETUP_WRITE);
FILE *const stdin = &uart, *const stdout = &uart, *const stderr = &uart;

static _Thread_local int mistakes = 100;
static jmp_buf wrong;

/* An instruction of the custom space, which the processor lacks: the bits of a0 that are set. */

__asm__(".section .text.trap, \"ax\", @progbits\n"
        ".balign 4\n"
        ".globl on_trap\n"
        "on_trap:\n"
        "    addi sp, sp, -128\n"
        "    .irp n, 1,5,6,7,10,11,12,13,14,15,16,17,28,29,30,31\n"
        "    sw x\\n, 4*\\n(sp)\n"
        "    .endr\n"
        "    csrr a0, mcause\n"
        "    csrr a1, mepc\n"
        "    lw a2, 40(sp)\n"
        "    call make_instruction\n"
        "    sw a0, 40(sp)\n"
        "    csrr a1, mepc\n"
        "    addi a1, a1, 4\n"
        "    csrw mepc, a1\n"
        "    .irp n, 1,5,6,7,10,11,12,13,14,15,16,17,28,29,30,31\n"
        "    lw x\\n, 4*\\n(sp)\n"
        "    .endr\n"
        "    addi sp, sp, 128\n"
        "    mret\n"
        ".text\n");

__attribute__((used)) uint32_t make_instruction(uint32_t cause, const uint32_t *at, uint32_t value);
uint32_t make_instruction(uint32_t cause, const uint32_t *at, uint32_t value)
{
    if (cause != 2 || *at != 0x0000000b)
        return cause;
    uint32_t bits = 0;
    for (; value; value &= value - 1)
        bits++;
    return bits;
}

static __attribute__((noinline)) uint32_t bits_of(uint32_t value)
{
    register uint32_t a0 __asm__("a0") = value;
    __asm__ volatile(".word 0x0000000b" : "+r"(a0));
    return a0;
}

/* Byte code. */

enum { PUSH, ADD, SUBTRACT, MULTIPLY, COPY, SWAP, BRANCH, CALL, RETURN, PRINT, STOP };

static void execute(const int8_t *code)
{
    static const void *const labels[] = {&&push, &&add, &&subtract, &&multiply, &&copy, &&swap, &&branch, &&call, &&back, &&print, &&stop};
    int32_t stack[16], *top = stack;
    const int8_t *calls[8], **last = calls;
    int32_t kept;
#define NEXT goto *labels[(uint8_t)*code++]
    NEXT;
push:
    *top++ = *code++;
    NEXT;
add:
    top--;
    top[-1] += *top;
    NEXT;
subtract:
    top--;
    top[-1] -= *top;
    NEXT;
multiply:
    top--;
    top[-1] *= *top;
    NEXT;
copy:
    *top = top[-1 - *code++];
    top++;
    NEXT;
swap:
    kept = top[-1];
    top[-1] = top[-2];
    top[-2] = kept;
    NEXT;
branch: /* where the top isn't 0, which is dropped */
    code = *--top ? code + 1 + *code : code + 1;
    NEXT;
call:
    *last++ = code + 1;
    code += 1 + *code;
    NEXT;
back:
    code = *--last;
    NEXT;
print:
    printf("%ld ", (long)*--top);
    NEXT;
stop:
    printf("\n");
}

/* From n down: the product, by calls of a routine. */
static const int8_t product[] = {
    PUSH, 10, PUSH, 1,                                             /* n p */
    CALL, 8,                                                       /* n-1 p*n */
    COPY, 1, BRANCH, -6, COPY, 0, PRINT, STOP,                     /* again, or the end */
    COPY, 1, MULTIPLY, SWAP, PUSH, 1, SUBTRACT, SWAP, RETURN,
};

/* A scanner. */

enum state { SPACE, SIGN, DIGITS, POINT, FRACTION, EXPONENT, POWER, NAME, STRING, ESCAPE, COMMENT, OPERATOR, END };

static enum state after(enum state state, char byte)
{
    int is_digit = byte >= '0' && byte <= '9', is_letter = (byte | 32) >= 'a' && (byte | 32) <= 'z';
    switch (state) {
    case SPACE: return is_digit ? DIGITS : is_letter ? NAME : byte == '-' ? SIGN : byte == '"' ? STRING : byte == '#' ? COMMENT : byte == ' ' ? SPACE : byte ? OPERATOR : END;
    case SIGN: return is_digit ? DIGITS : OPERATOR;
    case DIGITS: return is_digit ? DIGITS : byte == '.' ? POINT : byte == 'e' ? EXPONENT : END;
    case POINT: return is_digit ? FRACTION : (longjmp(wrong, 1), END);
    case FRACTION: return is_digit ? FRACTION : byte == 'e' ? EXPONENT : END;
    case EXPONENT: return is_digit || byte == '-' ? POWER : (longjmp(wrong, 2), END);
    case POWER: return is_digit ? POWER : END;
    case NAME: return is_letter || is_digit ? NAME : END;
    case STRING: return byte == '"' ? END : byte == '\\' ? ESCAPE : byte ? STRING : (longjmp(wrong, 3), END);
    case ESCAPE: return byte ? STRING : (longjmp(wrong, 4), END);
    case COMMENT: return byte ? COMMENT : END;
    default: return END;
    }
}

struct token {
    struct token *next;
    char text[12];
};

static int by_text(const void *left, const void *right)
{
    return strcmp((*(struct token *const *)left)->text, (*(struct token *const *)right)->text);
}

static struct token *tokens;
static uint32_t count;

/* Puts the words of a line in front of the list. */
static void split(const char *line)
{
    while (*line) {
        const char *begin = line;
        enum state state = SPACE, next;
        while ((next = after(state, *line)) != END) {
            if (next == SPACE)
                begin = line + 1;
            state = next;
            line++;
        }
        if (state == SPACE)
            return;
        if (state == STRING)
            line++;
        struct token *made = malloc(sizeof *made);
        if (!made)
            return;
        snprintf(made->text, sizeof made->text, "%.*s", (int)(line - begin), begin);
        made->next = tokens;
        tokens = made;
        count++;
    }
}

/* Prints the words of a line, ascending; of one with a mistake those before it. */
static void scan(const char *line)
{
    tokens = NULL;
    count = 0;
    int why = setjmp(wrong);
    if (why) {
        mistakes += why;
        printf("mistake %d ", why);
    } else {
        split(line);
    }
    struct token **all = malloc((count + 1) * sizeof *all), **end = all;
    for (struct token *it = tokens; it; it = it->next)
        *end++ = it;
    qsort(all, count, sizeof *all, by_text);
    for (struct token **it = all; it < end; it++) {
        printf("%s ", (*it)->text);
        free(*it);
    }
    printf("\n");
    free(all);
}

int main(void)
{
    extern char on_trap[];
    __asm__ volatile("csrw mtvec, %0" ::"r"(on_trap));
    uart_start();
    execute(product);
    scan("-12 + width * 3.25e-2 # the end");
    scan("name1 \"a \\\"b\" 7 name0");
    scan("1 2 3.x");
    scan("\"open");
    for (uint32_t k = 1, seed = 1; k < 4; k++, seed = seed * 1103515245 + 12345)
        printf("%lu bits of %08lx, a third %.4f\n", (unsigned long)bits_of(seed), (unsigned long)seed, (double)seed / 3.0);
    printf("mistakes %d\n", mistakes);
    finished = 1;
    return 0;
}
