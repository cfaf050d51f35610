/* An interpreter of a small stack language: it compiles three programs from their text into words, and runs them. */
#include <stdio.h>
#include <stdlib.h>
#include <string.h>

enum { CELLS = 4096, NAMES = 64, DEPTH = 64, VARIABLES = 32 };
enum { PUSH = 32, CALL, RETURN, JUMP, JUMP_ZERO, HALT };

typedef struct {
    char name[16];
    int at;
} Name;

static int code[CELLS], count, stack[DEPTH], returns[DEPTH], variables[VARIABLES], memory[256];
static int *top, *back, opens[DEPTH], open_count, name_count;
static Name names[NAMES];
static const char *source;

/* The primitives take their values from the stack, and leave what they find. */
static void add(void) { top--; top[-1] += top[0]; }
static void subtract(void) { top--; top[-1] -= top[0]; }
static void multiply(void) { top--; top[-1] *= top[0]; }
static void divide(void) { top--; top[-1] = top[0] == 0 ? 0 : top[-1] / top[0]; }
static void modulo(void) { top--; top[-1] = top[0] == 0 ? 0 : top[-1] % top[0]; }
static void both(void) { top--; top[-1] &= top[0]; }
static void either(void) { top--; top[-1] |= top[0]; }
static void differ(void) { top--; top[-1] ^= top[0]; }
static void less(void) { top--; top[-1] = top[-1] < top[0]; }
static void equal(void) { top--; top[-1] = top[-1] == top[0]; }
static void invert(void) { top[-1] = !top[-1]; }
static void duplicate(void) { top[0] = top[-1]; top++; }
static void drop(void) { top--; }
static void swap(void) { int held = top[-1]; top[-1] = top[-2]; top[-2] = held; }
static void over(void) { top[0] = top[-2]; top++; }
static void rotate(void) { int held = top[-3]; top[-3] = top[-2]; top[-2] = top[-1]; top[-1] = held; }
static void load(void) { top[-1] = memory[top[-1] & 255]; }
static void store(void) { top -= 2; memory[top[1] & 255] = top[0]; }
static void read_variable(void) { top[-1] = variables[top[-1] % VARIABLES]; }
static void write_variable(void) { top -= 2; variables[top[1] % VARIABLES] = top[0]; }
static void shift_left(void) { top--; top[-1] = (int)((unsigned)top[-1] << (top[0] & 31)); }
static void print(void) { printf("%d ", *--top); }
static void line(void) { printf("\n"); }

static const struct {
    const char *name;
    void (*does)(void);
} primitives[] = {
    {"+", add}, {"-", subtract}, {"*", multiply}, {"/", divide}, {"%", modulo}, {"&", both}, {"|", either}, {"^", differ},
    {"<", less}, {"=", equal}, {"not", invert}, {"dup", duplicate}, {"drop", drop}, {"swap", swap}, {"over", over},
    {"rot", rotate}, {"@", load}, {"!", store}, {"get", read_variable}, {"set", write_variable}, {"<<", shift_left},
    {".", print}, {"cr", line},
};
enum { PRIMITIVES = sizeof primitives / sizeof *primitives };

static int next_word(char *word)
{
    int length = 0;
    while (*source == ' ')
        source++;
    while (*source != 0 && *source != ' ' && length < 15)
        word[length++] = *source++;
    word[length] = 0;
    return length;
}

static void fail(const char *what, const char *word)
{
    fprintf(stderr, "interpreter: %s %s\n", what, word);
    exit(2);
}

static void emit(int value)
{
    if (count == CELLS)
        fail("too long at", source);
    code[count++] = value;
}

static void emit_pair(int what, int value)
{
    emit(what);
    emit(value);
}

static void define(void)
{
    emit_pair(JUMP, 0);
    opens[open_count++] = count - 1;
    if (name_count == NAMES || next_word(names[name_count].name) == 0)
        fail("no name at", source);
    names[name_count++].at = count;
}

/* if .. else .. then, begin .. while .. repeat, and : name .. ; */
static int compile_control(const char *word)
{
    if (strcmp(word, ":") == 0) {
        define();
    } else if (strcmp(word, ";") == 0) {
        emit(RETURN);
        code[opens[--open_count]] = count;
    } else if (strcmp(word, "if") == 0 || strcmp(word, "while") == 0) {
        emit_pair(JUMP_ZERO, 0);
        opens[open_count++] = count - 1;
    } else if (strcmp(word, "else") == 0) {
        emit_pair(JUMP, 0);
        code[opens[open_count - 1]] = count;
        opens[open_count - 1] = count - 1;
    } else if (strcmp(word, "then") == 0) {
        code[opens[--open_count]] = count;
    } else if (strcmp(word, "begin") == 0) {
        opens[open_count++] = count;
    } else if (strcmp(word, "repeat") == 0) {
        emit_pair(JUMP, opens[open_count - 2]);
        code[opens[open_count - 1]] = count;
        open_count -= 2;
    } else {
        return 0;
    }
    return 1;
}

static int compile_name(const char *word)
{
    for (int k = name_count - 1; k >= 0; k--)
        if (strcmp(word, names[k].name) == 0) {
            emit_pair(CALL, names[k].at);
            return 1;
        }
    for (int k = 0; k < PRIMITIVES; k++)
        if (strcmp(word, primitives[k].name) == 0) {
            emit(k);
            return 1;
        }
    return 0;
}

static void compile(const char *text)
{
    char word[16], *end;
    source = text;
    count = name_count = open_count = 0;
    while (next_word(word) > 0) {
        if (compile_control(word) || compile_name(word))
            continue;
        emit_pair(PUSH, (int)strtol(word, &end, 10));
        if (*end != 0)
            fail("no word", word);
    }
    emit(HALT);
}

static void run(void)
{
    int at = 0;
    top = stack;
    back = returns;
    for (;;) {
        int what = code[at++];
        switch (what) {
        case PUSH: *top++ = code[at++]; break;
        case CALL: *back++ = at + 1; at = code[at]; break;
        case RETURN: at = *--back; break;
        case JUMP: at = code[at]; break;
        case JUMP_ZERO: at = *--top == 0 ? code[at] : at + 1; break;
        case HALT: return;
        default: primitives[what].does();
        }
    }
}

static const char *const programs[] = {
    ": fib dup 2 < if else dup 1 - fib swap 2 - fib + then ; 12 fib . cr",
    ": sieve 2 0 set begin 0 get 200 < while 0 get @ not if 0 get dup . dup + 1 set begin 1 get 200 < while 1 1 get ! "
    "1 get 0 get + 1 set repeat then 0 get 1 + 0 set repeat ; sieve cr",
    ": gcd begin dup while swap over % repeat drop ; 0 2 set 1 0 set begin 0 get 40 < while 1 1 set begin 1 get 25 < while "
    "0 get 1 get gcd 2 get + 2 set 1 get 1 + 1 set repeat 0 get 1 + 0 set repeat 2 get . cr",
};

int main(void)
{
    for (unsigned k = 0; k < sizeof programs / sizeof *programs; k++) {
        compile(programs[k]);
        run();
    }
    return 0;
}
