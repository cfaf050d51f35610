/* State machines: frames of a serial protocol, a lexer of a small language and a traffic light, by tables of functions. */
#include "result.h"

enum { STEPS = 10000, LONGEST = 32 };

static u32 frames, broken, payload, tokens[6], lights;

/* Frames: 7E, a length of 1 to 15, the payload, and the sum of all behind 7E. */
static u8 held[LONGEST];
static u32 wanted, have, sum;
typedef void State(u8);
static State *frame_state;
static State wait_begin, wait_length, take_payload, take_sum;

static void wait_begin(u8 byte)
{
    if (byte == 0x7E)
        frame_state = wait_length;
}

static void wait_length(u8 byte)
{
    wanted = byte & 15;
    have = 0;
    sum = byte;
    frame_state = wanted == 0 ? wait_begin : take_payload;
}

static void take_payload(u8 byte)
{
    held[have++] = byte;
    sum += byte;
    if (have == wanted)
        frame_state = take_sum;
}

static void take_sum(u8 byte)
{
    if (((sum ^ byte) & 7) == 0) {
        frames++;
        for (u32 i = 0; i < have; i++)
            payload = (payload ^ held[i]) * 16777619u;
    } else {
        broken++;
    }
    frame_state = wait_begin;
}

/* The lexer: names, numbers, strings with escapes, comments, and all else. */
enum lexing { BLANK, NAME, NUMBER, STRING, ESCAPE, COMMENT, LEXINGS };
enum class { LETTER, DIGIT, SPACE, QUOTE, BACKSLASH, HASH, OTHER, CLASSES };

static enum class class_of(u8 c)
{
    switch (c) {
    case 'a' ... 'z': case 'A' ... 'Z': case '_': return LETTER;
    case '0' ... '9': return DIGIT;
    case ' ': case '\n': case '\t': return SPACE;
    case '"': return QUOTE;
    case '\\': return BACKSLASH;
    case '#': return HASH;
    default: return OTHER;
    }
}

static enum lexing ends(enum lexing at, u8 c);
static enum lexing goes_on(enum lexing at, u8 c) { (void)c; return at; }
static enum lexing to_name(enum lexing at, u8 c) { (void)at, (void)c; return NAME; }
static enum lexing to_number(enum lexing at, u8 c) { (void)at, (void)c; return NUMBER; }
static enum lexing to_string(enum lexing at, u8 c) { (void)at, (void)c; return STRING; }
static enum lexing to_escape(enum lexing at, u8 c) { (void)at, (void)c; return ESCAPE; }
static enum lexing to_comment(enum lexing at, u8 c) { (void)at, (void)c; return COMMENT; }

typedef enum lexing Action(enum lexing, u8);
static Action *const lexer[LEXINGS][CLASSES] = {
    [BLANK] = {to_name, to_number, goes_on, to_string, goes_on, to_comment, goes_on},
    [NAME] = {goes_on, goes_on, ends, to_string, ends, to_comment, ends},
    [NUMBER] = {to_name, goes_on, ends, to_string, ends, to_comment, ends},
    [STRING] = {goes_on, goes_on, goes_on, ends, to_escape, goes_on, goes_on},
    [ESCAPE] = {to_string, to_string, to_string, to_string, to_string, to_string, to_string},
    [COMMENT] = {goes_on, goes_on, ends, goes_on, goes_on, goes_on, goes_on},
};

static enum lexing ends(enum lexing at, u8 c)
{
    (void)c;
    tokens[at]++;
    return BLANK;
}

/* The light: how long each phase lasts depends on who waits. */
static const struct {
    u8 next, least, most, shown;
} phases[] = {{1, 20, 60, 0x41}, {2, 4, 4, 0x42}, {3, 3, 3, 0x44}, {4, 15, 40, 0x14}, {5, 4, 4, 0x24}, {0, 3, 3, 0x44}};
static u32 phase, age, waiting;

static void light_step(u8 byte)
{
    waiting += byte < 12;
    age++;
    if (age < phases[phase].least || (age < phases[phase].most && waiting < 3))
        return;
    lights = (lights ^ phases[phase].shown ^ age) * 16777619u;
    phase = phases[phase].next;
    age = waiting = 0;
}

int main(void)
{
    enum lexing lexing = BLANK;
    u32 state = 3;
    frame_state = wait_begin;
    for (u32 step = 0; step < STEPS; step++) {
        u8 byte = (u8)(next_random(&state) >> 4);
        frame_state(byte < 40 ? 0x7E : byte);
        lexing = lexer[lexing][class_of(byte & 127)](lexing, byte);
        light_step(byte);
    }
    write_result("frames", frames);
    write_result("broken", broken);
    write_result("payload", payload);
    for (u32 k = 0; k < sizeof tokens / sizeof *tokens; k++)
        write_result("tokens", tokens[k]);
    write_result("lights", lights);
    return 0;
}
