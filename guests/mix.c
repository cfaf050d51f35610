/* A larger computation: matrix products, a table of words, and queens on a board, for as many
   rounds as the input's number says (400 where it is empty). Writes a sum for each of the three.
   Status 0, or 2 where the input is no number. */
#include "calls.h"

enum { SIDE = 32, SLOTS = 1024, WORDS = 512, LONGEST = 12, BOARD = 8, ROUNDS = 400 };

static u32 left[SIDE][SIDE], right[SIDE][SIDE], product[SIDE][SIDE];
static char table[SLOTS][LONGEST];
static u32 counts[SLOTS];
static u32 random_state;

static u32 random_number(void)
{
    random_state = random_state * 1664525u + 1013904223u;
    return random_state >> 8;
}

/* The product of two matrices modulo 2^32; the sum of its diagonal. */
static u32 matrix_round(u32 round)
{
    u32 trace = 0;
    for (u32 i = 0; i < SIDE; i++)
        for (u32 k = 0; k < SIDE; k++) {
            left[i][k] = i * 31 + k + round;
            right[i][k] = (i ^ k) * 17 - round;
        }
    for (u32 i = 0; i < SIDE; i++) {
        for (u32 k = 0; k < SIDE; k++) {
            u32 sum = 0;
            for (u32 j = 0; j < SIDE; j++)
                sum += left[i][j] * right[j][k];
            product[i][k] = sum;
        }
        trace += product[i][i];
    }
    return trace;
}

/* A word of two to five letter pairs, of a small alphabet so that words come again. */
static void make_word(char *word)
{
    static const char pairs[16][2] = {"ba", "ke", "lo", "mi", "nu", "pa", "re", "so",
                                      "ti", "va", "du", "fe", "go", "hi", "ja", "zu"};
    u32 length = 2 + random_number() % 4;
    for (u32 i = 0; i < length; i++) {
        const char *pair = pairs[random_number() % 16];
        word[2 * i] = pair[0];
        word[2 * i + 1] = pair[1];
    }
    word[2 * length] = 0;
}

/* The 32-bit FNV-1a hash of a word. */
static u32 hash_of(const char *word)
{
    u32 hash = 2166136261u;
    while (*word != 0)
        hash = (hash ^ (u8)*word++) * 16777619u;
    return hash;
}

static int is_same(const char *a, const char *b)
{
    while (*a == *b && *a != 0) {
        a++;
        b++;
    }
    return *a == *b;
}

/* Counts a word in the table, which has more slots than words; its count. */
static u32 count_word(const char *word)
{
    u32 slot = hash_of(word) % SLOTS;
    while (counts[slot] != 0 && !is_same(table[slot], word))
        slot = (slot + 1) % SLOTS;
    if (counts[slot] == 0)
        for (u32 i = 0; (table[slot][i] = word[i]) != 0; i++)
            ;
    return ++counts[slot];
}

/* How often words came again, among those of this round. */
static u32 words_round(u32 round)
{
    char word[LONGEST];
    u32 again = 0;
    for (u32 slot = 0; slot < SLOTS; slot++)
        counts[slot] = 0;
    random_state = round;
    for (u32 i = 0; i < WORDS; i++) {
        make_word(word);
        again += count_word(word) - 1;
    }
    return again;
}

/* The ways to put queens on the rows from 'row' on; a set bit is a column or diagonal in use. */
static u32 queens(u32 row, u32 columns, u32 rising, u32 falling)
{
    if (row == BOARD)
        return 1;
    u32 ways = 0;
    u32 free = ~(columns | rising | falling) & ((1u << BOARD) - 1);
    while (free != 0) {
        u32 column = free & -free;
        free ^= column;
        ways += queens(row + 1, columns | column, (rising | column) << 1, (falling | column) >> 1);
    }
    return ways;
}

static void say(int to, const char *text)
{
    u32 length = 0;
    while (text[length] != 0)
        length++;
    write_to(to, text, length);
}

static void say_sum(const char *name, u32 sum)
{
    char line[10];
    for (u32 i = 0; i < 8; i++)
        line[i] = "0123456789abcdef"[(sum >> (28 - 4 * i)) & 15];
    line[8] = '\n';
    line[9] = 0;
    say(1, name);
    say(1, line);
}

/* The number that the input has, ROUNDS where it is empty, 0 where it is no number. */
static u32 read_rounds(void)
{
    char text[16];
    int length = read_input(text, sizeof text);
    if (length == 0)
        return ROUNDS;
    if (length == sizeof text)
        return 0;
    if (length > 0 && text[length - 1] == '\n')
        length--;
    u32 number = 0;
    for (int i = 0; i < length; i++) {
        if (text[i] < '0' || text[i] > '9' || number > 99999999)
            return 0;
        number = number * 10 + (text[i] - '0');
    }
    return number;
}

int main(void)
{
    u32 rounds = read_rounds();
    if (rounds == 0) {
        say(2, "mix: the input is to be a number of rounds, 1 to 999999999\n");
        return 2;
    }
    u32 traces = 0, again = 0, ways = 0;
    for (u32 round = 1; round <= rounds; round++) {
        traces = traces * 31 + matrix_round(round);
        again = again * 31 + words_round(round);
        ways += queens(0, 0, 0, 0);
    }
    say_sum("matrix ", traces);
    say_sum("words  ", again);
    say_sum("queens ", ways);
    return 0;
}
