/* Writes the lines of the input in order of their bytes, and their number to the error output.
   The text and two tables of lines stand in the heap, which brk makes larger as the input comes.
   Status 0, or 1 where the heap is too small. */
#include "calls.h"

struct line {
    const u8 *bytes;
    u32 length;
};

static u32 heap_end; /* the break */

static u32 string_length(const char *text)
{
    u32 length = 0;
    while (text[length] != 0)
        length++;
    return length;
}

static void say(int to, const char *text)
{
    write_to(to, text, string_length(text));
}

static void say_number(int to, u32 number)
{
    char digits[11];
    char *at = digits + sizeof digits;
    *--at = 0;
    do {
        *--at = '0' + number % 10;
        number /= 10;
    } while (number != 0);
    say(to, at);
}

/* More heap: 1 where the break now stands 'bytes' higher. */
static int grow(u32 bytes)
{
    u32 wanted = heap_end + bytes;
    if (set_break(wanted) != wanted)
        return 0;
    heap_end = wanted;
    return 1;
}

/* Reads the whole input to 'text', which is the heap's begin; its length, or -1 without heap. */
static int read_all(u8 *text)
{
    enum { PIECE = 4096 };
    int length = 0;
    for (;;) {
        while (heap_end - (u32)text < (u32)length + PIECE)
            if (!grow(PIECE))
                return -1;
        int count = read_input(text + length, PIECE);
        if (count <= 0)
            return length;
        length += count;
    }
}

static u32 count_lines(const u8 *text, u32 length)
{
    u32 lines = 0;
    for (u32 i = 0; i < length; i++)
        lines += text[i] == '\n';
    return lines + (length > 0 && text[length - 1] != '\n');
}

/* Puts each line of the text, without its newline, into the table. */
static void split(struct line *table, const u8 *text, u32 length)
{
    const u8 *end = text + length;
    while (text != end) {
        const u8 *at = text;
        while (at != end && *at != '\n')
            at++;
        table->bytes = text;
        table->length = at - text;
        table++;
        text = at == end ? at : at + 1;
    }
}

static int is_after(const struct line *a, const struct line *b)
{
    u32 least = a->length < b->length ? a->length : b->length;
    for (u32 i = 0; i < least; i++)
        if (a->bytes[i] != b->bytes[i])
            return a->bytes[i] > b->bytes[i];
    return a->length > b->length;
}

/* Merge sort; 'other' has room for as many lines. Lines that are equal keep their order. */
static void sort(struct line *table, struct line *other, u32 count)
{
    if (count < 2)
        return;
    u32 half = count / 2;
    sort(table, other, half);
    sort(table + half, other, count - half);
    for (u32 i = 0; i < half; i++)
        other[i] = table[i];
    u32 left = 0, right = half, to = 0;
    while (left < half && right < count)
        table[to++] = is_after(&other[left], &table[right]) ? table[right++] : other[left++];
    while (left < half)
        table[to++] = other[left++];
}

static void write_line(const struct line *line)
{
    write_to(1, line->bytes, line->length);
    write_to(1, "\n", 1);
}

int main(void)
{
    heap_end = set_break(0);
    u8 *text = (u8 *)heap_end;
    int length = read_all(text);
    u32 count = length < 0 ? 0 : count_lines(text, length);
    struct line *table = (struct line *)((heap_end + 15) & ~15u);
    if (length < 0 || !grow(2 * count * sizeof *table + 15)) {
        say(2, "sort: the heap is too small\n");
        return 1;
    }
    split(table, text, length);
    sort(table, table + count, count);
    for (u32 i = 0; i < count; i++)
        write_line(&table[i]);
    say_number(2, count);
    say(2, " lines\n");
    return 0;
}
