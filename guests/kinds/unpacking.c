/* Unpacking: a text is packed by LZ77 over a hash of four bytes, then by a Huffman code; both are undone, and the texts compared. */
#include "result.h"

enum { BYTES = 3000, SYMBOLS = 256, NODES = 2 * SYMBOLS, HASHES = 1024, LEAST = 4, MOST = 63 };

static u8 text[BYTES], packed[2 * BYTES], coded[2 * BYTES], decoded[2 * BYTES], again[BYTES + MOST];
static u32 weights[NODES], codes[SYMBOLS];
static int parents[NODES], lefts[NODES], rights[NODES];
static u8 lengths[SYMBOLS];
static int places[HASHES];

static void make_text(void)
{
    static const char *const words[] = {"flash ", "memory ", "wait ", "state ", "block ", "cache ", "of ", "the ", "and ", "a ", "miss", "es ", "hit", "s ", "jump ", "\n"};
    u32 state = 11;
    for (u32 i = 0; i < BYTES;)
        for (const char *word = words[next_random(&state) >> 3 & 15]; *word != 0 && i < BYTES; word++)
            text[i++] = (u8)*word;
}

static u32 hash_at(u32 i)
{
    return (text[i] * 7u ^ text[i + 1] * 61u ^ text[i + 2] * 251u ^ text[i + 3] * 997u) % HASHES;
}

static u32 match_at(int at, u32 i)
{
    u32 length = 0;
    while (i + length < BYTES && length < MOST && text[at + (int)length] == text[i + length])
        length++;
    return length;
}

/* A match is 128 + its length and two bytes of distance; any other byte, below 128, stands for itself. */
static u32 pack(void)
{
    u32 out = 0;
    for (u32 k = 0; k < HASHES; k++)
        places[k] = -1;
    for (u32 i = 0; i < BYTES;) {
        u32 length = 0;
        int at = -1;
        if (i + LEAST <= BYTES) {
            at = places[hash_at(i)];
            places[hash_at(i)] = (int)i;
            length = at >= 0 ? match_at(at, i) : 0;
        }
        if (length >= LEAST) {
            packed[out++] = (u8)(128 + length);
            packed[out++] = (u8)((i - (u32)at) >> 8);
            packed[out++] = (u8)(i - (u32)at);
            i += length;
        } else {
            packed[out++] = text[i++];
        }
    }
    return out;
}

static u32 unpack(const u8 *from, u32 count)
{
    u32 out = 0;
    for (u32 i = 0; i < count;) {
        if (from[i] < 128) {
            again[out++] = from[i++];
            continue;
        }
        u32 length = from[i] - 128u, back = (u32)from[i + 1] << 8 | from[i + 2];
        for (; length > 0 && out < BYTES; length--, out++)
            again[out] = again[out - back];
        i += 3;
    }
    return out;
}

/* Of the nodes that have no parent yet the two of the least weight. */
static int least_of(int count, int beside)
{
    int found = -1;
    for (int k = 0; k < count; k++)
        if (k != beside && parents[k] < 0 && weights[k] > 0 && (found < 0 || weights[k] < weights[found]))
            found = k;
    return found;
}

static int make_tree(u32 count)
{
    int nodes = SYMBOLS;
    for (int k = 0; k < NODES; k++)
        parents[k] = lefts[k] = rights[k] = -1;
    for (u32 i = 0; i < count; i++)
        weights[packed[i]]++;
    for (;;) {
        int a = least_of(nodes, -1), b = least_of(nodes, a);
        if (b < 0)
            return a;
        weights[nodes] = weights[a] + weights[b];
        lefts[nodes] = a;
        rights[nodes] = b;
        parents[a] = parents[b] = nodes++;
    }
}

static void make_codes(void)
{
    for (int symbol = 0; symbol < SYMBOLS; symbol++)
        for (int at = symbol; parents[at] >= 0; at = parents[at])
            codes[symbol] |= (u32)(rights[parents[at]] == at) << lengths[symbol]++;
}

static u32 encode(u32 count)
{
    u32 bits = 0;
    for (u32 i = 0; i < count; i++)
        for (int bit = lengths[packed[i]] - 1; bit >= 0; bit--, bits++)
            coded[bits / 8] |= (u8)((codes[packed[i]] >> bit & 1) << bits % 8);
    return bits;
}

static u32 decode(u32 bits, int root)
{
    u32 out = 0;
    int at = root;
    for (u32 k = 0; k < bits; k++) {
        at = coded[k / 8] >> k % 8 & 1 ? rights[at] : lefts[at];
        if (at < SYMBOLS) {
            decoded[out++] = (u8)at;
            at = root;
        }
    }
    return out;
}

int main(void)
{
    make_text();
    u32 count = pack();
    int root = make_tree(count);
    make_codes();
    u32 bits = encode(count), held = decode(bits, root), wrong = held != count, made = unpack(decoded, held);
    for (u32 i = 0; i < BYTES; i++)
        wrong += made != BYTES || again[i] != text[i];
    write_result("packed", count);
    write_result("bits", bits);
    write_result("wrong", wrong);
    return wrong != 0;
}
