#include <stdio.h>

/* A machine of bytes: a table of jumps, and one of labels. */
static int by_switch(const unsigned char *code)
{
    int a = 0, b = 1;
    for (;; code++) {
        switch (*code) {
        case 0: return a;
        case 1: a += b; break;
        case 2: b = a - b; break;
        case 3: a *= 3; break;
        case 4: a ^= b << 4; break;
        case 5: b += 17; break;
        case 6: a = a < 0 ? -a : a; break;
        case 7: printf("a %d\n", a); break;
        case 8: b = ~b; break;
        default: a--;
        }
    }
}

static int by_labels(const unsigned char *code)
{
    static void *const table[] = {&&end, &&add, &&sub, &&triple, &&mix};
    int a = 0, b = 1;
    goto *table[*code];
add: a += b; goto *table[*++code];
sub: b = a - b; goto *table[*++code];
triple: a *= 3; goto *table[*++code];
mix: a ^= b << 4; goto *table[*++code];
end: return a;
}

int main(void)
{
    static const unsigned char code[] = {1, 5, 3, 7, 2, 4, 1, 8, 7, 9, 6, 3, 7, 0};
    static const unsigned char labels[] = {1, 3, 2, 4, 1, 2, 4, 3, 0};
    printf("%d %d\n", by_switch(code), by_labels(labels));
    return 0;
}
