#include <stdint.h>
#include <stdio.h>

/* Code without relaxation: functions that look at where they stand, and branches over more than 4 KiB once it is stretched. */
__attribute__((aligned(16), noinline)) static int aligned(int x) { return x + 1; }
__attribute__((aligned(64), noinline)) static int more(int x) { return x * 3; }

#define FOUR(x) x x x x
#define MANY(x) FOUR(FOUR(FOUR(FOUR(x))))

__attribute__((noinline)) static unsigned far(unsigned x)
{
    for (int i = 0; i < 3; i++) {
        if (x & 1) {
            MANY(x = x * 5 + (x >> 3);)
        }
        x++;
    }
    return x;
}

int main(void)
{
    int (*volatile functions[])(int) = {aligned, more};
    printf("%u %u\n", (unsigned)(uintptr_t)functions[0] % 16, (unsigned)(uintptr_t)functions[1] % 64);
    printf("%d %u %u\n", functions[0](functions[1](4)), far(1), far(2));
    return 0;
}
