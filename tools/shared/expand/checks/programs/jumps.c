#include <setjmp.h>
#include <stdio.h>

static jmp_buf back;

static void deeper(int depth)
{
    volatile int kept[4] = {depth, depth + 1, depth + 2, depth + 3};
    if (depth == 9)
        longjmp(back, depth);
    deeper(depth + 1);
    printf("not here %d\n", kept[0]);
}

int main(void)
{
    volatile int rounds = 0;
    int came = setjmp(back);
    printf("round %d, %d\n", rounds, came);
    if (rounds++ < 3)
        deeper(came == 0 ? 5 : came - 3);
    return came;
}
