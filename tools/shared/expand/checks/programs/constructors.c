#include <stdio.h>
#include <stdlib.h>

static int order;

__attribute__((constructor(200))) static void second(void) { printf("second %d\n", ++order); }
__attribute__((constructor(101))) static void first(void) { printf("first %d\n", ++order); }
__attribute__((destructor)) static void last(void) { printf("last %d\n", ++order); }
static void left(void) { printf("left %d\n", ++order); }

int main(void)
{
    atexit(left);
    printf("main %d\n", ++order);
    return 5;
}
