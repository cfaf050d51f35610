#include <stdio.h>
#include <stdlib.h>
#include <string.h>

static int ascending(const void *a, const void *b)
{
    return *(const int *)a - *(const int *)b;
}

static int by_text(const void *a, const void *b)
{
    return strcmp(*(char *const *)a, *(char *const *)b);
}

int main(void)
{
    static int numbers[500];
    const char *words[] = {"stretch", "link", "fold", "arm", "jump", "branch", "word"};
    unsigned seed = 7;
    for (int i = 0; i < 500; i++)
        numbers[i] = (seed = seed * 1103515245 + 12345) >> 17;
    qsort(numbers, 500, sizeof *numbers, ascending);
    qsort(words, 7, sizeof *words, by_text);
    int *found = bsearch(&numbers[123], numbers, 500, sizeof *numbers, ascending);
    printf("%d %d %d %d\n", numbers[0], numbers[250], numbers[499], *found == numbers[123]);
    for (int i = 0; i < 7; i++)
        puts(words[i]);
    return 0;
}
