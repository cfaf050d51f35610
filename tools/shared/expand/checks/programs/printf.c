#include <stdio.h>

int main(void)
{
    char name[32];
    int lines = 0;
    while (scanf("%31s", name) == 1)
        printf("%2d %-10s|%5.3s|%08x|%+d|%g\n", ++lines, name, name, lines * 2654435761u, -lines, lines / 7.0);
    fprintf(stderr, "%d words\n", lines);
    return lines;
}
