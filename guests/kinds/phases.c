/* Five of the kinds in one program, one behind the other, as a firmware of several modes: build.sh names each one's main by its file. */
extern int checksum(void), filter(void), machine(void), unpacking(void), atomics(void);

int main(void)
{
    static int (*const phases[])(void) = {checksum, filter, machine, unpacking, atomics};
    int failed = 0;
    for (unsigned k = 0; k < sizeof phases / sizeof *phases; k++)
        failed += phases[k]() != 0;
    return failed;
}
