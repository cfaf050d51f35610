#include <stdint.h>
#include <stdio.h>
#include <unwind.h>

extern char __eh_frame_begin[];
void __register_frame(void *begin);

struct function {
    const char *name;
    uintptr_t begin;
};

static struct function functions[4];

static _Unwind_Reason_Code tell(struct _Unwind_Context *context, void *count)
{
    uintptr_t at = _Unwind_GetIP(context);
    const char *name = "?";
    uintptr_t best = 0;
    for (int i = 0; i < 4; i++)
        if (functions[i].begin <= at && functions[i].begin > best) {
            best = functions[i].begin;
            name = functions[i].name;
        }
    printf("%d %s\n", (*(int *)count)++, name);
    return name[0] == 'm' ? _URC_END_OF_STACK : _URC_NO_REASON;
}

__attribute__((noinline)) static int inner(int x)
{
    volatile char held[200];
    int count = 0;
    held[x] = (char)x;
    _Unwind_Backtrace(tell, &count);
    return count + held[x];
}

/* What is pushed and popped in the middle of a function moves the frame. */
__attribute__((noinline)) static int middle(int a, int b, int c, int d, int e, int f, int g, int h, int i, int j)
{
    int sum = inner(a + b);
    volatile int many[300];
    many[sum] = c + d + e + f + g + h + i + j;
    return many[sum] + inner(c);
}

__attribute__((noinline)) static int outer(int x)
{
    int sum = 0;
    for (int k = 0; k < 2; k++)
        sum += middle(x, k, x + 1, k + 1, 2, 3, 4, 5, 6, 7);
    return sum;
}

int main(void)
{
    functions[0] = (struct function){"inner", (uintptr_t)inner};
    functions[1] = (struct function){"middle", (uintptr_t)middle};
    functions[2] = (struct function){"outer", (uintptr_t)outer};
    functions[3] = (struct function){"main", (uintptr_t)main};
    __register_frame(__eh_frame_begin);
    printf("%d\n", outer(1));
    return 0;
}
