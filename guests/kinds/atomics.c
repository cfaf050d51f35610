/* Atomics: two tasks that take turns share a lock, a queue, a stack by compare and swap, and counters by each AMO. */
#include "result.h"

enum { ROUNDS = 1500, QUEUE = 16, NODES = 24 };

static u32 lock, locked, head, tail, queue[QUEUE], taken;
static u32 counters[9], top, links[NODES + 1], popped, failed;

static u32 load_reserved(u32 *at)
{
    u32 value;
    asm volatile("lr.w.aq %0, (%1)" : "=r"(value) : "r"(at) : "memory");
    return value;
}

static u32 store_conditional(u32 *at, u32 value)
{
    u32 fails;
    asm volatile("sc.w.rl %0, %2, (%1)" : "=r"(fails) : "r"(at), "r"(value) : "memory");
    return fails;
}

/* The loop as one piece of assembly, so that LR.W and SC.W stand near each other. */
static u32 compare_and_swap(u32 *at, u32 expected, u32 value)
{
    u32 seen, fails;
    asm volatile("1: lr.w.aq %0, (%2)\n\tbne %0, %3, 2f\n\tsc.w.rl %1, %4, (%2)\n\tbnez %1, 1b\n2:"
                 : "=&r"(seen), "=&r"(fails) : "r"(at), "r"(expected), "r"(value) : "memory");
    return seen;
}

static int try_lock(void)
{
    return __atomic_exchange_n(&lock, 1, __ATOMIC_ACQUIRE) == 0;
}

static void unlock(void)
{
    __atomic_store_n(&lock, 0, __ATOMIC_RELEASE);
}

static void put(u32 value)
{
    u32 at = __atomic_load_n(&tail, __ATOMIC_RELAXED);
    if (at - __atomic_load_n(&head, __ATOMIC_ACQUIRE) == QUEUE)
        return;
    queue[at % QUEUE] = value;
    __atomic_store_n(&tail, at + 1, __ATOMIC_RELEASE);
}

static void take(void)
{
    u32 at = __atomic_load_n(&head, __ATOMIC_RELAXED);
    if (at == __atomic_load_n(&tail, __ATOMIC_ACQUIRE))
        return;
    taken = (taken ^ queue[at % QUEUE]) * 16777619u;
    __atomic_store_n(&head, at + 1, __ATOMIC_RELEASE);
}

static void push(u32 node)
{
    u32 old;
    do {
        old = top;
        links[node] = old;
    } while (compare_and_swap(&top, old, node) != old);
}

static u32 pop(void)
{
    u32 old;
    do {
        old = top;
        if (old == 0)
            return 0;
    } while (compare_and_swap(&top, old, links[old]) != old);
    return old;
}

#define AMO(NAME, INDEX, VALUE) \
    asm volatile("amo" NAME ".w.aqrl zero, %1, (%0)" : : "r"(&counters[INDEX]), "r"(VALUE) : "memory")

static void count(u32 value)
{
    AMO("add", 0, value);
    AMO("xor", 1, value);
    AMO("or", 2, value);
    AMO("and", 3, ~value);
    AMO("min", 4, value - 100);
    AMO("max", 5, value);
    AMO("minu", 6, value + 5);
    AMO("maxu", 7, value);
    AMO("swap", 8, value);
}

int main(void)
{
    u32 state = 5;
    counters[3] = ~0u;
    counters[6] = ~0u;
    for (u32 node = 1; node <= NODES; node++)
        push(node);
    for (u32 round = 0; round < ROUNDS; round++) {
        u32 value = next_random(&state) & 1023;
        if (try_lock()) {
            locked += value;
            unlock();
        }
        put(value);
        if (value & 1)
            take();
        u32 first = pop(), second = pop();
        popped = (popped ^ first ^ second << 8) * 16777619u;
        if (second != 0)
            push(second);
        if (first != 0)
            push(first);
        count(value);
        failed += store_conditional(&locked, load_reserved(&locked) + 1);
    }
    write_result("locked", locked);
    write_result("taken", taken);
    write_result("popped", popped);
    write_result("failed", failed);
    for (u32 k = 0; k < sizeof counters / sizeof *counters; k++)
        write_result("counter", counters[k]);
    return 0;
}
