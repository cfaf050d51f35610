/*
 * A firmware in C++: tasks and devices by virtual functions and two bases, registered by static constructors, queues by templates,
 * members by pointers, a heap, a vectored timer that raises a software interrupt.
 */
#include <stddef.h>

#include "board.h"

namespace {

auto const clock_low = reinterpret_cast<volatile uint32_t *>(0x0200bff8);
auto const alarm_low = reinterpret_cast<volatile uint32_t *>(0x02004000);
auto const software = reinterpret_cast<volatile uint32_t *>(0x02000000);
constexpr uint32_t ticks_between = 3000; // of 100 ns

void put(const char *text)
{
    while (*text)
        uart_put(*text++);
}

void put(uint32_t number)
{
    if (number >= 10)
        put(number / 10);
    uart_put(static_cast<char>('0' + number % 10));
}

template <typename First, typename... Rest>
void line(First first, Rest... rest)
{
    put(first);
    if constexpr (sizeof...(rest) > 0) {
        put(" ");
        line(rest...);
    } else {
        put("\n");
    }
}

/* While it stands, interrupts are off. */
class Guard {
    uint32_t status;

public:
    Guard() { __asm__ volatile("csrrc %0, mstatus, %1" : "=r"(status) : "r"(8) : "memory"); }
    ~Guard() { __asm__ volatile("csrs mstatus, %0" ::"r"(status & 8) : "memory"); }
    Guard(const Guard &) = delete;
};

template <typename Item, uint32_t places>
class Queue {
    Item items[places];
    volatile uint32_t put_in = 0, taken = 0;

public:
    bool push(const Item &item)
    {
        Guard guard;
        if (put_in - taken == places)
            return false;
        items[put_in++ % places] = item;
        return true;
    }
    bool pop(Item &item)
    {
        Guard guard;
        if (put_in == taken)
            return false;
        item = items[taken++ % places];
        return true;
    }
};

struct Event {
    enum Kind { tick, number, text, last } kind;
    uint32_t value;
};

Queue<Event, 8> events;

class Listener {
public:
    virtual void hear(const Event &event) = 0;
    virtual const char *name() const { return "listener"; }
    virtual ~Listener() = default;
};

class Counted {
    static inline uint32_t alive = 0;

public:
    Counted() { alive++; }
    virtual ~Counted() { alive--; }
    static uint32_t count() { return alive; }
    virtual uint32_t result() const { return 0; }
};

/* All listeners, in a list that constructors make. */
class Listed : public Listener, public Counted {
    static inline Listed *first = nullptr;
    Listed *next;

public:
    Listed() : next(first) { first = this; }
    ~Listed() override
    {
        Listed **at = &first;
        while (*at != this)
            at = &(*at)->next;
        *at = next;
    }
    template <typename Call>
    static void each(Call call)
    {
        for (Listed *it = first; it; it = it->next)
            call(*it);
    }
};

class Sum : public Listed {
    uint32_t sum = 0;

public:
    void hear(const Event &event) override { sum = sum * 31 + event.value + event.kind; }
    const char *name() const override { return "sum"; }
    uint32_t result() const override { return sum; }
};

class Kinds : public Listed {
    using Act = void (Kinds::*)(uint32_t);
    static const Act acts[];
    uint32_t greatest = 0, seen = 0;
    void keep(uint32_t value) { greatest = value > greatest ? value : greatest; }
    void count(uint32_t) { seen++; }
    void forget(uint32_t) { greatest /= 2; }

public:
    void hear(const Event &event) override { (this->*acts[event.kind])(event.value); }
    const char *name() const override { return "kinds"; }
    uint32_t result() const override { return greatest + 1000 * seen; }
};

const Kinds::Act Kinds::acts[] = {&Kinds::count, &Kinds::keep, &Kinds::forget, &Kinds::count};

Sum sum;
Kinds kinds;

/* Bytes from one place upwards; what is freed last is taken again. */
alignas(8) char heap[512];
char *heap_end = heap;
struct Freed {
    Freed *next;
} *freed;

volatile uint32_t ticks;

uint32_t next_number()
{
    static uint32_t seed = *"8" - '0' + 1; // 9, by a constructor of its own kind
    return seed = seed * 1103515245 + 12345;
}

} // namespace

void *operator new(size_t bytes)
{
    if (freed) {
        void *at = freed;
        freed = freed->next;
        return at;
    }
    char *at = heap_end;
    heap_end += (bytes + 31) & ~size_t{31};
    return at;
}

void operator delete(void *at) noexcept
{
    auto *it = static_cast<Freed *>(at);
    it->next = freed;
    freed = it;
}

void operator delete(void *at, size_t) noexcept
{
    operator delete(at);
}

extern "C" {
volatile uint32_t finished;
int __cxa_atexit(void (*)(void *), void *, void *) { return 0; }
void *__dso_handle;
[[noreturn]] void __cxa_pure_virtual()
{
    for (;;)
        ;
}

__attribute__((interrupt)) void timer_handler()
{
    alarm_low[1] = 0xffffffff;
    alarm_low[0] = clock_low[0] + ticks_between;
    alarm_low[1] = 0;
    software[0] = 1;
}

__attribute__((interrupt)) void software_handler()
{
    software[0] = 0;
    ticks = ticks + 1;
}

__attribute__((interrupt)) void exception_handler()
{
    uint32_t epc;
    __asm__ volatile("csrr %0, mepc" : "=r"(epc));
    __asm__ volatile("csrw mepc, %0" ::"r"(epc + 4));
    events.push({Event::text, 77});
}
}

int main()
{
    uart_start();
    alarm_low[1] = 0;
    alarm_low[0] = clock_low[0] + ticks_between;
    __asm__ volatile("csrs mie, %0; csrs mstatus, %1" ::"r"(0x88), "r"(8) : "memory");
    uint32_t drained = 0;
    for (uint32_t round = 0; round < 300; round++) {
        auto kind = static_cast<Event::Kind>(next_number() >> 16 & 3);
        if (round % 50 == 49)
            __asm__ volatile("ecall" ::: "memory");
        while (!events.push({kind, next_number() >> 24})) {
            Event event;
            while (events.pop(event)) {
                drained++;
                Listed::each([&](Listed &it) { it.hear(event); });
            }
        }
        if (round % 100 == 50) {
            Listed *made = new Sum;
            made->hear({Event::number, round});
            Listed::each([](Listed &it) { line(it.name(), it.result(), Counted::count()); });
            delete made;
        }
    }
    uint32_t before = ticks;
    while (ticks - before < 2)
        __asm__ volatile("wfi");
    Listed::each([](Listed &it) { line(it.name(), it.result(), Counted::count()); });
    line("drained", drained, ticks > 2 ? "with ticks" : "without ticks");
    finished = 1;
    return 0;
}
