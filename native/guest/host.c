/* The host's files, by semihosting (Semihosting for AArch32 and AArch64, its operations). */
#include "board.h"

enum operation { SYS_OPEN = 1, SYS_CLOSE = 2, SYS_WRITE = 5, SYS_READ = 6, SYS_EXIT_EXTENDED = 0x20 };
enum mode { MODE_READ = 0, MODE_WRITE = 4, MODE_WRITE_BINARY = 5, MODE_APPEND = 8 };

#define APPLICATION_EXIT 0x20026u

extern uint32_t semihost(enum operation operation, const void *parameters);

static uint32_t handles[4];

static uint32_t length_of(const char *text)
{
    uint32_t length = 0;
    while (text[length])
        length++;
    return length;
}

static uint32_t open(const char *name, enum mode mode)
{
    uint32_t parameters[] = {(uint32_t)name, mode, length_of(name)};
    return semihost(SYS_OPEN, parameters);
}

/* The name ":tt" is the console: by its mode the input, the output or the error output. */
void host_open(void)
{
    handles[STREAM_IN] = open(":tt", MODE_READ);
    handles[STREAM_OUT] = open(":tt", MODE_WRITE);
    handles[STREAM_ERR] = open(":tt", MODE_APPEND);
}

static uint32_t read_some(uint8_t *to, uint32_t count)
{
    uint32_t parameters[] = {handles[STREAM_IN], (uint32_t)to, count};
    return count - semihost(SYS_READ, parameters);
}

uint32_t host_read(void *to, uint32_t count)
{
    static bool has_ended;
    uint32_t taken = 0;
    while (taken < count && !has_ended) {
        uint32_t more = read_some((uint8_t *)to + taken, count - taken);
        has_ended = more == 0;
        taken += more;
    }
    return taken;
}

/* Whether all bytes were written: the host may take a part of them, and where it takes none the output is closed or full. */
static bool write_all(enum stream stream, const void *from, uint32_t count)
{
    uint32_t left = count;
    while (left) {
        uint32_t parameters[] = {handles[stream], (uint32_t)from + (count - left), left};
        uint32_t now = semihost(SYS_WRITE, parameters);
        if (now >= left)
            return false;
        left = now;
    }
    return true;
}

void host_write(enum stream stream, const void *from, uint32_t count)
{
    if (!write_all(stream, from, count))
        refuse(STATUS_DEVICE, "sink fault");
}

void host_dump(const char *name, const void *from, uint32_t count)
{
    handles[STREAM_FILE] = open(name, MODE_WRITE_BINARY);
    host_write(STREAM_FILE, from, count);
    semihost(SYS_CLOSE, &handles[STREAM_FILE]);
}

/* Where a line to the error output can't be written, the status that is due stays. */
static void put(enum stream stream, const void *from, uint32_t count)
{
    if (stream == STREAM_ERR)
        (void)write_all(stream, from, count);
    else
        host_write(stream, from, count);
}

void put_text(enum stream stream, const char *text)
{
    put(stream, text, length_of(text));
}

void put_hex(enum stream stream, uint32_t value)
{
    char digits[8];
    for (uint32_t k = 0; k < 8; k++)
        digits[k] = "0123456789abcdef"[value >> (28 - 4 * k) & 15];
    put(stream, digits, 8);
}

void put_decimal(enum stream stream, uint32_t value)
{
    char digits[10];
    uint32_t first = 10;
    do {
        digits[--first] = (char)('0' + value % 10);
        value /= 10;
    } while (value);
    put(stream, digits + first, 10 - first);
}

void host_exit(uint32_t status)
{
    uint32_t parameters[] = {APPLICATION_EXIT, status};
    for (;;)
        semihost(SYS_EXIT_EXTENDED, parameters);
}

void refuse(enum status status, const char *why)
{
    put_text(STREAM_ERR, why);
    put_text(STREAM_ERR, "\n");
    host_exit(status);
}
