/* The program's system calls: those of docs/reference.md, with Linux's numbers. */
#include "board.h"

enum { CALL_READ = 63, CALL_WRITE = 64, CALL_EXIT = 93, CALL_EXIT_GROUP = 94, CALL_BRK = 214 };
enum { BAD_FILE = -9, BAD_ADDRESS = -14, NO_CALL = -38 };
enum { A0 = 10, A1 = 11, A2 = 12, A7 = 17 };

static struct {
    uint32_t heap, heap_bytes, break_now;
    uint32_t text, text_bytes;
} calls;

void calls_start(uint32_t heap, uint32_t heap_bytes, const struct image *image)
{
    calls.heap = heap;
    calls.heap_bytes = heap_bytes;
    calls.break_now = heap;
    calls.text = image->base;
    calls.text_bytes = 4 * image->text_words;
}

uint32_t text_end(void)
{
    return calls.text + calls.text_bytes;
}

bool touches_text(uint32_t address, uint32_t count)
{
    return count && (address - calls.text < calls.text_bytes || calls.text - address < count);
}

static uint32_t read_bytes(uint32_t from, uint32_t address, uint32_t count, uint32_t pc)
{
    if (from != 0)
        return (uint32_t)BAD_FILE;
    if (!memory_allows(address, count, RIGHT_WRITE))
        return (uint32_t)BAD_ADDRESS;
    if (touches_text(address, count))
        stop_at_store(service_origin(pc), address);
    uint32_t taken = 0;
    while (taken < count) {
        uint32_t piece = memory_piece(address + taken, count - taken);
        uint32_t more = host_read(memory_at(address + taken), piece);
        taken += more;
        if (more < piece)
            break;
    }
    return taken;
}

static uint32_t write_bytes(uint32_t to, uint32_t address, uint32_t count)
{
    if (to != 1 && to != 2)
        return (uint32_t)BAD_FILE;
    if (!memory_allows(address, count, RIGHT_READ))
        return (uint32_t)BAD_ADDRESS;
    for (uint32_t done = 0; done < count;) {
        uint32_t piece = memory_piece(address + done, count - done);
        host_write(to == 1 ? STREAM_OUT : STREAM_ERR, memory_at(address + done), piece);
        done += piece;
    }
    return count;
}

static uint32_t move_break(uint32_t address)
{
    if (address - calls.heap <= calls.heap_bytes)
        calls.break_now = address;
    return calls.break_now;
}

void call(uint32_t *x, uint32_t pc)
{
    switch (x[A7]) {
    case CALL_READ:
        x[A0] = read_bytes(x[A0], x[A1], x[A2], pc);
        break;
    case CALL_WRITE:
        x[A0] = write_bytes(x[A0], x[A1], x[A2]);
        break;
    case CALL_EXIT:
    case CALL_EXIT_GROUP:
        end_program(x[A0] & 255);
    case CALL_BRK:
        x[A0] = move_break(x[A0]);
        break;
    default:
        x[A0] = (uint32_t)NO_CALL;
    }
}
