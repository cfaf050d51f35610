/* qemu's board "virt" for the runtime: its memory map, and what its files tell each other. */
#ifndef BOARD_H
#define BOARD_H
#include "../runtime.h"

/* The map. The runtime itself has the first 64 KiB, by link.ld. */
#define PARAMETERS 0x80010000u
#define SERVICE_MEMORY 0x80080000u
#define CACHE 0x80800000u
#define PAGES 0x81000000u /* page tables, and the program's pages */
#define PAGES_END 0x90000000u
#define PROGRAM 0x90000000u /* programs that were linked for the board */
#define PROGRAM_END 0xa0000000u
#define FILE_AT 0xa0000000u /* where `run` puts the rewritten file, unless it stands in flash */
#define PLACES 0xa4000000u  /* the service's table of places: a board's slow memory may hold it */

/* What `run` writes to PARAMETERS. */
struct parameters {
    uint32_t cache_bytes, heap_bytes, stack_bytes, options;
    uint32_t file, file_bytes; /* where the rewritten file stands: FILE_AT, or in flash */
};

enum option { OPTION_PAGES = 1, OPTION_STATS = 2, OPTION_DUMP = 4, OPTION_MACHINE = 8, OPTION_TIMER = 16 };

/* The statuses of swic (docs/reference.md, Results), and two of the runtime's own. */
enum status {
    STATUS_FAULT = 241,
    STATUS_STORE_TEXT = 242,
    STATUS_ELF = 243,
    STATUS_IMAGE = 244,
    STATUS_CACHE = 247,
    STATUS_DEVICE = 249,
    STATUS_NO_IMAGE = 252,
    STATUS_BOARD = 253,  /* the board can't give the program what it asks for */
    STATUS_RUNTIME = 254 /* a trap of the runtime itself, or one that isn't the program's */
};

/* host.c: the host's files, by semihosting. */
enum stream { STREAM_IN, STREAM_OUT, STREAM_ERR, STREAM_FILE };
void host_open(void);
void host_dump(const char *name, const void *from, uint32_t count); /* writes a file in the folder of qemu */
uint32_t host_read(void *to, uint32_t count); /* the bytes read: fewer than `count` at the end of the input */
void host_write(enum stream stream, const void *from, uint32_t count); /* ends the run where the output is closed or full */
void put_text(enum stream stream, const char *text);
void put_hex(enum stream stream, uint32_t value);
void put_decimal(enum stream stream, uint32_t value);
_Noreturn void host_exit(uint32_t status);
_Noreturn void refuse(enum status status, const char *why);

/* memory.c: the program's memory. Rights are those of a program header (PF_X, PF_W, PF_R). */
enum right { RIGHT_EXECUTE = 1, RIGHT_WRITE = 2, RIGHT_READ = 4 };
enum protection { PROTECTION_PAGES, PROTECTION_PMP, PROTECTION_NONE };
void memory_start(enum protection protection, uint32_t cache_bytes);
void memory_add(uint32_t base, uint32_t size, uint32_t rights); /* a region; its bytes are 0 */
void memory_protect(void);                                      /* behind the last region */
bool memory_allows(uint32_t address, uint32_t count, enum right right);
uint8_t *memory_at(uint32_t address);                    /* where a byte of the program stands */
uint32_t memory_piece(uint32_t address, uint32_t count); /* how many of these bytes stand behind each other there */
uint32_t memory_word(uint32_t address);

/* program.c: the rewritten file. */
struct program {
    uint32_t entry, end; /* the end of its highest segment */
    struct image image;
};
void program_find(struct program *program, const uint8_t *file, uint32_t bytes); /* checks it, and reads the image */
bool program_is_for_board(const uint8_t *file);                                  /* linked for the board's RAM? */
void program_load(const uint8_t *file);
void program_warn(const struct image *image); /* behind the load: of an LR.W whose block ends before its SC.W */

/* calls.c: the program's system calls. */
void calls_start(uint32_t heap, uint32_t heap_bytes, const struct image *image);
void call(uint32_t *x, uint32_t pc);
bool touches_text(uint32_t address, uint32_t count);
uint32_t text_end(void);

/* board.c */
void board_start(void);                                      /* called by start.S */
_Noreturn void stop_at_store(uint32_t pc, uint32_t address); /* a store into text */
_Noreturn void end_program(uint32_t status);

#endif
