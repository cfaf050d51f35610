/*
 * What the cache service, the trap vector and the board tell each other.
 *
 * The vector is assembly: it reads struct frame by the offsets below, which are compared with the struct at the end.
 */
#ifndef RUNTIME_H
#define RUNTIME_H

#define FRAME_X(n) (4 * (n))
#define FRAME_TEXT_BASE 128
#define FRAME_TEXT_BYTES 132
#define FRAME_PLACES 136
#define FRAME_MARKS 140
#define FRAME_BEFORE_CACHE 144
#define FRAME_SERVICES 148
#define FRAME_DIRECT 152
#define FRAME_RESUME 156
#define FRAME_TARGET 160
#define FRAME_BLOCK_WORDS 164
#define FRAME_MEMO_FILLED 168
#define FRAME_MEMO_TARGETS 172
#define FRAME_MEMO_PLACES (FRAME_MEMO_TARGETS + 4 * MEMO_ENTRIES)
#define FRAME_BYTES ((FRAME_MEMO_PLACES + 4 * MEMO_ENTRIES + 15) / 16 * 16)

/* The memo of targets of jumps over registers: an entry's number is a target's bits from 2 on. A power of 2. */
#ifndef MEMO_ENTRIES
#define MEMO_ENTRIES 16
#endif

/* A text word's place in one word: its block from this bit on, its offset in the block below. */
#define PLACE_BLOCK_SHIFT 13
#define PLACE_OFFSET_MASK 1023

/* The causes that the standard's table for mcause gives to EBREAK and ECALL (Privileged Architecture, mcause). */
#define CAUSE_BREAKPOINT 3
#define CAUSE_USER_CALL 8
#define CAUSE_MACHINE_CALL 11

/* With a table of places, and one of blocks, the vector itself serves jumps over registers. */
#if !defined(SEARCH) && !defined(SCAN)
#define SERVE_IN_VECTOR
#endif

/* The proved service reads no other version, and has one form. */
#if defined(PROVED) && !defined(VERSION_2)
#define VERSION_2
#endif
#if defined(PROVED) && (defined(SEARCH) || defined(SCAN) || defined(BYTE_TABLE))
#error "-DPROVED goes with none of -DSEARCH, -DSCAN and -DBYTE_TABLE"
#endif

#ifndef __ASSEMBLER__
#include <stdbool.h>
#include <stdint.h>

/* What the start alone needs: on a board with flash it stands there (firmware/swicache.ld). */
#define SLOW __attribute__((section(".text.slow"), noinline))

/* The image of a rewritten file, read where it stands: its numbers and its tables. */
struct image {
    uint32_t block_words;    /* the most words of a block */
    uint32_t blocks;         /* how many blocks there are */
    uint32_t text_words;     /* how many words the program's text has */
    uint32_t base;           /* the address of the first text word */
    const uint32_t *starts;  /* of each block the number of its first text word */
    const uint32_t *ends;    /* of each block the index in `words` at which it ends; NULL in version 1 */
    const uint32_t *offsets; /* of each text word its offset in its block, in words */
    const uint32_t *words;   /* the words of all blocks */
};

/* Why words are no image: number and name of the guide's table, and a word; the number 0 where they are one. */
struct image_error {
    uint32_t number, word;
};
const char *image_error_name(uint32_t number);

/*
 * Reads the image of `count` words that stands at `at`, and checks its numbers and tables, so that the service never
 * leaves its memory. That its blocks are those of the program's text is what `swic check` says.
 */
struct image_error image_read(struct image *image, const uint32_t *at, uint32_t count);

/* Whether the image has the format's second version. Built with VERSION_2 no other is read. */
static inline bool has_ends(const struct image *image)
{
#ifdef VERSION_2
    (void)image;
    return true;
#else
    return image->ends;
#endif
}

/* The index in `words` at which a block begins. */
static inline uint32_t block_begin(const struct image *image, uint32_t block)
{
    if (!has_ends(image))
        return block * image->block_words;
    return block ? image->ends[block - 1] : 0;
}

/* How many words a block has. */
static inline uint32_t block_length(const struct image *image, uint32_t block)
{
    return has_ends(image) ? image->ends[block] - block_begin(image, block) : image->block_words;
}

/* What the table of blocks has for one: the index of its first word in the cache, plus 1; with BYTE_TABLE the number of its
 * slot, plus 1. 0: it has no slot. */
#ifdef BYTE_TABLE
typedef uint8_t block_mark;
#define CACHE_SLOTS_MOST 255u
#else
typedef uint16_t block_mark;
#define CACHE_SLOTS_MOST CACHE_WORDS_MOST
#endif

/* The program's registers while the runtime has control, and what the vector reads of the service. */
struct frame {
    uint32_t x[32]; /* x[0] is 0, and nothing writes it */
    uint32_t text_base;
    uint32_t text_bytes;
    const uint32_t *places;   /* of each text word its place; NULL with SEARCH */
    block_mark *marks;        /* of each block, as above; NULL with SCAN */
    uint32_t before_cache;    /* the address of the cache's first word, minus 4; with BYTE_TABLE minus a slot's bytes */
    uint32_t services;        /* entries of the service, the start not among them */
    uint32_t direct;          /* the handler to which interrupts lead where it stands; 0: they go to board_trap */
    uint32_t resume;          /* while it runs: where the program goes on */
    uint32_t target;          /* the vector's own */
    uint32_t block_words;     /* of a slot */
    uint32_t memo_filled;     /* not 0 where an entry was filled since the memo was emptied */
    uint32_t memo_targets[MEMO_ENTRIES]; /* text addresses, and */
    uint32_t memo_places[MEMO_ENTRIES];  /* where they stand in the cache */
};

/* The one frame. It stands in trap.S, at the upper end of the runtime's stack. */
extern struct frame frame;

struct counts {
    uint32_t services, misses, evictions, links, unlinks, copied; /* copied: in words */
    uint32_t refused;                                             /* links that the bound refused */
};

/* A slot of the cache: the block in it, the first of the exits that are linked into it (index + 1; 0: none), and how
 * many they are. */
struct slot {
    uint32_t block;
    uint16_t first_link;
    uint16_t links;
};

/* The memory that the service takes for its tables. */
struct service_memory {
    struct slot *slots;       /* one for each slot */
    block_mark *marks;        /* one for each block; NULL with SCAN */
    const uint32_t *places;   /* one for each text word, by service_fill_places; may be slow; NULL with SEARCH */
};

/* Makes the table of places, where it doesn't stand in flash already. */
void service_fill_places(const struct image *image, uint32_t *places);

/* No bound on the links into a slot. */
#define LINKS_ANY 0xffffu

/* The most words that all slots may have together: their indices, plus 1, are kept in 16 bits. */
#define CACHE_WORDS_MOST 65535u

/*
 * Starts the service: no block stands in the cache, of `slots` slots of image->block_words words each, together at most
 * CACHE_WORDS_MOST, and CACHE_SLOTS_MOST slots. The cache has to be readable, writable and executable in machine mode. At most `links_most` exits,
 * from 1 to LINKS_ANY, are linked into one slot: all of them are undone in the service in which its block leaves.
 */
void service_start(const struct image *image, const struct service_memory *memory, uint32_t *cache, uint32_t slots,
                   uint32_t links_most);

/* The address in the cache at which the text address `target` stands, its block copied where it has to be; 0 where it
 * is none. */
uint32_t service_enter(uint32_t target);

/* The text address of the instruction whose rendering has the word at `pc`, an address in the cache's filled slots. */
uint32_t service_origin(uint32_t pc);

/*
 * The text address at which a program goes on that was interrupted before the word at `pc`. Behind a branch that has
 * been decided, or a call that has written its register, it is not the address of their instruction.
 */
uint32_t service_resume(uint32_t pc);

/*
 * Puts a word that the processor executes by itself in place of the exit at `pc`, which stands for a word of the text
 * that isn't one of the 59, until the block leaves. At the block's end the exit stays, since nothing stands behind it.
 */
void service_replace(uint32_t pc, uint32_t word);

/* Leaves the exit at `pc`, which stands for such a word, and puts the word itself behind it, where the vector finds it:
 * CSRRS or CSRRC of mstatus by a register, with rd = x0. At the block's end nothing is changed. */
void service_mark(uint32_t pc, uint32_t word);

/* Whether an address is one of the cache. */
bool service_holds(uint32_t address);

struct counts service_counts(void);

/* Called by the vector: serves a trap at `pc`, and answers where to go on. */
uint32_t service_trap(struct frame *registers, uint32_t pc, uint32_t cause);

/* The same for a jump over a register to `target`, of whose registers the frame has ra alone, and all where rd is another. */
uint32_t service_jump(struct frame *registers, uint32_t pc, uint32_t target);

/* The same for an EBREAK with an address behind it that is a multiple of 4: that to which the exit leads. */
uint32_t service_exit(uint32_t pc, uint32_t target);

/* The same with PROVED, where the proved service has answered no address (chip.c). */
uint32_t service_refused(uint32_t pc, uint32_t answer);

/* In trap.S: where mtvec has to lead, and the way into the program, by mepc and the frame. */
void trap_vector(void);
_Noreturn void trap_resume(void);

/* What ends a program. TRAP: the text word at the address traps by itself, as EBREAK or as none of the instructions. */
enum fault { FAULT_FETCH_MISALIGNED, FAULT_FETCH_ACCESS, FAULT_TRAP, FAULT_LOAD_ACCESS, FAULT_STORE_ACCESS };

/* The front's: serves calls, interrupts and all else that isn't an exit, and answers where to go on. */
uint32_t board_trap(struct frame *registers, uint32_t pc, uint32_t cause);

/* The front's: the exit at `pc` stands for the text word at `address`, which is none of the 59 instructions or EBREAK.
 * All registers are in the frame. Answers where to go on. */
uint32_t board_word(struct frame *registers, uint32_t pc, uint32_t address);

/* The front's: the program's instruction at the text address `pc` did this. Ends the program, or answers where to go
 * on. */
uint32_t board_fault(enum fault fault, uint32_t pc, uint32_t address);

/* The front's: called within a service each time that POLL_LINKS links into an evicted block were undone. Leaves the
 * cache as it is. */
void board_poll(void);
#define POLL_LINKS 8u

#endif
#endif
