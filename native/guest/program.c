/* The rewritten file, as it stands in memory: the checks without which reading it would go astray, and its segments. */
#include <stddef.h>
#include "board.h"

#define PT_LOAD 1u
#define PT_IMAGE 0x6c434953u /* a program header of this type has the image */
#define HEADERS_MOST 64u
#define SEQUENCE_WORDS 16u /* the most instructions of a constrained LR/SC loop, by the standard */

struct elf_header {
    uint8_t magic[4], class, order, version, padding[9];
    uint16_t type, machine;
    uint32_t e_version, entry, headers_at, sections_at, flags;
    uint16_t header_size, program_header_size, header_count, rest[3];
};

struct program_header {
    uint32_t type, offset, address, physical, file_size, memory_size, flags, alignment;
};

_Static_assert(sizeof(struct elf_header) == 52 && sizeof(struct program_header) == 32, "the sizes of ELF32");

static const struct elf_header *header_of(const uint8_t *file)
{
    return (const struct elf_header *)(const void *)file;
}

static const struct program_header *headers_of(const uint8_t *file)
{
    return (const struct program_header *)(const void *)(file + header_of(file)->headers_at);
}

static bool is_good_header(const struct elf_header *h, uint32_t bytes)
{
    return bytes >= sizeof *h && h->magic[0] == 0x7f && h->magic[1] == 'E' && h->magic[2] == 'L' &&
           h->magic[3] == 'F' && h->class == 1 && h->order == 1 && h->type == 2 && h->machine == 243 &&
           h->program_header_size == sizeof(struct program_header) && h->header_count <= HEADERS_MOST + 1 &&
           h->headers_at % 4 == 0 && h->headers_at <= bytes &&
           h->header_count * sizeof(struct program_header) <= bytes - h->headers_at;
}

static bool is_good_segment(const struct program_header *p, uint32_t bytes)
{
    return p->offset <= bytes && p->file_size <= bytes - p->offset && p->file_size <= p->memory_size &&
           p->memory_size - 1 <= 0xffffffff - p->address;
}

static bool is_loaded(const struct program_header *p)
{
    return p->type == PT_LOAD && p->memory_size;
}

static void check_segments(const uint8_t *file, uint32_t bytes)
{
    const struct program_header *headers = headers_of(file);
    for (uint32_t k = 0; k < header_of(file)->header_count; k++)
        if ((is_loaded(&headers[k]) || headers[k].type == PT_IMAGE) && !is_good_segment(&headers[k], bytes))
            refuse(STATUS_ELF, "native: a segment passes the file's end, or that of memory");
}

/* The header of the image; NULL where there is none. */
static const struct program_header *image_header(const uint8_t *file)
{
    const struct program_header *headers = headers_of(file);
    for (uint32_t k = 0; k < header_of(file)->header_count; k++)
        if (headers[k].type == PT_IMAGE)
            return &headers[k];
    return NULL;
}

static _Noreturn void refuse_image(const struct image_error *error)
{
    put_text(STREAM_ERR, "image ");
    put_decimal(STREAM_ERR, error->number);
    put_text(STREAM_ERR, " ");
    put_text(STREAM_ERR, image_error_name(error->number));
    put_text(STREAM_ERR, " ");
    put_decimal(STREAM_ERR, error->word);
    put_text(STREAM_ERR, "\n");
    host_exit(STATUS_IMAGE);
}

static void find_image(struct image *image, const uint8_t *file)
{
    const struct program_header *header = image_header(file);
    if (!header)
        refuse(STATUS_NO_IMAGE, "no image");
    if (header->offset % 4 != 0)
        refuse(STATUS_IMAGE, "native: the image is not aligned");
    struct image_error error =
        image_read(image, (const uint32_t *)(const void *)(file + header->offset), header->file_size / 4);
    if (error.number)
        refuse_image(&error);
}

static uint32_t end_of_segments(const uint8_t *file)
{
    const struct program_header *headers = headers_of(file);
    uint32_t end = 0;
    for (uint32_t k = 0; k < header_of(file)->header_count; k++)
        if (is_loaded(&headers[k]) && headers[k].address + headers[k].memory_size > end)
            end = headers[k].address + headers[k].memory_size;
    return end;
}

/* LR.W, and SC.W (the standard's chapter "A" Extension). */
static bool is_load_reserved(uint32_t word)
{
    return (word & 0xf9f0707f) == 0x1000202f;
}

static bool is_store_conditional(uint32_t word)
{
    return (word & 0xf800707f) == 0x1800202f;
}

/* Whether the block of the LR.W at this text word, whose text words end at `end`, also has its SC.W. */
static bool has_store(uint32_t base, uint32_t word, uint32_t end)
{
    for (uint32_t k = word + 1; k < end && k < word + SEQUENCE_WORDS; k++)
        if (is_store_conditional(memory_word(base + 4 * k)))
            return true;
    return false;
}

static void warn_at(uint32_t address)
{
    put_text(STREAM_ERR, "native: warning: the block of the LR.W at ");
    put_hex(STREAM_ERR, address);
    put_text(STREAM_ERR, " ends before its SC.W, which may fail each time in a small cache: rewrite the program with"
                         " --whole-loops, in blocks that have room for both\n");
}

void program_warn(const struct image *image)
{
    for (uint32_t block = 0; block < image->blocks; block++) {
        uint32_t end = block + 1 < image->blocks ? image->starts[block + 1] : image->text_words;
        for (uint32_t word = image->starts[block]; word < end; word++)
            if (is_load_reserved(memory_word(image->base + 4 * word)) && !has_store(image->base, word, end)) {
                warn_at(image->base + 4 * word);
                return;
            }
    }
}

void program_find(struct program *program, const uint8_t *file, uint32_t bytes)
{
    if (!is_good_header(header_of(file), bytes))
        refuse(STATUS_ELF, "native: no ELF file for RV32, or a damaged one");
    check_segments(file, bytes);
    find_image(&program->image, file);
    program->entry = header_of(file)->entry;
    program->end = end_of_segments(file);
}

bool program_is_for_board(const uint8_t *file)
{
    const struct program_header *headers = headers_of(file);
    for (uint32_t k = 0; k < header_of(file)->header_count; k++)
        if (is_loaded(&headers[k]) && (headers[k].address < PROGRAM || headers[k].address >= PROGRAM_END))
            return false;
    return true;
}

static void load_segment(const uint8_t *from, const struct program_header *segment)
{
    memory_add(segment->address, segment->memory_size, segment->flags);
    for (uint32_t k = 0; k < segment->file_size; k++)
        *memory_at(segment->address + k) = from[k];
}

void program_load(const uint8_t *file)
{
    const struct program_header *headers = headers_of(file);
    for (uint32_t k = 0; k < header_of(file)->header_count; k++)
        if (is_loaded(&headers[k]))
            load_segment(file + headers[k].offset, &headers[k]);
}
