/* The table of places: of a guest it is made at the start, and of a firmware by native/pack. chip.c has it by proved code. */
#include "runtime.h"

SLOW void service_fill_places(const struct image *image, uint32_t *places)
{
    uint32_t block = 0;
    for (uint32_t word = 0; word < image->text_words; word++) {
        if (block + 1 < image->blocks && image->starts[block + 1] == word)
            block++;
        places[word] = block << PLACE_BLOCK_SHIFT | image->offsets[word];
    }
}
