/*
 * What Frama-C's EVA runs of image.c (test/alarms): image_read of up to WORDS_MOST words, all of them any words. They
 * stand at the end of their array, so that an alarm would be a read behind them.
 */
#include <__fc_builtin.h>

#include "../image.c"

#define WORDS_MOST 12u

static uint32_t words[WORDS_MOST];

static uint32_t any(void)
{
    return Frama_C_unsigned_int_interval(0, 0xffffffff);
}

/* The numbers of blocks and text words are each tried apart, as far as the words have room for the tables; else they
 * are any. */
static void read_one(uint32_t count, uint32_t blocks, uint32_t text_words)
{
    struct image image;
    uint32_t *at = words + WORDS_MOST - count;
    for (uint32_t k = 0; k < count; k++)
        at[k] = any();
    if (count > BLOCKS)
        at[BLOCKS] = blocks;
    if (count > TEXT_WORDS)
        at[TEXT_WORDS] = text_words;
    struct image_error error = image_read(&image, at, count);
    image_error_name(error.number);
}

int main(void)
{
    for (uint32_t count = 0; count <= WORDS_MOST; count++)
        for (uint32_t blocks = 0; blocks <= count; blocks++)
            for (uint32_t text_words = 0; text_words <= count; text_words++)
                read_one(count, blocks, text_words);
    for (uint32_t count = 0; count <= WORDS_MOST; count++) {
        read_one(count, any(), Frama_C_unsigned_int_interval(count, 0xffffffff));
        read_one(count, Frama_C_unsigned_int_interval(count, 0xffffffff), any());
    }
    return 0;
}
