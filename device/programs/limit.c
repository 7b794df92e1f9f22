/* A script of as many bytes as a script may have, and of one more: these need 16 MiB of memory for themselves. No buffer is lent for records. */
#include "programs.h"

#include <stddef.h>

/* 32 bytes, so that the limit cuts none. */
static const char LINE[] = "val x = 7 + \"abc\" // c\n /* d */ ";

#define LINE_BYTES ((uint32_t)(sizeof LINE - 1))

static uint8_t long_script[ERGO_SCRIPT_LIMIT + 1];

static void make(void)
{
    uint32_t i;
    for (i = 0; i < sizeof long_script; i++)
        long_script[i] = (uint8_t)LINE[i % LINE_BYTES];
}

static void put_answer(const char *function, uint32_t number, const uint8_t *block)
{
    put(" ");
    put(function);
    put(" ");
    put_number(number);
    put(" with ");
    put_number(four(block + 8));
    put(" and ");
    put_number(four(block + 12));
}

static void ask(uint32_t length)
{
    uint8_t block[ERGO_MEASURE_BYTES];
    put_number(length);
    put(" bytes:");
    put_answer("measured", ergo_measure(long_script, length, block, ERGO_MEASURE_BYTES), block);
    put_answer("; tokenized", ergo_tokenize(long_script, length, NULL, 0, block, ERGO_ANSWER_BYTES), block);
    put_answer("; as a contact", ergo_tokenize_contact(long_script, length, NULL, 0, block, ERGO_ANSWER_BYTES), block);
    put_answer("; lines", ergo_index_lines(long_script, length, NULL, 0, block, ERGO_ANSWER_BYTES), block);
    put_answer("; place", ergo_line_column(long_script, length, NULL, 0, 0, block, ERGO_ANSWER_BYTES), block);
    put("; text ");
    put_number(ergo_token_text(long_script, length, 0, length));
    put("\n");
}

void run_limit(void)
{
    make();
    ask(ERGO_SCRIPT_LIMIT);
    ask(ERGO_SCRIPT_LIMIT + 1);
}
