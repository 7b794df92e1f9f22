/* The three lists of answers that other programs gave: stdin of crates/replay, crates/roll_replay and crates/line_replay. Their formats stand at the
 * head of each src/main.rt. A case agrees when the list holds all of it, and number, block and lent parts afterwards are those that are listed. */
#include "programs.h"

#include <stddef.h>

#define UNTOUCHED 0xA5

/* Of a part of a list the last case may be cut: it is left out then. */
#ifdef PART
#define CUT_DIFFERS 0
#else
#define CUT_DIFFERS 1
#endif

static uint8_t block[ERGO_STEP_BYTES];

/* What is left of the list. Reading past its end gives nothing, and is noted. */
static const uint8_t *at, *list_end;
static unsigned cut;
static uint32_t cases, skipped, differ;

static void begin(const uint8_t *list, const uint8_t *end)
{
    at = list;
    list_end = end;
    cut = 0;
    cases = 0;
    skipped = 0;
    differ = 0;
}

/* The next so many bytes, or NULL where fewer are left. */
static const uint8_t *next_bytes(uint32_t length)
{
    const uint8_t *bytes = at;
    if (cut || (uint32_t)(list_end - at) < length) {
        cut = 1;
        return NULL;
    }
    at += length;
    return bytes;
}

static uint32_t next_number(void)
{
    const uint8_t *bytes = next_bytes(4);
    return bytes == NULL ? 0 : four(bytes);
}

static int same(const uint8_t *left, const uint8_t *right, uint32_t length)
{
    uint32_t i = 0;
    while (i < length && left[i] == right[i])
        i++;
    return i == length;
}

static int untouched(const uint8_t *bytes, uint32_t length)
{
    uint32_t i = 0;
    while (i < length && bytes[i] == UNTOUCHED)
        i++;
    return i == length;
}

/* Whether the number and the block are those listed. */
static int is_listed(uint32_t number, const uint8_t *listed, uint32_t length)
{
    return number == four(listed) && same(block, listed, length) && untouched(block + length, ERGO_STEP_BYTES - length);
}

static void count_case(int agrees)
{
    if (cut && !CUT_DIFFERS)
        return;
    cases++;
    if (cut || !agrees)
        differ++;
}

static void put_counts(const char *list)
{
    put(list);
    put(": ");
    put_number(cases);
    put(" replayed, ");
    put_number(differ);
    put(" differ, ");
    put_number(skipped);
    put(" need more memory\n");
}

/* Scripts. */

static int script_agrees(uint32_t which, const uint8_t *script, uint32_t n, uint32_t m, const uint8_t *listed, const uint8_t *records, uint32_t bytes)
{
    uint32_t number;
    fill(record_area, REPLAY_BYTES, UNTOUCHED);
    fill(block, ERGO_STEP_BYTES, UNTOUCHED);
    if (which == 0)
        number = ergo_tokenize(script, n, record_area, m, block, ERGO_ANSWER_BYTES);
    else
        number = ergo_tokenize_contact(script, n, record_area, m, block, ERGO_ANSWER_BYTES);
    return is_listed(number, listed, ERGO_ANSWER_BYTES) && bytes <= m && same(record_area, records, bytes)
           && untouched(record_area + bytes, REPLAY_BYTES - bytes);
}

static void replay_script(void)
{
    uint32_t n = next_number(), m = next_number(), which = next_number();
    const uint8_t *listed = next_bytes(ERGO_ANSWER_BYTES), *script = next_bytes(n);
    uint32_t bytes = cut || four(listed) != 0 ? 0 : four(listed + ERGO_ANSWER_AT_RECORD_BYTES);
    const uint8_t *records = next_bytes(bytes);
    if (!cut && m > REPLAY_BYTES)
        skipped++;
    else
        count_case(!cut && script_agrees(which, script, n, m, listed, records, bytes));
}

void replay_scripts(const uint8_t *list, const uint8_t *end)
{
    begin(list, end);
    while (!cut && at < list_end)
        replay_script();
    put_counts("scripts");
}

/* Rolls. */

static int roll_agrees(const uint8_t *roll, uint32_t n, const uint8_t *listed)
{
    fill(block, ERGO_STEP_BYTES, UNTOUCHED);
    return is_listed(ergo_read_roll(roll, n, block, ERGO_ANSWER_BYTES), listed, ERGO_ANSWER_BYTES);
}

static int record_agrees(const uint8_t *roll, uint32_t n)
{
    uint32_t offset = next_number(), previous = next_number();
    const uint8_t *listed = next_bytes(ERGO_STEP_BYTES);
    fill(block, ERGO_STEP_BYTES, UNTOUCHED);
    return !cut && is_listed(ergo_read_record(roll, n, offset, previous, block, ERGO_STEP_BYTES), listed, ERGO_STEP_BYTES);
}

static int records_agree(const uint8_t *roll, uint32_t n, uint32_t asked)
{
    int agree = 1;
    while (!cut && asked-- > 0)
        agree &= record_agrees(roll, n);
    return agree;
}

static void replay_roll(void)
{
    uint32_t n = next_number(), asked = next_number();
    const uint8_t *listed = next_bytes(ERGO_ANSWER_BYTES), *roll = next_bytes(n);
    int agrees = !cut && roll_agrees(roll, n, listed);
    agrees &= records_agree(roll, n, asked);
    count_case(agrees);
}

void replay_rolls(const uint8_t *list, const uint8_t *end)
{
    begin(list, end);
    while (!cut && at < list_end)
        replay_roll();
    put_counts("rolls");
}

/* Lines. */

static int index_agrees(const uint8_t *script, uint32_t n, uint32_t m, const uint8_t *listed)
{
    fill(block, ERGO_STEP_BYTES, UNTOUCHED);
    return is_listed(ergo_index_lines(script, n, index_area, m, block, ERGO_ANSWER_BYTES), listed, ERGO_ANSWER_BYTES);
}

static void hold(uint32_t value)
{
    uint32_t i;
    for (i = 0; i < REPLAY_NUMBERS; i++)
        index_area[i] = value;
}

static int numbers_listed(uint32_t count)
{
    uint32_t i;
    int listed = 1;
    for (i = 0; i < count && !cut; i++)
        listed &= index_area[i] == next_number();
    return listed && !cut;
}

static int numbers_hold(uint32_t first, uint32_t value)
{
    uint32_t i = first;
    while (i < REPLAY_NUMBERS && index_area[i] == value)
        i++;
    return i == REPLAY_NUMBERS;
}

static int place_agrees(const uint8_t *script, uint32_t n, uint32_t m)
{
    uint32_t place = next_number();
    const uint8_t *listed = next_bytes(ERGO_ANSWER_BYTES);
    fill(block, ERGO_STEP_BYTES, UNTOUCHED);
    return !cut && is_listed(ergo_line_column(script, n, index_area, m, place, block, ERGO_ANSWER_BYTES), listed, ERGO_ANSWER_BYTES);
}

static int places_agree(const uint8_t *script, uint32_t n, uint32_t m, uint32_t asked)
{
    int agree = 1;
    while (!cut && asked-- > 0)
        agree &= place_agrees(script, n, m);
    return agree;
}

/* Passes over what a case lists behind its script. */
static void skip(uint32_t m, uint32_t asked)
{
    next_bytes(m * 4);
    next_bytes(asked * (4 + ERGO_ANSWER_BYTES));
    if (cut)
        count_case(0);
    else
        skipped++;
}

static void replay_places(void)
{
    uint32_t n = next_number(), m = next_number(), held = next_number(), asked = next_number();
    const uint8_t *listed = next_bytes(ERGO_ANSWER_BYTES), *script = next_bytes(n);
    int agrees;
    if (!cut && m > REPLAY_NUMBERS) {
        skip(m, asked);
        return;
    }
    hold(held);
    agrees = !cut && index_agrees(script, n, m, listed) && numbers_hold(m, held);
    agrees &= numbers_listed(m);
    agrees &= places_agree(script, n, m, asked);
    count_case(agrees);
}

void replay_lines(const uint8_t *list, const uint8_t *end)
{
    begin(list, end);
    while (!cut && at < list_end)
        replay_places();
    put_counts("lines");
}
