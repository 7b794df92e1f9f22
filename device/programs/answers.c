/* The same list of answers on every target. All eight functions are asked of generated scripts, of their rolls, good, damaged and cut, and of lines and
 * places. Every number handed back, every block and every lent byte goes into a digest (FNV-1a of 64 bits), by value, so that nothing of the target
 * shows in it. Each part that is lent for writing stands between guard bytes, and those that a call changed are counted. No expression asks chance
 * twice: compilers differ in which they do first. */
#include "programs.h"

#include <stddef.h>

#define GUARDED 0xC3u
#define NUMBERS 30u

/* A part that is lent: so many bytes in the middle of an area. */
struct part {
    uint8_t *bytes;
    uint32_t length;
};

static uint8_t block_area[GUARD + SHIFTS + 64 + GUARD];

static uint64_t digest;
static uint32_t calls, accepted, guards_changed, counts[NUMBERS + 1];

/* What is asked about, and by which the parts differ from script to script. */
static const uint8_t *script;
static uint32_t script_length, shift;
static uint8_t held; /* what each lent byte holds before a call */

/* The digest. */

#define EMPTY_DIGEST 0xCBF29CE484222325ull

static void digest_byte(uint8_t byte)
{
    digest = (digest ^ byte) * 0x100000001B3ull;
}

static void digest_bytes(const uint8_t *bytes, uint32_t length)
{
    uint32_t i;
    for (i = 0; i < length; i++)
        digest_byte(bytes[i]);
}

static void digest_number(uint32_t value)
{
    digest_byte((uint8_t)value);
    digest_byte((uint8_t)(value >> 8));
    digest_byte((uint8_t)(value >> 16));
    digest_byte((uint8_t)(value >> 24));
}

static void digest_numbers(const uint32_t *numbers, uint32_t count)
{
    uint32_t i;
    for (i = 0; i < count; i++)
        digest_number(numbers[i]);
}

/* Notes the number that a call handed back. */
static uint32_t note(uint32_t number)
{
    calls++;
    counts[number < NUMBERS ? number : NUMBERS]++;
    digest_number(number);
    return number;
}

/* Lending. */

static struct part lend(uint8_t *area, uint32_t length)
{
    struct part part;
    part.bytes = area + GUARD + shift;
    part.length = length;
    fill(part.bytes - GUARD, GUARD, GUARDED);
    fill(part.bytes, length, held);
    fill(part.bytes + length, GUARD, GUARDED);
    return part;
}

static void count_changed(const uint8_t *guard)
{
    uint32_t i;
    for (i = 0; i < GUARD; i++)
        guards_changed += guard[i] != GUARDED;
}

static void take_back(struct part part)
{
    count_changed(part.bytes - GUARD);
    digest_bytes(part.bytes, part.length);
    count_changed(part.bytes + part.length);
}

/* So many numbers are lent, and the guard stands right behind them. */
static uint32_t *lend_index(uint32_t count)
{
    uint32_t *index = index_area + GUARD / 4;
    uint32_t i;
    fill((uint8_t *)index_area, GUARD, GUARDED);
    for (i = 0; i < count; i++)
        index[i] = held * 0x01010101u;
    fill((uint8_t *)(index + count), GUARD, GUARDED);
    return index;
}

static void take_index_back(uint32_t count)
{
    const uint32_t *index = index_area + GUARD / 4;
    count_changed((const uint8_t *)index_area);
    digest_numbers(index, count);
    count_changed((const uint8_t *)(index + count));
}

/* Another length for a block than the right one, mostly a shorter one; a few are right. */
static uint32_t other_length(void)
{
    return below(42);
}

/* Measuring. */

static uint32_t measure(uint32_t block_length)
{
    struct part block = lend(block_area, block_length);
    uint32_t number = note(ergo_measure(script, script_length, block.bytes, block_length));
    take_back(block);
    return number;
}

/* How many bytes the records need: 0 for a script that is refused. */
static uint32_t measure_all(void)
{
    uint32_t need;
    if (below(8) == 0)
        measure(other_length());
    accepted += measure(ERGO_MEASURE_BYTES) == ERGO_ACCEPTED;
    need = four(block_area + GUARD + shift + ERGO_ANSWER_AT_RECORD_BYTES);
    return need;
}

/* Tokenizing. */

typedef uint32_t tokenizer(const uint8_t *script, uint64_t n, uint8_t *records, uint64_t m, uint8_t *answer, uint64_t k);

static uint32_t tokenize(tokenizer *function, uint32_t lent, uint32_t block_length)
{
    struct part records = lend(record_area, lent), block = lend(block_area, block_length);
    uint32_t number = note(function(script, script_length, lent == 0 ? NULL : records.bytes, lent, block.bytes, block_length));
    take_back(records);
    take_back(block);
    return number;
}

/* A length that is enough: a few bytes more than the need, or now and then as many as any such script may need. */
static uint32_t enough(uint32_t need)
{
    uint32_t more = need + below(40);
    if (below(16) == 0)
        more = (uint32_t)ERGO_RECORD_BOUND(script_length);
    if (more > RECORD_ROOM)
        more = RECORD_ROOM;
    return more;
}

/* The last of these calls writes just the records, if the script is accepted. */
static uint32_t tokenize_all(tokenizer *function, uint32_t need)
{
    tokenize(function, 0, ERGO_ANSWER_BYTES);
    tokenize(function, need == 0 ? below(20) : below(need), ERGO_ANSWER_BYTES);
    tokenize(function, enough(need), ERGO_ANSWER_BYTES);
    if (below(8) == 0)
        tokenize(function, need, other_length());
    return tokenize(function, need, ERGO_ANSWER_BYTES);
}

/* Texts. */

static void ask_text(uint32_t start, uint32_t end)
{
    note(ergo_token_text(script, script_length, start, end));
}

static void ask_texts(void)
{
    uint32_t start = below(script_length + 2), end = below(script_length + 3);
    ask_text(0, script_length);
    ask_text(start, end);
    ask_text(start, start + below(4));
    ask_text(start, chance());
}

/* Rolls. The records of the last call that wrote some are the roll; reading leaves them as they are. */

static uint32_t read_roll(const uint8_t *roll, uint32_t length, uint32_t block_length)
{
    struct part block = lend(block_area, block_length);
    uint32_t number = note(ergo_read_roll(length == 0 ? NULL : roll, length, block.bytes, block_length));
    take_back(block);
    return number;
}

static uint32_t read_record(const uint8_t *roll, uint32_t length, uint32_t at, uint32_t previous, uint32_t block_length)
{
    struct part block = lend(block_area, block_length);
    uint32_t number = note(ergo_read_record(length == 0 ? NULL : roll, length, at, previous, block.bytes, block_length));
    take_back(block);
    return number;
}

/* Reads record by record, so many at most. */
static void step(const uint8_t *roll, uint32_t length, uint32_t steps)
{
    const uint8_t *block = block_area + GUARD + shift;
    uint32_t at = 0, previous = 0, kind = 0;
    while (steps-- > 0 && kind != ERGO_EOF && read_record(roll, length, at, previous, ERGO_STEP_BYTES) == ERGO_ACCEPTED) {
        kind = four(block + ERGO_STEP_AT_KIND);
        previous = four(block + ERGO_STEP_AT_END);
        at = four(block + ERGO_STEP_AT_NEXT);
    }
}

static void read_whole(const uint8_t *roll, uint32_t length)
{
    read_roll(roll, length, ERGO_ANSWER_BYTES);
    step(roll, length, 16);
}

/* The place of a record by chance, found by the lengths of those before it. */
static uint32_t some_record(const uint8_t *roll, uint32_t length)
{
    uint32_t at = 0, next = 0, records = below(24);
    while (records-- > 0 && next < length) {
        at = next;
        next += roll[at];
    }
    return at;
}

/* Reads the roll with one byte of one record changed, in its head or among its values. */
static void read_damaged(uint8_t *roll, uint32_t length)
{
    uint32_t at = below(2) == 0 ? some_record(roll, length) : below(length), more = below(ERGO_RECORD_HEAD);
    uint8_t *damaged = roll + (at + more < length ? at + more : at);
    uint8_t was = *damaged;
    *damaged = below(2) == 0 ? (uint8_t)below(48) : (uint8_t)(was ^ 1u << below(8));
    read_whole(roll, length);
    *damaged = was;
}

/* Reads a record at any place, behind any end. */
static void read_anywhere(const uint8_t *roll, uint32_t length)
{
    uint32_t at = below(length + 2), shorter = below(32), previous = chance() >> shorter;
    read_record(roll, length, at, previous, ERGO_STEP_BYTES);
}

static void ask_rolls(uint32_t length)
{
    uint8_t *roll = record_area + GUARD + shift;
    read_whole(roll, length);
    read_damaged(roll, length);
    read_damaged(roll, length);
    read_whole(roll, below(length));
    read_roll(roll, length + 1 + below(GUARD - 1), ERGO_ANSWER_BYTES); /* the guard bytes behind it are taken for records */
    read_anywhere(roll, length);
    read_record(roll, length, some_record(roll, length), 0, ERGO_STEP_BYTES);
    if (below(8) == 0) {
        read_roll(roll, length, other_length());
        read_record(roll, length, 0, 0, other_length());
    }
}

/* Lines and places. */

static uint32_t index_lines(uint32_t lent, uint32_t block_length)
{
    uint32_t *index = lend_index(lent);
    struct part block = lend(block_area, block_length);
    uint32_t number = note(ergo_index_lines(script, script_length, lent == 0 ? NULL : index, lent, block.bytes, block_length));
    take_index_back(lent);
    take_back(block);
    return number;
}

static void line_column(uint32_t lent, uint32_t place, uint32_t block_length)
{
    struct part block = lend(block_area, block_length);
    note(ergo_line_column(script, script_length, index_area + GUARD / 4, lent, place, block.bytes, block_length));
    take_back(block);
}

/* More numbers than there are lines, of which none is one too many for the script. */
static uint32_t enough_numbers(uint32_t lines)
{
    uint32_t more = lines + below(4);
    if (below(16) == 0 || more > ERGO_INDEX_BOUND(script_length))
        more = (uint32_t)ERGO_INDEX_BOUND(script_length);
    return more;
}

static void ask_places(uint32_t lent)
{
    uint32_t turn;
    line_column(lent, script_length, ERGO_ANSWER_BYTES);
    for (turn = 0; turn < 3; turn++)
        line_column(lent, below(script_length + 3), ERGO_ANSWER_BYTES);
}

/* Numbers that are no line starts: by chance, or the right ones moved. */
static void spoil_index(uint32_t count)
{
    uint32_t *index = index_area + GUARD / 4;
    uint32_t kind = below(3), i;
    for (i = 0; i < count; i++)
        index[i] = kind == 0 ? chance() : kind == 1 ? below(script_length + 1) : index[i] + below(9) - 4;
}

static void ask_lines(void)
{
    uint32_t lines, lent, fewer;
    index_lines(0, ERGO_ANSWER_BYTES);
    lines = four(block_area + GUARD + shift + ERGO_ANSWER_AT_LINES);
    index_lines(below(lines + 1), ERGO_ANSWER_BYTES);
    if (below(8) == 0)
        index_lines(lines, other_length());
    index_lines(lines, ERGO_ANSWER_BYTES);
    lent = enough_numbers(lines);
    index_lines(lent, ERGO_ANSWER_BYTES);
    ask_places(lent);
    fewer = below(lines + 1);
    line_column(fewer, below(script_length + 1), ERGO_ANSWER_BYTES);
    line_column(lent, chance(), ERGO_ANSWER_BYTES);
    if (below(8) == 0)
        line_column(lent, 0, other_length());
    spoil_index(lent);
    ask_places(lent);
}

/* One script. */

static void ask_all(uint32_t number)
{
    uint32_t need;
    shift = number % SHIFTS;
    held = number % 2 == 0 ? 0xA5 : 0x5A;
    need = measure_all();
    tokenize_all(ergo_tokenize_contact, need);
    if (tokenize_all(ergo_tokenize, need) == ERGO_ACCEPTED)
        ask_rolls(need);
    ask_texts();
    ask_lines();
}

static void ask_generated(uint32_t number)
{
    script_length = make_script(number);
    script = script_length == 0 ? NULL : script_bytes();
    ask_all(number);
}

/* A contact with just as many bytes or tokens as it may have, and with one more; no buffer is lent where there may be too little memory for it. */
static void ask_limits(void)
{
    uint32_t turn;
    for (turn = 0; turn < 4; turn++) {
        script = turn < 2 ? LONG_CONTACT : MANY_TOKENS;
        script_length = turn == 0 ? ERGO_CONTACT_BYTES : turn == 1 ? ERGO_CONTACT_BYTES + 1 : ERGO_CONTACT_TOKENS - 2 + turn - 1;
        measure(ERGO_MEASURE_BYTES);
        tokenize(ergo_tokenize_contact, 0, ERGO_ANSWER_BYTES);
        tokenize(ergo_tokenize_contact, RECORD_ROOM < ERGO_CONTACT_RECORDS ? RECORD_ROOM : ERGO_CONTACT_RECORDS, ERGO_ANSWER_BYTES);
        tokenize(ergo_tokenize, 0, ERGO_ANSWER_BYTES);
        ask_text(0, script_length);
        index_lines(1, ERGO_ANSWER_BYTES);
        line_column(1, script_length, ERGO_ANSWER_BYTES);
    }
}

/* What is printed. */

static void put_digest(uint32_t first, uint64_t scripts)
{
    put("scripts ");
    put_number(first);
    put(" on: ");
    put_digits(scripts);
    put(", answers ");
    put_digits(digest);
    put("\n");
}

/* So many scripts, and two digests: of the scripts and of the answers. The first shows whether the same was asked. */
static void ask_some(uint32_t first, uint32_t end)
{
    uint64_t scripts = EMPTY_DIGEST, answers = EMPTY_DIGEST;
    uint32_t number;
    for (number = first; number < end; number++) {
        digest = answers;
        ask_generated(number);
        answers = digest;
        digest = scripts;
        digest_bytes(script_bytes(), script_length);
        scripts = digest;
    }
    digest = answers;
    put_digest(first, scripts);
}

static void put_counts(void)
{
    uint32_t number;
    for (number = 0; number <= NUMBERS; number++) {
        put(number < NUMBERS ? "number " : "a number of ");
        put_number(number);
        put(number < NUMBERS ? ": " : " or more: ");
        put_number(counts[number]);
        put("\n");
    }
}

void run_answers(void)
{
    uint32_t first;
    digest = EMPTY_DIGEST;
    ask_limits();
    put("contacts at their limits: answers ");
    put_digits(digest);
    put("\n");
    for (first = 0; first < SCRIPTS; first += 1000)
        ask_some(first, first + 1000 < SCRIPTS ? first + 1000 : SCRIPTS);
    put_number(SCRIPTS);
    put(" scripts, ");
    put_number(accepted);
    put(" accepted; ");
    put_number(calls);
    put(" calls; ");
    put_number(guards_changed);
    put(" guard bytes changed\n");
    put_counts();
}
