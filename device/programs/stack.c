/* The most stack that a call of each function takes. Below the stack pointer memory is painted, the function is called, and the lowest byte that lost
 * its paint is looked for. A depth is counted from the stack pointer right at the call, so the return address is in it where a call pushes one. */
#include "programs.h"

#include <stddef.h>

#define PAINT 0xC7u
#define NUMBERS 64u
#define BRIEF 128u
#define SHORT 512u

enum function { TOKENIZE, TOKENIZE_SHORT, TOKENIZE_BRIEF, CONTACT, CONTACT_SHORT, CONTACT_BRIEF, MEASURE, TEXT, ROLL, RECORD, INDEX, PLACE, BELOW, FUNCTIONS };

static const char *const NAMES[FUNCTIONS] = {
    "ergo_tokenize", "ergo_tokenize of at most 512 bytes", "ergo_tokenize of at most 128 bytes",
    "ergo_tokenize_contact", "ergo_tokenize_contact of at most 512 bytes", "ergo_tokenize_contact of at most 128 bytes",
    "ergo_measure", "ergo_token_text", "ergo_read_roll", "ergo_read_record", "ergo_index_lines", "ergo_line_column", "what is called below them"};

static uint32_t depths[FUNCTIONS];

/* What is lent. */
static uint8_t block[ERGO_STEP_BYTES];
static const uint8_t *script;
static uint32_t script_length, room, roll_length, place, lent;

#if defined __wasm__
uintptr_t module_stack_pointer(void); /* of the module that is tested: it has a stack of its own in memory, which only it uses */
#define STACK_POINTER(at) (at) = module_stack_pointer()
#elif defined __x86_64__
#define STACK_POINTER(at) __asm__ volatile("mov %%rsp, %0" : "=r"(at))
#elif defined __i386__
#define STACK_POINTER(at) __asm__ volatile("mov %%esp, %0" : "=r"(at))
#elif defined __riscv
#define STACK_POINTER(at) __asm__ volatile("mv %0, sp" : "=r"(at))
#else
#define STACK_POINTER(at) __asm__ volatile("mov %0, sp" : "=r"(at))
#endif

#define APART __attribute__((noinline))
#define INSIDE __attribute__((always_inline)) inline

/* The stack pointer at the last call. Nothing is pushed for arguments behind this: x86's compiler is told to store them into a place kept for that. */
static uintptr_t at_call;

#define NOTE_STACK_POINTER()    \
    do {                        \
        uintptr_t now;          \
        STACK_POINTER(now);     \
        at_call = now;          \
    } while (0)

/* The calls, each in a function of its own. What it hands back is kept, so that the call is not the last thing done, which would be a jump. */

static volatile uint32_t number;

typedef void call(void);

static APART void call_tokenize(void)
{
    NOTE_STACK_POINTER();
    number = ergo_tokenize(script, script_length, record_area, room, block, ERGO_ANSWER_BYTES);
}

static APART void call_contact(void)
{
    NOTE_STACK_POINTER();
    number = ergo_tokenize_contact(script, script_length, record_area, room, block, ERGO_ANSWER_BYTES);
}

static APART void call_measure(void)
{
    NOTE_STACK_POINTER();
    number = ergo_measure(script, script_length, block, ERGO_MEASURE_BYTES);
}

static APART void call_text(void)
{
    NOTE_STACK_POINTER();
    number = ergo_token_text(script, script_length, place, script_length);
}

static APART void call_roll(void)
{
    NOTE_STACK_POINTER();
    number = ergo_read_roll(record_area, roll_length, block, ERGO_ANSWER_BYTES);
}

static APART void call_record(void)
{
    NOTE_STACK_POINTER();
    number = ergo_read_record(record_area, roll_length, place, 0, block, ERGO_STEP_BYTES);
}

static APART void call_index(void)
{
    NOTE_STACK_POINTER();
    number = ergo_index_lines(script, script_length, index_area, lent, block, ERGO_ANSWER_BYTES);
}

static APART void call_place(void)
{
    NOTE_STACK_POINTER();
    number = ergo_line_column(script, script_length, index_area, lent, place, block, ERGO_ANSWER_BYTES);
}

/* What the library calls in its turn: functions of mem.c, and those of the C compiler's own library for numbers that are wider than the processor's. */

void *memset(void *to, int value, size_t n);
void *memcpy(void *to, const void *from, size_t n);
void *memmove(void *to, const void *from, size_t n);

static volatile uint64_t wide = 0x123456789ABCDEFull, divisor = 10;
static volatile uint32_t bits = 36;

static APART void call_memset(void)
{
    NOTE_STACK_POINTER();
    memset(block, 0, ERGO_STEP_BYTES);
    number = 0;
}

static APART void call_memcpy(void)
{
    NOTE_STACK_POINTER();
    memcpy(block, script, 16);
    number = 0;
}

static APART void call_memmove(void)
{
    NOTE_STACK_POINTER();
    memmove(block + 1, block, 16);
    number = 0;
}

static APART void call_divide(void)
{
    uint64_t value = wide, by = divisor;
    NOTE_STACK_POINTER();
    wide = value / by + value % by;
}

static APART void call_multiply(void)
{
    uint64_t value = wide, by = divisor;
    NOTE_STACK_POINTER();
    wide = value * by;
}

static APART void call_shift(void)
{
    uint64_t value = wide;
    uint32_t by = bits;
    NOTE_STACK_POINTER();
    wide = value >> by | value << (by - 30);
}

#if defined __arm__
/* These call memset and memmove, so they go deepest of those in mem.c. */
void __aeabi_memclr8(void *to, size_t n);
void __aeabi_memset8(void *to, size_t n, int value);
void __aeabi_memmove8(void *to, const void *from, size_t n);

static APART void call_aeabi_memclr(void)
{
    NOTE_STACK_POINTER();
    __aeabi_memclr8(block, ERGO_STEP_BYTES);
    number = 0;
}

static APART void call_aeabi_memset(void)
{
    NOTE_STACK_POINTER();
    __aeabi_memset8(block, ERGO_STEP_BYTES, 1);
    number = 0;
}

static APART void call_aeabi_memmove(void)
{
    NOTE_STACK_POINTER();
    __aeabi_memmove8(block + 8, block, 16);
    number = 0;
}
#endif

/* Painting. Both are put inside their caller, so that no frame of theirs lies where they paint. */

static INSIDE void paint(volatile uint8_t *end)
{
    uint32_t left;
    for (left = PAINTED; left > 0; left--)
        end[-(intptr_t)left] = PAINT;
}

/* How far below a place the lowest byte without paint lies. */
static INSIDE uint32_t unpainted(const volatile uint8_t *end)
{
    uint32_t left = PAINTED;
    while (left > 0 && end[-(intptr_t)left] == PAINT)
        left--;
    return left;
}

/* The depth of one call. The lowest byte may lie above the stack pointer at the call, where that took nothing. */
static APART uint32_t deepest(call *of)
{
    uintptr_t here;
    uint32_t all, above;
    STACK_POINTER(here);
    paint((volatile uint8_t *)here);
    of();
    all = unpainted((const volatile uint8_t *)here);
    above = (uint32_t)(here - at_call);
    return all > above ? all - above : 0;
}

static void note(enum function function, call *of)
{
    uint32_t depth = deepest(of);
    if (depth > depths[function])
        depths[function] = depth;
}

static void note_by_length(enum function function, call *of)
{
    note(function, of);
    if (script_length <= SHORT)
        note(function + 1, of);
    if (script_length <= BRIEF)
        note(function + 2, of);
}

/* Asks for one script. */

static void note_records(void)
{
    roll_length = four(block + ERGO_ANSWER_AT_RECORD_BYTES);
    place = 0;
    note(ROLL, call_roll);
    note(RECORD, call_record);
    place = roll_length / 2; /* the middle of a record, mostly */
    note(RECORD, call_record);
    record_area[place] ^= 5;
    note(ROLL, call_roll);
}

static void note_places(void)
{
    lent = NUMBERS;
    note(INDEX, call_index);
    place = script_length;
    note(PLACE, call_place);
    place = script_length / 2;
    note(PLACE, call_place);
    note(TEXT, call_text);
    lent = 1;
    note(INDEX, call_index);
    note(PLACE, call_place);
}

static void note_script(void)
{
    uint32_t bound = (uint32_t)ERGO_RECORD_BOUND(script_length);
    room = 0;
    note_by_length(TOKENIZE, call_tokenize);
    note_by_length(CONTACT, call_contact);
    room = bound < RECORD_ROOM ? bound : RECORD_ROOM;
    note_by_length(CONTACT, call_contact);
    note_by_length(TOKENIZE, call_tokenize);
    if (number == ERGO_ACCEPTED)
        note_records();
    note(MEASURE, call_measure);
    note_places();
}

static void note_below(void)
{
    script = LONG_CONTACT;
    note(BELOW, call_memset);
    note(BELOW, call_memcpy);
    note(BELOW, call_memmove);
    note(BELOW, call_divide);
    note(BELOW, call_multiply);
    note(BELOW, call_shift);
#if defined __arm__
    note(BELOW, call_aeabi_memclr);
    note(BELOW, call_aeabi_memset);
    note(BELOW, call_aeabi_memmove);
#endif
}

/* Texts that go deep: those that the readers of rare pieces read, and refusals behind much else. */
static const char *const DEEP[] = {
    "'\xE2\x87\x92", "'\xE2\x87\x92 ", "'\xE2\x87\x92\xE2\x87\x92 ", "'\xE2\x88\x80/\xE2\x88\x83 ", "'\xE2\x87\x92//x\n", "'\xC3\xA9t\xC3\xA9 ",
    "'\xF0\x9D\x94\xB8x_\xE2\x87\x92 ", "'a' ", "'\\u0041' ", "'\\n", "'x_+ ", "'+/ ", "a_\xE2\x87\x92/ ", "\xC3\xA9_+/\"x\" ", "\xE2\x87\x92/*c*/ ",
    "+/\xE2\x87\x92 ", "a/\xE2\x87\x92 ", "a\xE4\xB8\xAD_1\"x\" ", "f\"\"\"\xE4\xB8\xAD\"\"\" ", "f\"a$b\\n\" ", "f\"${", "\"\\u0041\\101\\n\xC3\xA9\" ",
    "\"\"\"\xE4\xB8\xAD\n\"\"\" ", "`\xE4\xB8\xAD`\"x\" ", "`x` ", "0x7FFFFFFFFFFFFFFFL ", "9223372036854775807L ", "2147483648", "0xG ", "1.5 ",
    "/*/**/*/ ", "/*\n*/ \n", "// \xE2\x80\xA8\n", "\r\n", "\n \n", "val ", "truefalse ", "abstract_=> ", "==> ", "; ", "\xE2\x80\xAE", "\xF0\x9F\x98\x80 ",
    "\xF0\x9F\x98\x80//c\n", "\xED\xA0\x80", "x", "\xE4\xB8\xAD"};

#define DEEP_COUNT ((uint32_t)(sizeof DEEP / sizeof *DEEP))

static void note_deep(uint32_t length)
{
    uint32_t i;
    script = script_bytes();
    for (i = 0; i < DEEP_COUNT; i++) {
        script_length = repeat_text(DEEP[i], length);
        note_script();
    }
}

static void note_generated(void)
{
    uint32_t i;
    script = script_bytes();
    for (i = 0; i < STACK_SCRIPTS; i++) {
        script_length = make_script(i);
        note_script();
    }
}

/* A long script that needs no memory to be written to. */
static void note_long(void)
{
    script = LONG_CONTACT;
    script_length = ERGO_CONTACT_BYTES;
    note_script();
}

void run_stack(void)
{
    uint32_t i;
    note_deep(1);
    note_deep(BRIEF);
    note_deep(SHORT);
    note_deep(LONGEST);
    note_generated();
    note_long();
    note_below();
    for (i = 0; i < FUNCTIONS; i++) {
        put("stack of ");
        put(NAMES[i]);
        put(": ");
        put_number(depths[i]);
        put("\n");
    }
}
