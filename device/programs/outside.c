/* That ergo.c holds back what lies outside of each part that was lent, and writes to what is only read. It says how many of these went wrong. */
#include <setjmp.h>
static jmp_buf held;
#define ERGO_TRAP() longjmp(held, 1)
#include "ergo.c"
#include <stdio.h>

static int reads(const struct call *call, u64 at, u32 count)
{
    if (setjmp(held) != 0)
        return 0;
    bytes_at(call, at, count);
    return 1;
}

static int writes(const struct call *call, u64 at, u32 count)
{
    if (setjmp(held) != 0)
        return 0;
    place_at(call, at, count);
    return 1;
}

/* Texts and rolls that are said to be longer than a range of addresses. None of their bytes but the first is looked at. */
static int texts(u64 length, const u8 *bytes)
{
    if (setjmp(held) != 0)
        return 0;
    ergo_token_text(bytes, length, 0, 0);
    return 1;
}

static int rolls(u64 length, u8 *answer)
{
    if (setjmp(held) != 0)
        return 0;
    ergo_read_roll(answer, length, answer, ERGO_ANSWER_BYTES - 1);
    return 1;
}

static int records_of(u64 length, u8 *answer)
{
    if (setjmp(held) != 0)
        return 0;
    ergo_read_record(answer, length, 0, 0, answer, ERGO_ANSWER_BYTES - 1);
    return 1;
}

/* What is too long by a byte, and what is not. A block of another length is refused before a roll is read. */
static int wrong_lengths(u8 *answer)
{
    const u64 most = MOST_BYTES;
    return texts(most + 1, answer) + rolls(most + 1, answer) + records_of(most + 1, answer) + !texts(most, answer) + !rolls(most, answer)
           + !records_of(most, answer);
}

static int wrong_of(const struct call *call, u64 start, u32 length, int may_write)
{
    return !reads(call, start, length) + reads(call, start, length + 1) + reads(call, start + length, 1) + (start > 0 && reads(call, start - 1, 1))
           + (writes(call, start, length) != may_write) + writes(call, start, length + 1) + writes(call, start + length, 1);
}

int main(void)
{
    static u8 stack[32], script[3], records[5], answer[16];
    struct call call = call_of(stack, sizeof stack, read_only(script, 3), written(records, 5), written(answer, 16));
    int wrong = wrong_of(&call, TABLES, sizeof tables, 0) + wrong_of(&call, STACK, 32, 1) + wrong_of(&call, ANSWER, 16, 1)
                + wrong_of(&call, LENT, 5, 1) + wrong_of(&call, SCRIPT, 3, 0) + reads(&call, 0x100000000u, 1)
                + wrong_lengths(answer);
    printf("%d wrong\n", wrong);
    return wrong != 0;
}
