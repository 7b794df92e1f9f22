/* The ErgoScript tokenizer as portable C: the proved module, compiled to WebAssembly by the kit's clang and written out in C by wasm2c. device/build c
 * makes it. It is C99, calls nothing but memcpy, memmove and memset, has no memory of its own that is written, and may be called from several threads
 * at once. docs/DEVICE.md tells what it is for. ergo_token.h, beside it, declares the eight functions.
 *
 * An address of the module is not one of this machine. Each part that a function is lent has a range of addresses of its own, and so have the module's
 * tables and its stack, which is an array of the exported function. Every access is held against the part that it falls into, so that nothing is read
 * or written outside of what was lent, whatever the module does. A script or roll may have 2^31 bytes at most, records and index 2^30.
 *
 * ERGO_TRAP, which may be defined otherwise, is what is done at an access to no part, where a script or roll is longer, and on a big-endian
 * processor; it must not return. The module, which is proved, makes no such access. */
#include "ergo_token.h"

#include <string.h>

#if defined __BYTE_ORDER__ && __BYTE_ORDER__ != __ORDER_LITTLE_ENDIAN__
#error "the numbers of an index and the module's tables are little-endian"
#endif

#ifndef ERGO_TRAP
#define ERGO_TRAP() \
    do { \
    } while (1)
#endif

typedef uint8_t u8;
typedef int8_t s8;
typedef uint16_t u16;
typedef int32_t s32;
typedef uint32_t u32;
typedef int64_t s64;
typedef uint64_t u64;

/* Where the parts begin, in the module's addresses. */
#define TABLES 0u
#define STACK 0x10000000u
#define ANSWER 0x20000000u
#define LENT 0x40000000u   /* records, or an index */
#define SCRIPT 0x80000000u /* or a roll */
#define MOST_BYTES 0x80000000u /* of a script or roll */

struct part {
    const u8 *bytes;
    u8 *written; /* the same bytes, NULL where they may not be written */
    u64 length;
};

/* One call of an exported function. */
struct call {
    struct part tables, stack, answer, lent, script;
    u32 stack_pointer;
};

static const struct part *part_at(const struct call *call, u32 address)
{
    if (address >= SCRIPT)
        return &call->script;
    if (address >= LENT)
        return &call->lent;
    if (address >= ANSWER)
        return &call->answer;
    return address >= STACK ? &call->stack : &call->tables;
}

static u32 start_of(u32 address)
{
    return address >= SCRIPT ? SCRIPT : address >= LENT ? LENT : address >= ANSWER ? ANSWER : address >= STACK ? STACK : TABLES;
}

/* So many bytes to be read. */
static const u8 *bytes_at(const struct call *call, u64 address, u32 count)
{
    const struct part *part = part_at(call, (u32)address);
    u64 at = address - start_of((u32)address);
    if (at + count > part->length)
        ERGO_TRAP();
    return part->bytes + at;
}

/* So many bytes to be written. */
static u8 *place_at(const struct call *call, u64 address, u32 count)
{
    const struct part *part = part_at(call, (u32)address);
    u64 at = address - start_of((u32)address);
    if (part->written == NULL || at + count > part->length)
        ERGO_TRAP();
    return part->written + at;
}

#define READ(name, in_memory, as, type) \
    static type name(const struct call *call, u64 address) \
    { \
        in_memory value; \
        memcpy(&value, bytes_at(call, address, sizeof value), sizeof value); \
        return (type)(as)value; \
    }
#define WRITTEN(name, in_memory, type) \
    static void name(const struct call *call, u64 address, type wide) \
    { \
        in_memory value = (in_memory)wide; \
        memcpy(place_at(call, address, sizeof value), &value, sizeof value); \
    }

