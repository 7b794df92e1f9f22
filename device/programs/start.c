/* Cortex-M without an operating system: the table of vectors, memory as the program wants it, and printing by semihosting. */
#include "programs.h"

/* Operations of semihosting, and what the last one is told: that all went well, or that a fault came. */
#define WRITE_TEXT 0x04
#define STOP 0x18
#define ENDED 0x20026u
#define FAULT 0x20023u

static void ask_host(int operation, uintptr_t argument)
{
    register int r0 __asm__("r0") = operation;
    register uintptr_t r1 __asm__("r1") = argument;
    __asm__ volatile("bkpt 0xab" : "+r"(r0) : "r"(r1) : "memory");
}

void put(const char *text)
{
    ask_host(WRITE_TEXT, (uintptr_t)text);
}

static void stop(uint32_t why)
{
    for (;;)
        ask_host(STOP, why);
}

/* cortex-m.ld */
extern uint32_t stack_top[], data_stored[], data_begin[], data_end[], bss_begin[], bss_end[];

static void copy_data(void)
{
    const uint32_t *from = data_stored;
    uint32_t *to;
    for (to = data_begin; to < data_end; to++)
        *to = *from++;
}

static void clear_bss(void)
{
    uint32_t *to;
    for (to = bss_begin; to < bss_end; to++)
        *to = 0;
}

/* Where there are registers for fractions, they are off at first, and a compiler may use them for copying. */
static void use_all_registers(void)
{
#if defined __ARM_FP
    volatile uint32_t *access = (volatile uint32_t *)0xE000ED88u;
    *access |= 0xFu << 20;
    __asm__ volatile("dsb\n\tisb" : : : "memory");
#endif
}

void reset(void)
{
    use_all_registers();
    copy_data();
    clear_bss();
    run_all();
    stop(ENDED);
}

static void fault(void)
{
    put("a fault\n");
    stop(FAULT);
}

typedef void vector(void);

__attribute__((section(".vectors"), used)) static vector *const VECTORS[16] = {
    (vector *)stack_top, reset, fault, fault, fault, fault, fault, 0, 0, 0, 0, fault, fault, 0, fault, fault};
