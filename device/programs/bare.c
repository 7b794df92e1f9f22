/* Linux without a C library: where the program begins, what it prints, and how it ends. */
#include "programs.h"

#if defined __aarch64__ || defined __riscv
#define WRITE 64
#define EXIT 93
#elif defined __x86_64__
#define WRITE 1
#define EXIT 60
#else
#define WRITE 4
#define EXIT 1
#endif

static long system_call(long number, long first, long second, long third)
{
#if defined __aarch64__
    register long x8 __asm__("x8") = number;
    register long x0 __asm__("x0") = first;
    register long x1 __asm__("x1") = second;
    register long x2 __asm__("x2") = third;
    __asm__ volatile("svc 0" : "+r"(x0) : "r"(x8), "r"(x1), "r"(x2) : "memory");
    return x0;
#elif defined __arm__
    register long r7 __asm__("r7") = number;
    register long r0 __asm__("r0") = first;
    register long r1 __asm__("r1") = second;
    register long r2 __asm__("r2") = third;
    __asm__ volatile("svc 0" : "+r"(r0) : "r"(r7), "r"(r1), "r"(r2) : "memory");
    return r0;
#elif defined __riscv
    register long a7 __asm__("a7") = number;
    register long a0 __asm__("a0") = first;
    register long a1 __asm__("a1") = second;
    register long a2 __asm__("a2") = third;
    __asm__ volatile("ecall" : "+r"(a0) : "r"(a7), "r"(a1), "r"(a2) : "memory");
    return a0;
#elif defined __i386__
    long result;
    __asm__ volatile("int $0x80" : "=a"(result) : "a"(number), "b"(first), "c"(second), "d"(third) : "memory");
    return result;
#else
    long result;
    __asm__ volatile("syscall" : "=a"(result) : "a"(number), "D"(first), "S"(second), "d"(third) : "rcx", "r11", "memory");
    return result;
#endif
}

void put(const char *text)
{
    long length = 0;
    while (text[length] != '\0')
        length++;
    system_call(WRITE, 1, (long)text, length);
}

__attribute__((used)) void begin(void)
{
    run_all();
    system_call(EXIT, 0, 0, 0);
    for (;;)
        ;
}

/* The stack pointer as each target's functions want it. */
#if defined __riscv
__asm__(".globl _start\n"
        "_start:\n"
        "    .option push\n"
        "    .option norelax\n"
        "    la gp, __global_pointer$\n"
        "    .option pop\n"
        "    andi sp, sp, -16\n"
        "    call begin\n");
#elif defined __arm__ && defined __thumb__
__asm__(".syntax unified\n"
        ".thumb\n"
        ".globl _start\n"
        ".thumb_func\n"
        "_start:\n"
        "    bl begin\n");
#elif defined __arm__ || defined __aarch64__
__asm__(".globl _start\n"
        "_start:\n"
        "    bl begin\n");
#elif defined __i386__
__asm__(".globl _start\n"
        "_start:\n"
        "    and $-16, %esp\n"
        "    call begin\n");
#else
__asm__(".globl _start\n"
        "_start:\n"
        "    and $-16, %rsp\n"
        "    call begin\n");
#endif
