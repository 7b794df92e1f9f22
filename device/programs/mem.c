/* What a host without a C library must have for libergo.a: the compiler puts in calls of these. The plainest there are; they must be compiled so that
 * no loop becomes a call of the function that it stands in (-fno-builtin, and for gcc -fno-tree-loop-distribute-patterns). */
#include <stddef.h>

void *memset(void *to, int value, size_t n);
void *memcpy(void *to, const void *from, size_t n);
void *memmove(void *to, const void *from, size_t n);

void *memset(void *to, int value, size_t n)
{
    unsigned char *bytes = to;
    while (n-- > 0)
        *bytes++ = (unsigned char)value;
    return to;
}

void *memcpy(void *to, const void *from, size_t n)
{
    unsigned char *bytes = to;
    const unsigned char *source = from;
    while (n-- > 0)
        *bytes++ = *source++;
    return to;
}

static void copy_backwards(unsigned char *to, const unsigned char *from, size_t n)
{
    while (n-- > 0)
        to[n] = from[n];
}

void *memmove(void *to, const void *from, size_t n)
{
    if ((const unsigned char *)to <= (const unsigned char *)from)
        return memcpy(to, from, n);
    copy_backwards(to, from, n);
    return to;
}

#if defined __arm__
/* On ARM the compiler may call the same functions by these names; memset's then has its last two arguments the other way round. */

#define COPIES(name, by)                                    \
    void name(void *to, const void *from, size_t n);        \
    void name(void *to, const void *from, size_t n)         \
    {                                                       \
        by(to, from, n);                                    \
    }

#define SETS(name)                                          \
    void name(void *to, size_t n, int value);               \
    void name(void *to, size_t n, int value)                \
    {                                                       \
        memset(to, value, n);                               \
    }

#define CLEARS(name)                                        \
    void name(void *to, size_t n);                          \
    void name(void *to, size_t n)                           \
    {                                                       \
        memset(to, 0, n);                                   \
    }

COPIES(__aeabi_memcpy, memcpy)
COPIES(__aeabi_memcpy4, memcpy)
COPIES(__aeabi_memcpy8, memcpy)
COPIES(__aeabi_memmove, memmove)
COPIES(__aeabi_memmove4, memmove)
COPIES(__aeabi_memmove8, memmove)
SETS(__aeabi_memset)
SETS(__aeabi_memset4)
SETS(__aeabi_memset8)
CLEARS(__aeabi_memclr)
CLEARS(__aeabi_memclr4)
CLEARS(__aeabi_memclr8)

/* The compiler's own library would call it where a number is divided by 0. */
int raise(int signal);
int raise(int signal)
{
    (void)signal;
    for (;;)
        ;
}
#endif
