/* What compare/driver.c and tests/controller/slices.c ask of a system, by Linux's calls: so code for riscv32 runs in
 * qemu-riscv32, for which there is no C library here. The declarations are newlib's. A crash ends the emulator, and the other end
 * of the pipe knows of it. Compiled as freestanding C: else a compiler makes calls to memcpy of that very loop. */
#include <signal.h>
#include <stddef.h>
#include <stdint.h>
#include <stdlib.h>
#include <string.h>
#include <unistd.h>

enum { SYS_READ = 63, SYS_WRITE = 64, SYS_EXIT = 93 };
enum { HEAP = 64 << 20 };

void _start(void);

static long ask_linux(long what, long a, long b, long c)
{
    register long a0 __asm__("a0") = a, a1 __asm__("a1") = b, a2 __asm__("a2") = c, a7 __asm__("a7") = what;
    __asm__ volatile("ecall" : "+r"(a0) : "r"(a1), "r"(a2), "r"(a7) : "memory");
    return a0;
}

_READ_WRITE_RETURN_TYPE read(int file, void *to, size_t count)
{
    return ask_linux(SYS_READ, file, (long)to, (long)count);
}

_READ_WRITE_RETURN_TYPE write(int file, const void *from, size_t count)
{
    return ask_linux(SYS_WRITE, file, (long)from, (long)count);
}

void _exit(int code)
{
    for (;;)
        ask_linux(SYS_EXIT, code, 0, 0);
}

/* Nothing is caught. */
_sig_func_ptr signal(int number, _sig_func_ptr handler)
{
    return (void)number, (void)handler, SIG_DFL;
}

void *memcpy(void *restrict to, const void *restrict from, size_t count)
{
    for (size_t i = 0; i < count; i++)
        ((uint8_t *)to)[i] = ((const uint8_t *)from)[i];
    return to;
}

void *memset(void *to, int value, size_t count)
{
    for (size_t i = 0; i < count; i++)
        ((uint8_t *)to)[i] = (uint8_t)value;
    return to;
}

int memcmp(const void *one, const void *other, size_t count)
{
    const uint8_t *a = one, *b = other;
    for (; count > 0; a++, b++, count--)
        if (*a != *b)
            return *a - *b;
    return 0;
}

size_t strlen(const char *text)
{
    size_t count = 0;
    while (text[count] != 0)
        count++;
    return count;
}

/* Blocks one behind the other, each behind its size; none is ever given back, and none gets smaller. */
void *realloc(void *old, size_t size)
{
    static size_t heap[HEAP / sizeof(size_t)], used;
    size_t words = 1 + (size + sizeof(size_t) - 1) / sizeof(size_t);
    if (words > HEAP / sizeof(size_t) - used)
        return NULL;
    size_t *block = heap + used + 1;
    used += words;
    block[-1] = size;
    return old == NULL ? block : memcpy(block, old, ((size_t *)old)[-1]);
}

__attribute__((naked)) void _start(void)
{
    __asm__ volatile("andi sp, sp, -16\n\tcall main\n\tcall _exit");
}
