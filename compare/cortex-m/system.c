/* What newlib asks of a system, for compare/driver.c and tests/controller/slices.c on the emulated board: standard input and
 * output are the emulator's own, and a fault ends the program, so that the other end of the pipe knows of a crash.
 *
 * With TRAP a word at an odd address is a fault from the start on; with TOUCH one is read then, to show that it is. The driver
 * is always code for Cortex-M0, so that neither it nor its C library uses such words itself; the slave's code is what it is. */
#include "mps2.h"
#include "semihost.h"

#include <errno.h>
#include <stddef.h>
#include <sys/types.h>

enum { FAULT = 3 };

int driver_main(void);
void stopped(void);
int main(void);

/* The file ":tt" is standard input where it is opened to be read, and standard output where to be written. */
static uint32_t handle(int file)
{
    static int opened[2] = {-1, -1};
    int *one = &opened[file != 0];
    uint32_t block[3] = {(uint32_t)":tt", file == 0 ? 1u /* rb */ : 5u /* wb */, 3};
    if (*one < 0)
        *one = semihost(SYS_OPEN, block);
    return (uint32_t)*one;
}

ssize_t _read(int file, void *to, size_t count)
{
    uint32_t block[3] = {handle(file), (uint32_t)to, count};
    return (ssize_t)count - semihost(SYS_READ, block);
}

ssize_t _write(int file, const void *from, size_t count)
{
    uint32_t block[3] = {handle(file), (uint32_t)from, count};
    return (ssize_t)count - semihost(SYS_WRITE, block);
}

__attribute__((noreturn)) void _exit(int code)
{
    uint32_t block[2] = {APPLICATION_EXIT, (uint32_t)code};
    for (;;)
        semihost(SYS_EXIT_EXTENDED, block);
}

/* The heap is the board's other memory, 16 MB. */
void *_sbrk(ptrdiff_t more)
{
    static uintptr_t end = 0x21000000;
    if (end + (uintptr_t)more > 0x22000000) {
        errno = ENOMEM;
        return (void *)-1;
    }
    end += (uintptr_t)more;
    return (void *)(end - (uintptr_t)more);
}

int _close(int file) { return (void)file, -1; }
int _fstat(int file, void *to) { return (void)file, (void)to, -1; }
int _isatty(int file) { return (void)file, 0; }
off_t _lseek(int file, off_t to, int from) { return (void)file, (void)to, (void)from, 0; }
int _kill(int process, int number) { return (void)process, (void)number, -1; }
int _getpid(void) { return 1; }
void _fini(void) {}

void stopped(void)
{
    _exit(FAULT);
}

int main(void)
{
#ifdef TRAP
    CCR |= TRAP_UNALIGNED;
    __asm__ volatile("dsb\n\tisb" ::: "memory");
#endif
#ifdef TOUCH
    uint32_t odd;
    __asm__ volatile("ldr %0, [%1]" : "=l"(odd) : "l"(0x20000001) : "memory");
#endif
    _exit(driver_main());
}
