/* Start-up of a Cortex-M: the vector table, and what comes before main. No C library is needed. */
#include <stdint.h>

/* Addresses from the linker script. */
extern uint32_t stack_top[], data_load[], data_start[], data_end[], bss_start[], bss_end[];

int main(void);
void reset(void);

/* A fault, an interrupt that nobody handles, or the end of main: a debugger finds it here. */
void stopped(void);
__attribute__((weak)) void stopped(void)
{
    for (;;)
        __asm__ volatile("wfi");
}

/* The interrupts of this board; a file that does not define one gets stopped() for it. */
void systick(void) __attribute__((weak, alias("stopped")));
void uart_rx(void) __attribute__((weak, alias("stopped")));
void timer(void) __attribute__((weak, alias("stopped")));

typedef void handler(void);

enum { NMI = 2, HARD_FAULT, MEMORY_FAULT, BUS_FAULT, USAGE_FAULT, SVCALL = 11, DEBUG, PENDSV = 14, SYSTICK, FIRST_IRQ };

__attribute__((section(".vectors"), used)) static handler *const vectors[FIRST_IRQ + 16] = {
    (handler *)stack_top,
    reset,
    [NMI] = stopped,
    [HARD_FAULT] = stopped,
    [MEMORY_FAULT] = stopped,
    [BUS_FAULT] = stopped,
    [USAGE_FAULT] = stopped,
    [SVCALL] = stopped,
    [DEBUG] = stopped,
    [PENDSV] = stopped,
    [SYSTICK] = systick,
    [FIRST_IRQ + 0] = uart_rx,
    [FIRST_IRQ + 8] = timer,
};

/* The loops have to stay loops: gcc would make calls to memcpy and memset of them, and there are none. */
__attribute__((noreturn, optimize("no-tree-loop-distribute-patterns"))) void reset(void)
{
    uint32_t *from = data_load;
    for (uint32_t *to = data_start; to != data_end; to++, from++)
        *to = *from;
    for (uint32_t *to = bss_start; to != bss_end; to++)
        *to = 0;
    main();
    for (;;)
        stopped();
}
