/* The processor's own trap flag: after each instruction it leads to SIGTRAP, on this very stack, as an
 * interrupt on a controller would come. x86-64 alone, which is what the archive is for. */
#define _XOPEN_SOURCE 700
#include "gun.h"

#include <signal.h>
#include <string.h>

enum { TRAP_FLAG = 0x100 };

volatile int interrupts_masked;
volatile unsigned long interrupts_came;

static void interrupt(int signal)
{
    (void)signal;
    if (interrupts_masked)
        return;
    interrupts_came++;
    gun.trigger();
}

void interrupts_on(void)
{
    struct sigaction action;
    memset(&action, 0, sizeof action);
    action.sa_handler = interrupt;
    sigaction(SIGTRAP, &action, NULL);
    __builtin_ia32_writeeflags_u64(__builtin_ia32_readeflags_u64() | TRAP_FLAG);
}

void interrupts_off(void)
{
    __builtin_ia32_writeeflags_u64(__builtin_ia32_readeflags_u64() & ~(unsigned long long)TRAP_FLAG);
}
