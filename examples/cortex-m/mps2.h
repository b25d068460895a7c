/* The registers that board.c uses of an MPS2 board with a Cortex-M4 (Arm's AN386; QEMU's mps2-an386). */
#ifndef MPS2_H
#define MPS2_H

#include <stdint.h>

#define REGISTER(address) (*(volatile uint32_t *)(address))

enum { HERTZ = 25000000 };

/* UART 0: one byte each way, and no queue. */
#define UART_DATA REGISTER(0x40004000)
#define UART_STATE REGISTER(0x40004004)
#define UART_CONTROL REGISTER(0x40004008)
#define UART_INTERRUPT REGISTER(0x4000400C) /* a written 1 clears what is pending */
#define UART_DIVIDER REGISTER(0x40004010)
enum { UART_TX_FULL = 1, UART_RX_FULL = 2, UART_RX_OVERRUN = 8 };     /* of UART_STATE */
enum { UART_TX_ON = 1, UART_RX_ON = 2, UART_RX_INTERRUPT_ON = 8 };    /* of UART_CONTROL */
enum { UART_RX_INTERRUPT = 2 };                                       /* of UART_INTERRUPT */

/* Timer 0: counts down, and begins again at TIMER_RELOAD. */
#define TIMER_CONTROL REGISTER(0x40000000)
#define TIMER_VALUE REGISTER(0x40000004)
#define TIMER_RELOAD REGISTER(0x40000008)
#define TIMER_INTERRUPT REGISTER(0x4000000C) /* a written 1 clears what is pending */
enum { TIMER_ON = 1, TIMER_INTERRUPT_ON = 8 };                        /* of TIMER_CONTROL */

/* The watchdog: counts down from WATCHDOG_RELOAD as soon as that is written. */
#define WATCHDOG_RELOAD REGISTER(0x40008000)
#define WATCHDOG_CONTROL REGISTER(0x40008008)
enum { WATCHDOG_ON = 1, WATCHDOG_RESETS = 2 };                        /* of WATCHDOG_CONTROL */

/* Memory that the linker script leaves alone, and start-up too. */
#define KEPT_MEMORY ((volatile uint8_t *)0x21000000)
enum { KEPT_SECTOR = 8192 };

/* The core's own: SysTick, interrupts, what is trapped. */
#define SYSTICK_CONTROL REGISTER(0xE000E010)
#define SYSTICK_RELOAD REGISTER(0xE000E014)
#define SYSTICK_VALUE REGISTER(0xE000E018)
#define NVIC_ENABLE REGISTER(0xE000E100)
#define CCR REGISTER(0xE000ED14)
enum { SYSTICK_ON = 1, SYSTICK_INTERRUPT_ON = 2, SYSTICK_CORE_CLOCK = 4 }; /* of SYSTICK_CONTROL */
enum { UART_RX_IRQ = 0, TIMER_IRQ = 8 };                              /* bits of NVIC_ENABLE */
enum { TRAP_UNALIGNED = 8 };                                          /* of CCR */

#endif
