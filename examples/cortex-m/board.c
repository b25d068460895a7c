/* The board that host.c runs on: an MPS2 with a Cortex-M4, as QEMU plays it. The receive interrupt hands each byte to the
 * host's ring buffer, SysTick is the clock, and a made-up scale is ready a hundred times a second.
 *
 * QEMU's UART takes no time for a byte. So that the line is as slow as a real one, timer 0 lets a byte go in the time that
 * its bits would take; on a real board the UART's own send interrupt does that, and the timer is not needed. */
#include "../board.h"
#include "mps2.h"

enum { BAUD = 38400, BITS = 10 /* start, eight, stop */, WEIGHING = 10 /* milliseconds */ };
enum { PATIENCE = 5 /* seconds */, TRIGGER = 16 /* milliseconds */ };

static volatile uint32_t milliseconds;
static uint32_t weighing_at;
static uint32_t readings, numbers;

/* The host's bytes that are being sent, from where they lie. The main loop sets this while the line is idle, and only the
 * interrupt moves on in it, as DMA would. */
static const uint8_t *volatile bytes_to_send;
static volatile uint8_t size, sent, sending;

static struct {
    uint8_t unit, row[DRUG_SIZE];
} pump;

void systick(void);
void uart_rx(void);
void timer(void);

/* The gun's trigger is an interrupt of its own on a real board, and comes at any moment too. */
void systick(void)
{
    milliseconds++;
    if (milliseconds % TRIGGER == 0)
        gun_pulled((uint8_t)(milliseconds / TRIGGER % DRUG_COUNT));
}

/* The UART holds one byte: this has to run within a byte's time, or a byte is lost. That is damage on the line like any
 * other, and the slave finds it by itself. */
void uart_rx(void)
{
    UART_INTERRUPT = UART_RX_INTERRUPT;
    if (UART_STATE & UART_RX_OVERRUN)
        UART_STATE = UART_RX_OVERRUN;
    if (UART_STATE & UART_RX_FULL)
        uart_received((uint8_t)UART_DATA);
}

/* A byte's time has passed. */
void timer(void)
{
    TIMER_INTERRUPT = 1;
    if (sent == size) {
        TIMER_CONTROL = 0;
        sending = 0; /* the last byte has left */
    } else if (!(UART_STATE & UART_TX_FULL)) {
        UART_DATA = bytes_to_send[sent];
        sent++;
    }
}

int board_start(void)
{
    UART_DIVIDER = HERTZ / BAUD;
    UART_CONTROL = UART_TX_ON | UART_RX_ON | UART_RX_INTERRUPT_ON;
    SYSTICK_RELOAD = HERTZ / 1000 - 1;
    SYSTICK_VALUE = 0;
    SYSTICK_CONTROL = SYSTICK_ON | SYSTICK_INTERRUPT_ON | SYSTICK_CORE_CLOCK;
    NVIC_ENABLE = 1u << UART_RX_IRQ | 1u << TIMER_IRQ;
    return 1;
}

/* At the first end of its time it interrupts, which goes to stopped(); at the second it resets the board. */
void watchdog_feed(void)
{
    WATCHDOG_RELOAD = (uint32_t)PATIENCE * HERTZ;
    WATCHDOG_CONTROL = WATCHDOG_ON | WATCHDOG_RESETS;
}

/* An interrupt that comes just before this sleep is seen after the next one, a millisecond later at most. */
void board_rest(void)
{
    __asm__ volatile("wfi" ::: "memory");
}

int uart_is_idle(void)
{
    return !sending;
}

void uart_send(const uint8_t *bytes, size_t count)
{
    bytes_to_send = bytes;
    size = (uint8_t)count;
    sent = 0;
    sending = 1;
    TIMER_RELOAD = HERTZ / BAUD * BITS;
    TIMER_VALUE = 1; /* the first byte goes at once */
    TIMER_CONTROL = TIMER_ON | TIMER_INTERRUPT_ON;
}

int scale_is_ready(void)
{
    if ((int32_t)(milliseconds - weighing_at) < 0)
        return 0;
    weighing_at = milliseconds + WEIGHING;
    return 1;
}

/* A restless ewe of about a hundred pounds. */
uint16_t scale_read(void)
{
    readings++;
    return (uint16_t)(1000 + readings * 7 % 50);
}

uint16_t clock_milliseconds(void)
{
    return (uint16_t)milliseconds;
}

void pump_set(uint8_t unit, const uint8_t row[DRUG_SIZE])
{
    pump.unit = unit;
    for (int i = 0; i < DRUG_SIZE; i++)
        pump.row[i] = row[i];
}

/* Two places in a memory that nothing clears: it outlives a reset, and no power cut. On a real board take two sectors of flash:
 * erase one, then write the bytes, number and sum last, and read them back. */
static volatile uint8_t *place_of(int place)
{
    return KEPT_MEMORY + place * KEPT_SECTOR;
}

int kept_read(int place, uint8_t *bytes, size_t count, uint32_t *number, uint32_t *sum)
{
    const volatile uint8_t *from = place_of(place);
    const volatile uint32_t *end = (const volatile uint32_t *)(place_of(place) + KEPT_SECTOR) - 2;
    for (size_t i = 0; i < count; i++)
        bytes[i] = from[i];
    *number = end[0];
    *sum = end[1];
    return 1;
}

int kept_write(int place, const uint8_t *bytes, size_t count, uint32_t number, uint32_t sum)
{
    volatile uint8_t *to = place_of(place);
    volatile uint32_t *end = (volatile uint32_t *)(place_of(place) + KEPT_SECTOR) - 2;
    for (size_t i = 0; i < count; i++)
        to[i] = bytes[i];
    end[0] = number;
    end[1] = sum;
    return 1;
}

/* Where SysTick stands differs from run to run in the emulator, and not on a real board: take a noisy input there, or a
 * counter kept in flash. */
uint32_t number_that_differs(void)
{
    numbers++;
    return (SYSTICK_VALUE + numbers) * 2654435761u;
}
