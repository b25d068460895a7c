/* The second host on the bench: the trials of tests/gun; or, with the word `line`, at a terminal that
 * a tool opens in place of a serial port. HOST may name another file, to see that the trials find
 * what is wrong with it. */
#define _DEFAULT_SOURCE
#define _XOPEN_SOURCE 600
#ifndef HOST
#define HOST "host.c"
#endif
#include HOST
#include "../gun/gun.h"

#include <fcntl.h>
#include <poll.h>
#include <stdio.h>
#include <stdlib.h>
#include <string.h>
#include <termios.h>
#include <unistd.h>

uint8_t rx_bytes[RX_SIZE];
static uint32_t left = RX_SIZE, ticks, numbers;

uint32_t rx_left(void) { return left; }
void tx_begin(const uint8_t *bytes, uint32_t count) { dma_send(bytes, count); }
int tx_is_done(void) { return dma_is_idle(); }
void irq_mask(void) { interrupts_masked = 1; }
void irq_unmask(void) { interrupts_masked = 0; }
uint16_t timer_ms(void) { return (uint16_t)ticks; }
uint32_t noise(void) { return ++numbers * 2654435761u; }
void pump_takes(uint8_t unit, const uint8_t doses[16]) { took_row(unit, doses, 16); }

int adc_has_weight(uint16_t *weight)
{
    *weight = (uint16_t)ticks;
    return ticks++ % 8 == 0;
}

static void receive(uint8_t byte)
{
    rx_bytes[RX_SIZE - left] = byte;
    left = left == 1 ? RX_SIZE : left - 1;
}

const struct gun gun = {firmware_begin, firmware_round, receive, trigger_irq, slave, 0x10, 0x100 + 3 * 16, 16, 4};

/* Raw, because a terminal would echo; its other end stays open here too. */
static int open_line(void)
{
    struct termios raw;
    int line = posix_openpt(O_RDWR | O_NOCTTY), end;
    if (line < 0 || grantpt(line) != 0 || unlockpt(line) != 0)
        return -1;
    end = open(ptsname(line), O_RDWR | O_NOCTTY);
    if (end < 0 || tcgetattr(end, &raw) != 0)
        return -1;
    cfmakeraw(&raw);
    return tcsetattr(end, TCSANOW, &raw) == 0 && fcntl(line, F_SETFL, O_NONBLOCK) == 0 ? line : -1;
}

/* Four bytes go in a millisecond, about as many as at 38,400 baud. */
static int at_line(void)
{
    int line = open_line();
    if (line < 0)
        return 1;
    printf("%s\n", ptsname(line));
    fflush(stdout);
    for (;;) {
        struct pollfd wait = {line, POLLIN, 0};
        uint8_t bytes[64];
        ssize_t count = poll(&wait, 1, 1) > 0 ? read(line, bytes, sizeof bytes) : 0;
        for (ssize_t i = 0; i < count; i++)
            receive(bytes[i]);
        firmware_round();
        count = (ssize_t)dma_moves(bytes, 4);
        if (count > 0 && write(line, bytes, (size_t)count) < 0)
            perror("second host");
    }
}

int main(int count, char **words)
{
    static const struct trial trials[] = {
        {"session", trial_session}, {"damage", trial_damage}, {"keys", trial_keys}, {"reader", trial_reader},
        {"burst", trial_burst}};
    if (count > 1 && strcmp(words[1], "line") == 0) {
        firmware_begin();
        return at_line();
    }
    return trials_main(trials, sizeof trials / sizeof *trials, count > 1 ? words[1] : NULL);
}
