/* The board that host.c runs on, played on a computer: a pseudo-terminal is the UART, at the speed
 * of a real one, and a made-up scale is ready a hundred times a second. It prints the name of the
 * terminal that a tool opens in place of a serial port. Where the environment names a file in
 * GUN_KEEPS, that outlives a power cut; else nothing does. */
#define _DEFAULT_SOURCE
#define _XOPEN_SOURCE 600
#include "board.h"

#include <fcntl.h>
#include <poll.h>
#include <stdio.h>
#include <stdlib.h>
#include <string.h>
#include <termios.h>
#include <time.h>
#include <unistd.h>

enum { BAUD = 38400, BITS = 10 /* start, eight, stop */, WEIGHING = 10000 /* microseconds */ };
enum { PATIENCE = 60 /* seconds */, SECTOR = 8192 };

static int line = -1, keeps = -1;
static const uint8_t *sending; /* the host's own bytes, of which each is read only when it goes */
static size_t size, sent;
static uint64_t began_at, weighing_at;
static uint32_t readings, numbers;
static struct {
    uint8_t unit, row[DRUG_SIZE];
} pump;

static uint64_t microseconds(void)
{
    struct timespec now;
    clock_gettime(CLOCK_MONOTONIC, &now);
    return (uint64_t)now.tv_sec * 1000000 + (uint64_t)now.tv_nsec / 1000;
}

/* The tool's end stays open here too: else the line would be gone whenever no tool is there. Raw,
 * because a terminal would echo, and change or swallow some bytes. */
static int open_raw(const char *name)
{
    struct termios settings;
    int end = open(name, O_RDWR | O_NOCTTY);
    if (end < 0 || tcgetattr(end, &settings) != 0)
        return 0;
    cfmakeraw(&settings);
    return tcsetattr(end, TCSANOW, &settings) == 0;
}

static int open_line(void)
{
    line = posix_openpt(O_RDWR | O_NOCTTY);
    if (line < 0 || grantpt(line) != 0 || unlockpt(line) != 0 || !open_raw(ptsname(line)) ||
        fcntl(line, F_SETFL, O_NONBLOCK) != 0) {
        perror("host: no pseudo-terminal");
        return 0;
    }
    return 1;
}

static int open_kept(const char *name)
{
    if (name == NULL)
        return 1;
    keeps = open(name, O_RDWR | O_CREAT, 0666);
    if (keeps < 0)
        fprintf(stderr, "host: %s, which GUN_KEEPS names, cannot be opened for writing\n", name);
    return keeps >= 0;
}

int board_start(void)
{
    if (!open_kept(getenv("GUN_KEEPS")) || !open_line())
        return 0;
    printf("%s\n", ptsname(line));
    fflush(stdout);
    weighing_at = microseconds();
    return 1;
}

/* A loop that hangs ends the program: here that is all that beginning anew can be. */
void watchdog_feed(void)
{
    alarm(PATIENCE);
}

/* Plays DMA: what is due by now leaves, from where it lies. What finds no room on the line is lost,
 * as on a wire that nobody listens to. */
static void move(void)
{
    size_t due = (size_t)((microseconds() - began_at) * BAUD / BITS / 1000000);
    if (due > size)
        due = size;
    if (due > sent) {
        ssize_t moved = write(line, sending + sent, due - sent);
        (void)moved;
        sent = due;
    }
}

/* Sleeps a millisecond or until bytes come, and hands each to the interrupt: fewer than the ring
 * holds, since the main loop empties it only afterwards. The gun's trigger is pulled as well. */
void board_rest(void)
{
    struct pollfd wait = {line, POLLIN, 0};
    uint8_t bytes[128];
    int ready = poll(&wait, 1, 1);
    ssize_t count = ready > 0 ? read(line, bytes, sizeof bytes) : 0;
    for (ssize_t i = 0; i < count; i++)
        uart_received(bytes[i]);
    gun_pulled((uint8_t)(readings % DRUG_COUNT));
    move();
}

int uart_is_idle(void)
{
    move();
    return sent == size;
}

void uart_send(const uint8_t *bytes, size_t count)
{
    sending = bytes;
    size = count;
    sent = 0;
    began_at = microseconds();
}

int scale_is_ready(void)
{
    if (microseconds() < weighing_at)
        return 0;
    weighing_at = microseconds() + WEIGHING;
    return 1;
}

/* A restless ewe of about a hundred pounds. */
uint16_t scale_read(void)
{
    readings++;
    return (uint16_t)(1000 + readings * 7 % 50);
}

uint16_t clock_milliseconds(void)
{
    return (uint16_t)(microseconds() / 1000);
}

void pump_set(uint8_t unit, const uint8_t row[DRUG_SIZE])
{
    pump.unit = unit;
    memcpy(pump.row, row, sizeof pump.row);
}

/* A place is a sector of the file: the bytes, and at its end number and sum. */
int kept_read(int place, uint8_t *bytes, size_t count, uint32_t *number, uint32_t *sum)
{
    uint8_t sector[SECTOR];
    if (pread(keeps, sector, sizeof sector, (off_t)place * SECTOR) != SECTOR)
        return 0;
    memcpy(bytes, sector, count);
    memcpy(number, sector + SECTOR - 8, 4);
    memcpy(sum, sector + SECTOR - 4, 4);
    return 1;
}

int kept_write(int place, const uint8_t *bytes, size_t count, uint32_t number, uint32_t sum)
{
    uint8_t sector[SECTOR] = {0};
    memcpy(sector, bytes, count);
    memcpy(sector + SECTOR - 8, &number, 4);
    memcpy(sector + SECTOR - 4, &sum, 4);
    return pwrite(keeps, sector, sizeof sector, (off_t)place * SECTOR) == SECTOR &&
           fsync(keeps) == 0;
}

uint32_t number_that_differs(void)
{
    numbers++;
    return ((uint32_t)microseconds() ^ (uint32_t)getpid() << 16) + numbers;
}
