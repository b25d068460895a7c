/* examples/host.c on the bench: the trials, and what it keeps over a power cut. HOST may name another
 * file, to see that the trials find what is wrong with it. */
#define main host_main
#ifndef HOST
#define HOST "../../examples/host.c"
#endif
#include HOST
#undef main
#include "gun.h"

#include <setjmp.h>
#include <string.h>

enum { BROKEN = -1, NEVER = 1 << 20, SIZE = sizeof settings + 8 };

/* The board. A place is the bytes, then number and sum; a power cut comes before byte cut_at. */
static uint8_t places[KEPT_PLACES][SIZE];
static int cut_at = NEVER;
static jmp_buf power_cut;
static unsigned saves, feeds, clock_ticks;
static uint16_t weight;
static uint32_t numbers;

int board_start(void) { return 1; }
void board_rest(void) {}
void watchdog_feed(void) { feeds++; }
int uart_is_idle(void) { return dma_is_idle(); }
void uart_send(const uint8_t *bytes, size_t count) { dma_send(bytes, count); }
int scale_is_ready(void) { return clock_ticks++ % 4 == 0; }
uint16_t scale_read(void) { return ++weight; }
uint16_t clock_milliseconds(void) { return (uint16_t)clock_ticks; }
uint32_t number_that_differs(void) { return ++numbers; }
void pump_set(uint8_t unit, const uint8_t row[DRUG_SIZE]) { took_row(unit, row, DRUG_SIZE); }

int kept_read(int place, uint8_t *bytes, size_t count, uint32_t *number, uint32_t *sum)
{
    memcpy(bytes, places[place], count);
    memcpy(number, places[place] + count, 4);
    memcpy(sum, places[place] + count + 4, 4);
    return 1;
}

int kept_write(int place, const uint8_t *bytes, size_t count, uint32_t number, uint32_t sum)
{
    uint8_t all[SIZE];
    saves++;
    if (cut_at == BROKEN)
        return 0;
    memcpy(all, bytes, count);
    memcpy(all + count, &number, 4);
    memcpy(all + count + 4, &sum, 4);
    for (int i = 0; i < SIZE; i++) {
        if (i == cut_at)
            longjmp(power_cut, 1);
        places[place][i] = all[i];
    }
    return 1;
}

static void pull_trigger(void) { gun_pulled(7); }

const struct gun gun = {power_on, once_around, uart_received, pull_trigger, state,
                        UNIT, DRUGS + 7 * DRUG_SIZE, DRUG_SIZE, WEIGHT};

static void trial_watchdog(void)
{
    switch_on();
    feeds = 0;
    turns(5);
    NUMBER("times that five good rounds feed the watchdog", 5, feeds);
    for (int i = 0; i < 5; i++) {
        state[1] = 0;
        turn();
    }
    NUMBER("times that five rounds with number 10 feed it", 5, feeds);
    turn();
    NUMBER("times that a good one feeds it then", 6, feeds);
}

static const uint8_t synch[] = {SYNC, 0x01, 0x00, 0xFC, 0xFD};

/* A command right behind another, both come at once: the first one's answer leaves in between. */
static void trial_two(void)
{
    uint8_t packet[PACKET];
    switch_on();
    connect_and_unlock();
    for (int i = 0; i < 100; i++) {
        for (size_t at = 0; at < 2 * sizeof synch; at++)
            uart_received(synch[at % sizeof synch]);
        NUMBER("bytes of the answer to the first", 2, (uint32_t)next_packet(packet));
        NUMBER("bytes of the answer to the second", 2, (uint32_t)next_packet(packet));
        turns(3);
    }
}

/* More comes at once than the ring holds, behind a whole command: what is lost is the last of it. */
static void trial_full(void)
{
    uint8_t packet[PACKET];
    switch_on();
    connect_and_unlock();
    for (size_t count = sizeof ring - sizeof synch - 2; count < sizeof ring + 8; count++) {
        check_note("%zu bytes behind it", count);
        for (size_t i = 0; i < sizeof synch; i++)
            uart_received(synch[i]);
        babble(count);
        NUMBER("bytes of the answer to SYNCH", 2, (uint32_t)next_packet(packet));
        turns(sizeof ring);
    }
    check_note("%s", "");
}

/* As a power cut leaves it: what is not kept is gone. */
static void switch_off_and_on(void)
{
    memset(settings, 0x77, sizeof settings);
    memset(state, 0x77, sizeof state);
    switch_on();
}

static void write_dose(unsigned dose)
{
    ANSWERS("FF", "ED 02 00 00 %02X 00 00 00 %02X 00", DOSE, dose);
}

static void dose_is(unsigned dose)
{
    char answer[16];
    uint8_t bytes[] = {0xFF, (uint8_t)dose, 0};
    strcpy(answer, hex_of(bytes, sizeof bytes));
    ANSWERS(CONNECTED, "FF 00");
    ANSWERS(answer, "F4 02 00 00 %02X 00 00 00", DOSE);
    ANSWERS("FF", "FE");
    turns(10);
}

/* A session that leaves this dose. */
static void set_dose(unsigned dose)
{
    connect_and_unlock();
    write_dose(dose);
    ANSWERS("FF", "FE");
    turns(10);
}

static void forget_all(uint8_t erased)
{
    memset(places, erased, sizeof places);
    cut_at = NEVER;
    saves = 0;
    switch_off_and_on();
}

static void trial_kept(void)
{
    forget_all(0xFF);
    dose_is(25);
    NUMBER("saves where nothing was written", 0, saves);
    connect_and_unlock();
    write_dose(30);
    turns(100);
    NUMBER("saves while the session is open", 0, saves);
    ANSWERS("FF", "FE");
    turns(100);
    NUMBER("saves once it has ended", 1, saves);
    switch_off_and_on();
    dose_is(30);
    set_dose(30);
    NUMBER("saves where the same was written again", 1, saves);
    set_dose(31);
    set_dose(32);
    NUMBER("saves of two more", 3, saves);
    switch_off_and_on();
    dose_is(32);
    forget_all(0);
    dose_is(25);
}

/* What a session that lost its state has written is not kept; what the next one leaves is. */
static void trial_lost(void)
{
    forget_all(0xFF);
    set_dose(30);
    connect_and_unlock();
    write_dose(31);
    state[3] ^= 0x80;
    turns(20);
    line_settles();
    NUMBER("saves after number 10", 1, saves);
    dose_is(31);
    NUMBER("saves after the next session", 2, saves);
}

static void trial_broken(void)
{
    forget_all(0xFF);
    cut_at = BROKEN;
    set_dose(30);
    turns(100);
    NUMBER("tries where the board cannot keep", 1, saves);
    dose_is(30);
    NUMBER("tries after one more session", 2, saves);
    cut_at = NEVER;
    dose_is(30);
    NUMBER("tries where it can again", 3, saves);
    switch_off_and_on();
    dose_is(30);
}

/* A cut before byte at of a save: the dose is then the one before. */
static void cut_before(volatile int at)
{
    forget_all(0xFF);
    set_dose(30);
    set_dose(31);
    cut_at = at;
    if (setjmp(power_cut) == 0)
        set_dose(32);
    cut_at = NEVER;
    switch_off_and_on();
    check_note("cut before byte %d", at);
    dose_is(at < SIZE ? 31 : 32);
    set_dose(33);
    switch_off_and_on();
    dose_is(33);
}

static void trial_cut(void)
{
    static const int cuts[] = {0, 1, 31, 32, 33, 34, 2048, 4095, 4096, 4097, 4100, 4103, SIZE};
    for (size_t i = 0; i < sizeof cuts / sizeof *cuts; i++)
        cut_before(cuts[i]);
}

int main(int count, char **words)
{
    static const struct trial trials[] = {
        {"session", trial_session}, {"damage", trial_damage},     {"keys", trial_keys},
        {"reader", trial_reader},   {"watchdog", trial_watchdog}, {"kept", trial_kept},
        {"lost", trial_lost},       {"broken", trial_broken},     {"cut", trial_cut},
        {"burst", trial_burst},     {"two", trial_two},           {"full", trial_full},
    };
    return trials_main(trials, sizeof trials / sizeof *trials, count > 1 ? words[1] : NULL);
}
