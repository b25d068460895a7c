#include "gun.h"

#include <string.h>

enum { MARK = 4 }; /* the state's first bytes: without them it is refused */

static struct {
    unsigned long reads, halves;
    uint8_t last;
} rows;

void took_row(uint8_t unit, const uint8_t *row, size_t size)
{
    (void)unit;
    rows.reads++;
    rows.last = row[0];
    for (size_t i = 1; i < size; i++)
        if (row[i] != row[0]) {
            rows.halves++;
            return;
        }
}

/* One list of two packets: the unit byte, and the weight. */
static void start_list(void)
{
    ANSWERS("FF", "D6");
    ANSWERS("FF", "D5 00 01 00");
    ANSWERS("FF", "D4 00 00 00 02");
    ANSWERS("FF", "D3 00 00 00 00 01");
    ANSWERS("FF", "D3 00 00 00 01 01");
    ANSWERS("FF", "E2 00 00 00 00 00");
    ANSWERS("FF", "E1 FF 01 00 %02X %02X %02X %02X", LE32(gun.unit));
    ANSWERS("FF", "E2 00 00 00 01 00");
    ANSWERS("FF", "E1 FF 02 01 %02X %02X %02X %02X", LE32(gun.weight));
    ANSWERS("FF", "E0 10 00 00 00 00 01 00");
    ANSWERS("FF 00", "DE 01 00 00");
}

/* Both packets of a sample, in turn, each time of another weight. The first one may have left before
 * the answer to the start, and its second packet comes here by itself. */
static void hear_samples(int count)
{
    uint8_t packet[PACKET], before[2] = {0, 0};
    for (int i = 0; i < count; i++) {
        size_t len = next_packet(packet);
        if (i == 0 && packet[0] == 1)
            len = next_packet(packet);
        NUMBER("bytes of a sample's first packet", 4, (uint32_t)len);
        NUMBER("its number", 0, packet[0]);
        NUMBER("bytes of its second packet", 3, (uint32_t)next_packet(packet));
        NUMBER("its number", 1, packet[0]);
        NUMBER("the weight is another one", 1, memcmp(packet + 1, before, sizeof before) != 0);
        memcpy(before, packet + 1, sizeof before);
    }
}

void trial_session(void)
{
    uint8_t packet[PACKET];
    switch_on();
    connect_and_unlock();
    ANSWERS("FF", "F6 00 00 00 %02X %02X %02X %02X", LE32(gun.unit));
    ANSWERS("FF", "F0 01 01");
    start_list();
    hear_samples(20);
    ANSWERS("FF 01", "F4 01 00 00 %02X %02X %02X %02X", LE32(gun.unit));
    ANSWERS("FF", "DD 00");
    ANSWERS("FF", "FE");
    say("FD");
    NUMBER("what is heard without a session", 0, (uint32_t)next_packet(packet));
    ANSWERS(CONNECTED, "FF 00");
    ANSWERS("FE 25", "F0 01 00");
    ANSWERS("FF", "FE");
}

/* What a gun may be at when its state is damaged. */
static void no_session(void)
{
    turns(3);
}

static void open_session(void)
{
    connect_and_unlock();
}

static void in_a_frame(void)
{
    connect_and_unlock();
    say("ED 10 00 00 %02X %02X %02X %02X 33*16", LE32(gun.row));
    turns(3);
}

static void sampling(void)
{
    connect_and_unlock();
    start_list();
    hear_samples(2);
    turns(2); /* of the next one, something is on its way */
}

void trial_damage(void)
{
    static void (*const moments[])(void) = {no_session, open_session, in_a_frame, sampling};
    for (size_t moment = 0; moment < sizeof moments / sizeof *moments; moment++)
        for (int bit = 0; bit < 8 * MARK; bit += 5) {
            switch_on();
            moments[moment]();
            gun.state[bit / 8] ^= (uint8_t)(1 << bit % 8);
            line_settles(); /* if nothing is on its way, the first byte of CONNECT finds it */
            connect_and_unlock();
            start_list();
            hear_samples(2);
        }
}

static void wrong_key(void)
{
    ANSWERS(CONNECTED, "FF 00");
    uint32_t key = key_of(seed_for(CALIBRATION), CALIBRATION) ^ 1;
    ANSWERS("FE 25", "F7 04 %02X %02X %02X %02X", LE32(key));
}

/* Two wrong keys in each of three lives, and then the third of the last one. */
void trial_keys(void)
{
    uint32_t seeds[3];
    switch_on();
    for (int life = 0; life < 3; life++) {
        ANSWERS(CONNECTED, "FF 00");
        seeds[life] = seed_for(LISTS);
        for (int i = 0; i < life; i++)
            NUMBER("the first seed is another one than before", 1, seeds[life] != seeds[i]);
        wrong_key();
        wrong_key();
        if (life < 2) {
            gun.state[0] = 0;
            line_settles();
        }
    }
    wrong_key();
    ANSWERS(CONNECTED, "FF 00");
    ANSWERS("FE 25", "F8 00 01");
}

void trial_reader(void)
{
    memset(&rows, 0, sizeof rows);
    switch_on();
    connect_and_unlock();
    for (unsigned byte = 0x11; byte <= 0x66; byte += 0x11) {
        unsigned long came = interrupted("FF", "ED %02X 00 00 %02X %02X %02X %02X %02X*%u", gun.row_size,
                                         LE32(gun.row), byte, gun.row_size);
        NUMBER("the interrupt came often while a row was written", 1, came > 500);
        gun.trigger();
        NUMBER("the row that was written is the one that is read", byte, rows.last);
    }
    NUMBER("rows that were read", 1, rows.reads > 3000);
    NUMBER("rows that were read half", 0, (uint32_t)rows.halves);
}

/* More noise than a round takes, up to what either ring holds, and the next command behind it, so that
 * both begin at every place of the ring. */
void trial_burst(void)
{
    switch_on();
    connect_and_unlock();
    for (size_t count = 1; count < 180; count += 3) {
        babble(count);
        ANSWERS("FE 00", "FC");
    }
}

int trials_main(const struct trial *trials, size_t count, const char *name)
{
    void (*chosen[16])(void);
    size_t chosen_count = 0;
    for (size_t i = 0; i < count; i++)
        if (name == NULL || strcmp(name, trials[i].name) == 0)
            chosen[chosen_count++] = trials[i].run;
    NUMBER("there is a trial of that name", 1, chosen_count > 0);
    return check_once(chosen, chosen_count);
}
