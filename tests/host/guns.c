#include "host.h"

#include <stdarg.h>
#include <stdio.h>

/* Many guns at one host: it serves them all from one loop, by the slice call, and each has a wire
 * of its own. What a gun is given follows from its number and the round alone; so each is compared
 * with the same gun alone, served byte by byte. */

enum { GUNS = 64, WIRE_MOST = 4096, NOTES_MOST = 32768, MEMORY = 512, MEASURED = 64 };

struct gun {
    struct rig rig;
    unsigned number;
    uint8_t wire[WIRE_MOST]; /* what its tool sends, as it comes through a wet plug */
    size_t size, came;
    uint8_t notes[NOTES_MOST]; /* all that the host hears: numbers, events, frames */
    size_t noted;
    uint32_t drawn, heard, samples; /* heard: a bit for each number */
};

/* Below most; of each gun its own. */
static uint32_t draw(struct gun *g, uint32_t most)
{
    g->drawn = g->drawn * 1664525u + 1013904223u;
    return (g->drawn >> 8) % most;
}

static void note(struct gun *g, uint8_t kind, const uint8_t *bytes, size_t count)
{
    int fits = g->noted + count + 2 <= NOTES_MOST;
    insist("room for a gun's notes", 1, (uint32_t)fits);
    if (!fits)
        return;
    g->notes[g->noted++] = kind;
    g->notes[g->noted++] = (uint8_t)count;
    memcpy(g->notes + g->noted, bytes, count);
    g->noted += count;
}

static void note_number(struct gun *g, uint8_t kind, size_t where, uint32_t number)
{
    uint8_t bytes[] = {LE32(where), LE32(number)};
    note(g, kind, bytes, sizeof bytes);
}

/* Lends a gun its memories, each of another length. */
static void switch_on(struct gun *g)
{
    rig_start(&g->rig, MEMORY - 3 * g->number, MEASURED - g->number % 7, g->number * 77 + 1);
    g->came = g->noted = 0;
    g->heard = g->samples = 0;
    g->drawn = 1000 + g->number;
}

/* The tool's next frame, and in packet what a slave that hears all of them answers. */
static void tell(struct gun *g, struct rig *heard, uint8_t packet[PACKET], const char *format, ...)
{
    char text[TEXT];
    va_list values;
    va_start(values, format);
    vsnprintf(text, sizeof text, format, values);
    va_end(values);
    size_t len = bytes_of(text, packet, PACKET);
    insist("the wire has room", 1, g->size + FRAME <= WIRE_MOST);
    g->size += frame_of(heard->master_ctr, packet, len, g->wire + g->size);
    insist("the tool's commands are taken", XCP_TAKEN, give_bytes(heard, packet, len));
    slot(heard, packet);
}

static void tell_key(struct gun *g, struct rig *heard, uint8_t resource)
{
    uint8_t p[PACKET];
    uint32_t seed = 0;
    tell(g, heard, p, "F8 00 %02X", resource);
    for (int i = 0; i < 4; i++)
        seed |= (uint32_t)p[2 + i] << 8 * i;
    tell(g, heard, p, "F7 04 %02X %02X %02X %02X", LE32(key_of(seed, resource)));
}

/* One to four lists, each with an entry in either memory. */
static void tell_lists(struct gun *g, struct rig *heard)
{
    unsigned lists = 1 + g->number % 4;
    uint8_t p[PACKET];
    tell(g, heard, p, "D6");
    tell(g, heard, p, "D5 00 %02X 00", lists);
    for (unsigned list = 0; list < lists; list++)
        tell(g, heard, p, "D4 00 %02X 00 02", list);
    for (unsigned odt = 0; odt < 2 * lists; odt++) {
        tell(g, heard, p, "D3 00 %02X 00 %02X 01", odt / 2, odt % 2);
        tell(g, heard, p, "E2 00 %02X 00 %02X 00", odt / 2, odt % 2);
        tell(g, heard, p, "E1 FF %02X %02X %02X 00 00 00", 1 + draw(g, 4), odt % 2, draw(g, 40));
    }
    for (unsigned list = 0; list < lists; list++) {
        tell(g, heard, p, "E0 10 %02X 00 %02X 00 01 00", list, list % 2);
        tell(g, heard, p, "DE 01 %02X 00", list);
    }
}

/* Settings written and read at places of its own, some refused; then the session ends, or not. */
static void tell_settings(struct gun *g, struct rig *heard)
{
    uint8_t p[PACKET];
    for (unsigned i = 0; i < 8; i++) {
        unsigned at = draw(g, MEMORY - 64), count = 1 + draw(g, 56), value = draw(g, 256);
        tell(g, heard, p, "ED %02X 00 00 %02X %02X 00 00 %02X*%u", count, LE16(at), value, count);
        tell(g, heard, p, "F4 %02X 00 00 %02X %02X 00 00", count, LE16(at));
        tell(g, heard, p, "F0 02 9A %02X", value);
        tell(g, heard, p, "F3 00 00 00 %02X 00 00 00", draw(g, 64));
        tell(g, heard, p, "%02X %02X", 0xD0 + draw(g, 0x20), draw(g, 256));
    }
    if (g->number % 3 == 0)
        tell(g, heard, p, "FE");
}

/* At so many places a bit is flipped, a byte lost, or noise comes between. */
static void damage_wire(struct gun *g, unsigned places)
{
    static const uint8_t noise[] = {SYNC, ESC, SYNC, 0x41, SYNC, 0x03, 0x00};
    while (places-- > 0) {
        size_t at = draw(g, (uint32_t)g->size), more = 1 + draw(g, sizeof noise);
        uint32_t how = draw(g, 3);
        if (how == 0) {
            g->wire[at] ^= (uint8_t)(1 << draw(g, 8));
        } else if (how == 1) {
            memmove(g->wire + at, g->wire + at + 1, --g->size - at);
        } else if (g->size + more <= WIRE_MOST) {
            memmove(g->wire + at + more, g->wire + at, g->size - at);
            memcpy(g->wire + at, noise, more);
            g->size += more;
        }
    }
}

static void make_wire(struct gun *g)
{
    struct rig heard;
    uint8_t p[PACKET];
    g->size = 0;
    switch_on(g);
    rig_start(&heard, MEMORY - 3 * g->number, MEASURED - g->number % 7, g->number * 77 + 1);
    tell(g, &heard, p, "FF 00");
    tell_key(g, &heard, CALIBRATION);
    tell_key(g, &heard, LISTS);
    tell_lists(g, &heard);
    tell_settings(g, &heard);
    rig_end(&heard);
    rig_end(&g->rig);
    damage_wire(g, g->number % 8);
}

static void one_slot(struct gun *g)
{
    struct rig *r = &g->rig;
    uint32_t size = XCP_SIZE(xcp_slot(r->state, XCP_STATE_SIZE, r->out, r->out_len));
    note(g, 'f', r->out, size);
    g->samples += size > 3 && r->out[3] < POOL_ODTS;
}

/* What the host does with a number that is not 0: the answer to a command leaves at once. */
static void heard_number(struct gun *g, uint32_t number)
{
    if (number == 0)
        return;
    note_number(g, 'n', g->came, number);
    g->heard |= 1u << number;
    if (number == XCP_TAKEN)
        one_slot(g);
}

typedef void serve(struct gun *g, size_t until);

static void by_slices(struct gun *g, size_t until)
{
    while (g->came < until) {
        uint64_t result = feed_slice(&g->rig, g->wire + g->came, until - g->came);
        insist("a slice takes something", 1, XCP_TOOK(result) > 0);
        g->came += XCP_TOOK(result) > 0 ? XCP_TOOK(result) : until - g->came;
        heard_number(g, XCP_NUMBER(result));
    }
}

static void by_bytes(struct gun *g, size_t until)
{
    while (g->came < until) {
        uint32_t number = feed(&g->rig, g->wire[g->came]);
        g->came++;
        heard_number(g, number);
    }
}

/* A round of the host for one gun: some bytes have come; at times a weight, or a free line. */
static void one_round(struct gun *g, unsigned round, serve *by)
{
    struct rig *r = &g->rig;
    size_t until = g->came + draw(g, 24);
    by(g, until < g->size ? until : g->size);
    if ((round + g->number) % 3 == 0) {
        r->meas[round % r->meas_len] = (uint8_t)draw(g, 256);
        uint32_t event_number = draw(g, 3), clock = draw(g, 65536);
        note_number(g, 'e', round,
                    xcp_event(r->state, XCP_STATE_SIZE, r->cal, r->cal_len, r->meas, r->meas_len,
                              event_number, (uint16_t)clock));
    }
    if (draw(g, 2) == 0)
        one_slot(g);
}

/* Until the last byte has come; and behind it, until what waits has left. */
static int is_done(const struct gun *g, unsigned round)
{
    return g->came == g->size && round > WIRE_MOST / 8;
}

/* The state goes elsewhere, and where it was others' bytes are: it is all that the slave has. */
static void move_state(struct gun *g)
{
    uint8_t *to = lend(XCP_STATE_SIZE, 0x3C);
    memcpy(to, g->rig.state, XCP_STATE_SIZE);
    memset(g->rig.state, 0xC3, XCP_STATE_SIZE);
    lend_end(g->rig.state, XCP_STATE_SIZE);
    g->rig.state = to;
}

/* Round and round all of them, some of which move; at each round another one is first. */
static void serve_all(struct gun *guns)
{
    unsigned round = 0, done = 0;
    for (size_t i = 0; i < GUNS; i++)
        switch_on(&guns[i]);
    for (; done < GUNS; round++) {
        done = 0;
        for (unsigned i = 0; i < GUNS; i++) {
            struct gun *g = &guns[(i + round * 7) % GUNS];
            if (is_done(g, round)) {
                done++;
                continue;
            }
            one_round(g, round, by_slices);
            if (g->number % 2 == 1 && round % 50 == g->number % 50)
                move_state(g);
        }
    }
}

static void compare_with_one_alone(const struct gun *g)
{
    static struct gun alone;
    alone = *g;
    switch_on(&alone);
    for (unsigned round = 0; !is_done(&alone, round); round++)
        one_round(&alone, round, by_bytes);
    check_note("gun %u", g->number);
    BYTES("what its host heard", alone.notes, alone.noted, g->notes, g->noted);
    BYTES("its state", alone.rig.state, XCP_STATE_SIZE, g->rig.state, XCP_STATE_SIZE);
    BYTES("its calibration", alone.rig.cal, alone.rig.cal_len, g->rig.cal, g->rig.cal_len);
    BYTES("its measured values", alone.rig.meas, alone.rig.meas_len, g->rig.meas, g->rig.meas_len);
    rig_end(&alone.rig);
}

/* No two guns sent the same, so that each has something to mix up; together they had every number,
 * and most had samples. */
static void all_differ(const struct gun *guns)
{
    uint32_t heard = 0, sampling = 0, alike = 0;
    for (size_t i = 0; i < GUNS; i++) {
        heard |= guns[i].heard;
        sampling += guns[i].samples > 10;
        for (size_t k = 0; k < i; k++)
            alike += guns[i].noted == guns[k].noted &&
                     memcmp(guns[i].notes, guns[k].notes, guns[i].noted) == 0;
    }
    NUMBER("two guns that heard the same", 0, alike);
    NUMBER("numbers that were heard, 1 to 7", 0xFE, heard);
    NUMBER("most guns sampled", 1, sampling > GUNS / 2);
}

void test_guns(void)
{
    static struct gun guns[GUNS];
    HERE();
    for (unsigned i = 0; i < GUNS; i++) {
        guns[i].number = i;
        make_wire(&guns[i]);
    }
    serve_all(guns);
    all_differ(guns);
    for (size_t i = 0; i < GUNS; i++)
        compare_with_one_alone(&guns[i]);
    check_note("%s", "");
    for (size_t i = 0; i < GUNS; i++)
        rig_end(&guns[i].rig);
}
