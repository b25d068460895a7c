#include "host.h"
#include "layout.h"

/* Lists whose flag says started though no start would be done: bytes that no call leads to. Each has
 * an outcome all the same. A list runs if a session is open, it was started and has an ODT; a packet
 * takes entries in order up to the first that its store has no room for. */

enum { CLOCK = 0x1234, MODE_OF_EVENT_0 = 1, YES = 1 };

/* Two lists; list 0 has two ODTs, the first of 18 entries, the second of 17, and list 1 has one of
 * one byte. Both have a mode, and none was started. */
static void two_lists(struct rig *r)
{
    unlocked(r);
    ask(r, "FF", "D6");
    ask(r, "FF", "D5 00 02 00");
    ask(r, "FF", "D4 00 00 00 02");
    ask(r, "FF", "D4 00 01 00 01");
    ask(r, "FF", "D3 00 00 00 00 12");
    ask(r, "FF", "D3 00 00 00 01 11");
    ask(r, "FF", "D3 00 01 00 00 01");
    entry(r, 1, 0, 0, 1, 1, 0x30);
    mode(r, 0, 0);
    mode(r, 1, 0);
}

static void flag(struct rig *r, unsigned list)
{
    r->state[LIST_AT(list) + 2] = YES;
}

/* List 0 does not fit: its first ODT has 60 bytes, then two and one, its second 60, then four, and
 * one. Of the first the two do not fit behind the clock, of the second the four. */
static void too_long(struct rig *r)
{
    two_lists(r);
    entries(r, 0, 0, 60, 1, 0x100);
    entry(r, 0, 0, 15, 2, 1, 0x200);
    entry(r, 0, 0, 16, 1, 1, 0x210);
    entries(r, 0, 1, 60, 0, 0x300);
    entry(r, 0, 1, 15, 4, 0, 0x400);
    entry(r, 0, 1, 16, 1, 0, 0x410);
    flag(r, 0);
}

/* All its entries are of size 0. */
static void without_bytes(struct rig *r)
{
    two_lists(r);
    flag(r, 0);
}

/* It has ODTs, and these have no entries. */
static void without_entries(struct rig *r)
{
    unlocked(r);
    ask(r, "FF", "D6");
    ask(r, "FF", "D5 00 02 00");
    ask(r, "FF", "D4 00 00 00 02");
    mode(r, 0, 0);
    flag(r, 0);
}

/* It has entries and no mode. */
static void without_mode(struct rig *r)
{
    two_lists(r);
    entry(r, 0, 0, 0, 1, 1, 0x40);
    flag(r, 0);
    r->state[LIST_AT(0)] = 0;
}

/* It has no ODTs: the one case that does not run. */
static void without_odts(struct rig *r)
{
    freed(r);
    ask(r, "FF", "D5 00 02 00");
    mode(r, 0, 0);
    flag(r, 0);
}

/* ---- those that run */

static const struct running {
    int line;
    const char *name;
    void (*given)(struct rig *r);
    int sampled; /* lists at event 0 */
} cases[] = {
    {__LINE__, "too long", too_long, 1},
    {__LINE__, "without bytes", without_bytes, 1},
    {__LINE__, "without entries", without_entries, 1},
    {__LINE__, "without a mode", without_mode, 0},
};

/* A packet of each of list 0's ODTs, put in store. */
static void stored(struct rig *r)
{
    for (unsigned odt = 0; odt < 2; odt++)
        memset(r->state + SAMPLE_AT(odt), 7, 8);
}

/* What waits leaves, ODT by ODT, and nothing behind it. */
static void leaves_stored(struct rig *r)
{
    SENDS(r, "00 07*7");
    SENDS(r, "01 07*7");
    SENDS(r, "");
}

static void each_runs(const struct running *c)
{
    struct rig r;
    c->given(&r);
    ASK(&r, "FF 40 00 00 00 00", "FD");
    stored(&r);
    NUMBER("missed, where its mode is set", (uint32_t)c->sampled, event(&r, 0, CLOCK));
    leaves_stored(&r);
    NUMBER("sampled", (uint32_t)c->sampled << 8, event(&r, 0, CLOCK));
    rig_end(&r);
}

/* A start is done, by either command, and changes nothing: its packets stay. */
static void each_is_started(const struct running *c)
{
    static const char *const starts[][2] = {{"FF 00", "DE 01 00 00"}, {"FF", "DD 01"}};
    for (size_t i = 0; i < COUNT(starts); i++) {
        struct rig r;
        c->given(&r);
        if (i == 1)
            ASK(&r, "FF 00", "DE 02 00 00");
        stored(&r);
        NUMBER("taken", XCP_TAKEN, give(&r, "%s", starts[i][1]));
        NUMBER("still started", YES, r.state[LIST_AT(0) + 2]);
        NUMBER("not selected", 0, r.state[LIST_AT(0) + 1]);
        SENDS(&r, "00 07*7"); /* the last frame was an answer, so that the list has its turn */
        SENDS(&r, "%s", starts[i][0]);
        SENDS(&r, "01 07*7");
        SENDS(&r, "");
        ASK(&r, "FF 40 00 00 00 00", "FD");
        rig_end(&r);
    }
}

/* A stop stops it and drops its packets; then it cannot be started. */
static void each_is_stopped(const struct running *c)
{
    static const char *const stops[][2] = {{"FF 00", "DE 00 00 00"}, {"FF", "DD 00"}, {"FF", "DD 02"}};
    for (size_t i = 0; i < COUNT(stops); i++) {
        struct rig r;
        c->given(&r);
        if (i == 2)
            ASK(&r, "FF 00", "DE 02 00 00");
        stored(&r);
        ASK(&r, stops[i][0], "%s", stops[i][1]);
        SENDS(&r, "");
        ASK(&r, "FF 00 00 00 00 00", "FD");
        NUMBER("no list samples", 0, event(&r, 0, CLOCK));
        REFUSED(&r, "FE 2A", "DE 01 00 00");
        ASK(&r, "FF 00", "DE 02 00 00");
        REFUSED(&r, "FE 2A", "DD 01");
        rig_end(&r);
    }
}

/* Its settings cannot be changed, nor what it has of the pool, and its packets stay. */
static void each_refuses(const struct running *c)
{
    struct rig r;
    c->given(&r);
    stored(&r);
    leaves_stored(&r);
    REFUSED(&r, "FE 11", "E3 00 00 00");
    REFUSED(&r, "FE 11", "E0 10 00 00 01 00 01 00");
    if (c->given == without_entries) {
        REFUSED(&r, "FE 22", "E2 00 00 00 00 00");
        REFUSED(&r, "FE 11", "D3 00 00 00 01 02");
    } else {
        ASK(&r, "FF", "E2 00 00 00 00 00");
        REFUSED(&r, "FE 11", "E1 FF 01 00 00 00 00 00");
        REFUSED(&r, "FE 29", "D3 00 00 00 00 01");
    }
    REFUSED(&r, "FE 29", "D4 00 00 00 01");
    REFUSED(&r, "FE 29", "D4 00 01 00 01");
    NUMBER("still started", YES, r.state[LIST_AT(0) + 2]);
    rig_end(&r);
}

/* ---- what their samples are */
static void samples_of_too_long(void)
{
    struct rig r;
    too_long(&r);
    NUMBER("sampled", 0x100, event(&r, 0, CLOCK));
    SENDS(&r, "00 34 12 %s", hex_of(r.meas + 0x100, 60));
    SENDS(&r, "01 %s", hex_of(r.cal + 0x300, 60));
    SENDS(&r, "");
    rig_end(&r);
}

/* Without a byte the clock goes alone, and of the later ODT nothing. */
static void samples_of_none(void (*given)(struct rig *r))
{
    struct rig r;
    given(&r);
    NUMBER("sampled", 0x100, event(&r, 0, CLOCK));
    SENDS(&r, "00 34 12");
    SENDS(&r, "");
    rig_end(&r);
}

/* Beside it a list that was started by a command runs as ever. */
static void beside_another(void)
{
    struct rig r;
    too_long(&r);
    ASK(&r, "FF 02", "DE 01 01 00");
    NUMBER("sampled", 0x200, event(&r, 0, CLOCK));
    SENDS(&r, "00 34 12 %s", hex_of(r.meas + 0x100, 60));
    SENDS(&r, "02 34 12 %s", hex_of(r.meas + 0x30, 1));
    SENDS(&r, "01 %s", hex_of(r.cal + 0x300, 60));
    SENDS(&r, "");
    rig_end(&r);
}

/* ---- a list without ODTs does not run, whatever its flag says */
static void no_odt_no_run(void)
{
    struct rig r;
    without_odts(&r);
    ASK(&r, "FF 00 00 00 00 00", "FD");
    NUMBER("no list samples", 0, event(&r, 0, CLOCK));
    stored(&r);
    SENDS(&r, "");
    REFUSED(&r, "FE 2A", "DE 01 00 00");
    ASK(&r, "FF 00", "DE 02 00 00");
    REFUSED(&r, "FE 2A", "DD 01");
    REFUSED(&r, "FE 29", "D4 00 00 00 01"); /* as long as any list is started */
    REFUSED(&r, "FE 29", "D4 00 01 00 01");
    ASK(&r, "FF 00", "DE 00 00 00");
    ASK(&r, "FF", "D4 00 00 00 01");
    ASK(&r, "FF 00 00 00 00 00", "FD");
    rig_end(&r);
}

/* E0 and E3 are done on it, and it then counts as stopped. */
static void no_odt_settings(void)
{
    static const char *const settings[] = {"E0 10 00 00 01 00 01 00", "E3 00 00 00"};
    for (size_t i = 0; i < COUNT(settings); i++) {
        struct rig r;
        without_odts(&r);
        ASK(&r, "FF", "%s", settings[i]);
        NUMBER("stopped", 0, r.state[LIST_AT(0) + 2]);
        ASK(&r, "FF", "D4 00 00 00 01");
        rig_end(&r);
    }
}

/* Nothing runs without a session. */
static void closed(void)
{
    struct rig r;
    too_long(&r);
    stored(&r);
    r.state[OPEN_AT] = 0;
    NUMBER("no list samples", 0, event(&r, 0, CLOCK));
    SENDS(&r, "");
    r.state[OPEN_AT] = YES;
    leaves_stored(&r);
    rig_end(&r);
}

void test_started(void)
{
    for (size_t i = 0; i < COUNT(cases); i++) {
        check_note("%s", cases[i].name);
        each_runs(&cases[i]);
        each_is_started(&cases[i]);
        each_is_stopped(&cases[i]);
        each_refuses(&cases[i]);
        check_note("%s", "");
    }
    samples_of_too_long();
    samples_of_none(without_bytes);
    samples_of_none(without_entries);
    beside_another();
    no_odt_no_run();
    no_odt_settings();
    closed();
}
