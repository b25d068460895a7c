#include "host.h"
#include "layout.h"
#include "shape.h"

/* The state's bytes as docs/STATE.md has them: how every value reads, whether a call can leave it
 * there or not, and what a command writes. An entry shows in what its list samples. */

enum { CLOCK = 0x1234, MODE_OF_EVENT_0 = 1, YES = 1, STALE = 0xA5 };

/* No list has a mode or an entry above size 0; then this ODT's list has a mode and was started. */
static void alone(struct rig *r, unsigned odt)
{
    memset(r->state + LISTS_AT, 0, SAMPLES_AT - LISTS_AT);
    r->state[LIST_AT(odt / ODT_COUNT)] = MODE_OF_EVENT_0;
    r->state[LIST_AT(odt / ODT_COUNT) + 2] = YES;
}

/* The number of an entry over all ODTs, as most tests have them. */
static unsigned usual_entry(unsigned odt, unsigned at)
{
    return ENTRY_COUNT * odt + at;
}

/* An event: this ODT samples these bytes and no other has any; with none, the clock goes alone. */
static void samples(struct rig *r, unsigned odt, const uint8_t *bytes, size_t count)
{
    check_numbers("sampled", 0x100, event(r, 0, CLOCK));
    if (odt % ODT_COUNT == 0) {
        sends(r, "%02X 34 12 %s", odt, hex_of(bytes, count));
    } else {
        sends(r, "%02X 34 12", odt - 1);
        if (count > 0)
            sends(r, "%02X %s", odt, hex_of(bytes, count));
    }
    sends(r, "");
}

/* What an entry of these two bytes samples; gives how many bytes. */
static size_t read_as(const struct rig *r, uint8_t first, uint8_t second, uint8_t bytes[ENTRY_MOST])
{
    size_t size = first / 32 > ENTRY_MOST ? 0 : first / 32;
    const uint8_t *memory = first / 16 % 2 == 1 ? r->meas : r->cal;
    size_t address = first % 16 * 256u + second;
    for (size_t i = 0; i < size; i++)
        bytes[i] = address + i < REACH ? memory[address + i] : 0;
    return size;
}

/* Every first byte of an entry, where each ODT has one. What stands behind the entries that there
 * are is of no account, nor what the memories hold behind the bytes that can be addressed. */
static void every_first_byte(void)
{
    static const uint8_t seconds[] = {0x00, 0x34, 0xFD, 0xFF};
    struct rig r;
    rig_start(&r, REACH + 9, REACH + 9, 1);
    ASK(&r, CONNECTED, "FF 00");
    HERE();
    unlock(&r, LISTS);
    allocate(&r, LIST_COUNT, ODT_COUNT, 1);
    for (unsigned odt = 0; odt < ALL_ODTS; odt++)
        for (unsigned i = 0; i < 256 * COUNT(seconds); i++) {
            uint8_t first = (uint8_t)i, second = seconds[i / 256], bytes[ENTRY_MOST];
            alone(&r, odt);
            memset(r.state + ENTRY_AT(ALL_ODTS), 0x3F, 2 * (POOL_ENTRIES - ALL_ODTS));
            r.state[ENTRY_AT(odt)] = first;
            r.state[ENTRY_AT(odt) + 1] = second;
            check_note("ODT %u, entry %02X %02X", odt, first, second);
            HERE();
            samples(&r, odt, bytes, read_as(&r, first, second, bytes));
        }
    check_note("%s", "");
    rig_end(&r);
}

/* Every byte of the phase: how many lists there are, and whether FREE_DAQ has come. */
static void every_phase(void)
{
    struct rig r;
    unlocked(&r);
    for (unsigned phase = 0; phase < 256; phase++) {
        struct shape s = {__LINE__, phase >= 1 && phase <= 9 ? phase - 1 : 0, {0}, {0}};
        check_note("phase %u", phase);
        HERE();
        allocate(&r, POOL_LISTS, 2, 8);
        memset(s.odts, 2, s.lists);
        memset(s.entries, 8, 2 * s.lists);
        r.state[PHASE_AT] = (uint8_t)phase;
        HAS_SHAPE(&r, &s);
        ASK(&r, phase == 1 ? "FF" : "FE 29", "D5 00 03 00");
        if (phase == 1)
            HAS_SHAPE(&r, (&(struct shape){__LINE__, 3, {0}, {0}})); /* whatever the tables held */
    }
    check_note("%s", "");
    rig_end(&r);
}

/* A table of counts as it reads: what would pass the pool is cut off there. */
static void cut(uint8_t *counts, size_t many, unsigned pool)
{
    for (size_t i = 0; i < many; i++) {
        counts[i] = (uint8_t)(counts[i] < pool ? counts[i] : pool);
        pool -= counts[i];
    }
}

/* Every byte that says how many ODTs a list has, and how many entries an ODT. */
static void every_count_of_odts(void)
{
    struct rig r;
    unlocked(&r);
    HERE();
    allocate(&r, POOL_LISTS, 2, 8);
    for (unsigned i = 0; i < 256 * POOL_LISTS; i++) {
        struct shape s = {__LINE__, POOL_LISTS, {2, 1, 0, 3, 2, 1, 2, 2}, {0}};
        s.odts[i / 256] = (uint8_t)i;
        memset(s.entries, 8, sizeof s.entries);
        memcpy(r.state + ODTS_AT, s.odts, POOL_LISTS);
        cut(s.odts, POOL_LISTS, POOL_ODTS);
        check_note("list %u, %u ODTs", i / 256, i % 256);
        HAS_SHAPE(&r, &s);
    }
    check_note("%s", "");
    rig_end(&r);
}

static void every_count_of_entries(void)
{
    struct rig r;
    unlocked(&r);
    HERE();
    allocate(&r, 2, 8, 8);
    for (unsigned i = 0; i < 256 * POOL_ODTS; i++) {
        struct shape s = {__LINE__, 2, {8, 8}, {7, 0, 1, 9, 16, 2, 3, 8, 8, 0, 0, 5, 30, 4, 8, 8}};
        s.entries[i / 256] = (uint8_t)i;
        memcpy(r.state + ENTRIES_OF_AT, s.entries, POOL_ODTS);
        cut(s.entries, POOL_ODTS, POOL_ENTRIES);
        check_note("ODT %u, %u entries", i / 256, i % 256);
        HAS_SHAPE(&r, &s);
    }
    check_note("%s", "");
    rig_end(&r);
}

/* Every list with which a round may begin: one that there is not is list 0. */
static void every_round(void)
{
    for (unsigned lists = 1; lists <= POOL_LISTS; lists++) {
        struct rig r;
        uint8_t packet[PACKET];
        unlocked(&r);
        HERE();
        allocate(&r, lists, 1, 1);
        for (unsigned list = 0; list < lists; list++) {
            entry(&r, list, 0, 0, 1, 0, 0);
            mode(&r, list, 0);
            start(&r, list);
        }
        for (unsigned begins = 0; begins < 256; begins++) {
            check_note("%u lists, round from %u", lists, begins);
            NUMBER("all sample", 256 * lists, event(&r, 0, 1));
            r.state[ROUND_AT] = (uint8_t)begins;
            for (unsigned i = 0; i < lists; i++) {
                NUMBER("a packet", 4, (uint32_t)slot(&r, packet));
                NUMBER("of list", ((begins < lists ? begins : 0) + i) % lists, packet[0]);
            }
        }
        check_note("%s", "");
        rig_end(&r);
    }
}

/* Each entry of each ODT, as WRITE_DAQ stores it; the others stay, and every count. */
static void every_entry_stored(void)
{
    static const struct shape shapes[] = {
        {__LINE__, 4, {2, 2, 2, 2}, {16, 16, 16, 16, 16, 16, 16, 16}},
        {__LINE__, 3, {5, 0, 3}, {1, 30, 0, 2, 60, 0, 5, 30}},
    };
    for (size_t i = 0; i < COUNT(shapes); i++) {
        struct rig r;
        unsigned n = 0;
        uint8_t expected[XCP_STATE_SIZE];
        ROW(&shapes[i]);
        unlocked(&r);
        take_shape(&r, &shapes[i]);
        for (unsigned odt = 0; odt < 8; odt++)
            for (unsigned at = 0; at < shapes[i].entries[odt]; at++, n++) {
                unsigned size = 1 + n % ENTRY_MOST, ext = n / 3 % 2, address = 4092 - 31 * n;
                unsigned list = list_of(&shapes[i], odt), first = first_odt(&shapes[i], list);
                memcpy(expected, r.state, sizeof expected);
                expected[ENTRY_AT(n)] = (uint8_t)(32 * size + 16 * ext + address / 256);
                expected[ENTRY_AT(n) + 1] = (uint8_t)address;
                check_note("entry %u of ODT %u", at, odt);
                entry(&r, list, odt - first, at, size, ext, address);
                check_bytes("lists and entries", expected + PHASE_AT, SAMPLES_AT - PHASE_AT,
                            r.state + PHASE_AT, SAMPLES_AT - PHASE_AT);
            }
        check_note("%s", "");
        rig_end(&r);
    }
}

/* Just these entries are there, a bit each; entry e is one measured byte, at 0x300 + e. */
static void of_entries(struct rig *r, unsigned odt, unsigned there)
{
    uint8_t bytes[ENTRY_COUNT];
    size_t count = 0;
    for (unsigned at = 0; at < ENTRY_COUNT; at++)
        if (there >> at & 1)
            bytes[count++] = r->meas[0x300 + at];
    start(r, odt / ODT_COUNT);
    samples(r, odt, bytes, count);
    ask(r, "FF", "DD 00");
}

/* Entries written one by one in this order, in an ODT that has none above size 0: after each, those
 * and no others are there. */
static void in_order(struct rig *r, unsigned odt, const uint8_t order[ENTRY_COUNT])
{
    unsigned there = 0;
    mode(r, odt / ODT_COUNT, 0);
    for (size_t i = 0; i < ENTRY_COUNT; i++) {
        entry(r, odt / ODT_COUNT, odt % ODT_COUNT, order[i], 1, 1, 0x300u + order[i]);
        there |= 1u << order[i];
        of_entries(r, odt, there);
    }
    for (size_t i = 0; i + 1 < ENTRY_COUNT; i++) { /* and emptied in that order, all but one */
        entry(r, odt / ODT_COUNT, odt % ODT_COUNT, order[i], 0, 0, 0xFFFFFFFF);
        there &= ~(1u << order[i]);
        of_entries(r, odt, there);
    }
}

/* Whatever the entries' bytes held before they were allocated. */
static void every_order(void)
{
    static const uint8_t orders[][ENTRY_COUNT] = {
        {15, 0, 1, 2, 3, 4, 5, 6, 7, 8, 9, 10, 11, 12, 13, 14},
        {15, 14, 13, 12, 11, 10, 9, 8, 7, 6, 5, 4, 3, 2, 1, 0},
        {15, 7, 3, 11, 1, 5, 9, 13, 0, 2, 4, 6, 8, 10, 12, 14},
        {3, 12, 0, 14, 2, 1, 15, 4, 13, 5, 11, 6, 10, 7, 9, 8},
    };
    for (size_t i = 0; i < COUNT(orders); i++)
        for (unsigned odt = 0; odt < ALL_ODTS; odt++) {
            struct rig r;
            unlocked(&r);
            memset(r.state + ENTRIES_AT, 0x3F, SAMPLES_AT - ENTRIES_AT);
            check_note("order %zu, ODT %u", i, odt);
            HERE();
            allocate_usual(&r);
            in_order(&r, odt, orders[i]);
            check_note("%s", "");
            rig_end(&r);
        }
}

/* An entry of size 0 is stored as two bytes 0; the others stay. */
static void emptied(void)
{
    static const uint8_t places[] = {1, 5, 0, 6, 15, 9};
    struct rig r;
    uint8_t expected[XCP_STATE_SIZE];
    allocated(&r);
    memset(r.state + ENTRIES_AT, 0x3F, SAMPLES_AT - ENTRIES_AT);
    for (size_t i = 0; i < COUNT(places); i++) {
        memcpy(expected, r.state, sizeof expected);
        memset(expected + ENTRY_AT(usual_entry(3, places[i])), 0, 2);
        check_note("entry %u", places[i]);
        HERE();
        entry(&r, 1, 1, places[i], 0, 1, 0xFFFFFFFF);
        BYTES("lists and entries", expected + PHASE_AT, SAMPLES_AT - PHASE_AT, r.state + PHASE_AT,
              SAMPLES_AT - PHASE_AT);
    }
    check_note("%s", "");
    rig_end(&r);
}

/* CLEAR_DAQ_LIST writes 0 to a list's own bytes and to all its entries; every other byte stays. */
static void cleared_bytes(void)
{
    static const struct shape s = {__LINE__, 5, {1, 3, 0, 4, 2}, {7, 0, 30, 2, 1, 1, 40, 0, 5, 6}};
    for (unsigned list = 0; list < s.lists; list++) {
        struct rig r;
        uint8_t expected[XCP_STATE_SIZE];
        unlocked(&r);
        check_note("list %u", list);
        HERE();
        take_shape(&r, &s);
        memset(r.state + LISTS_AT, STALE, SAMPLES_AT - LISTS_AT);
        memcpy(expected, r.state, sizeof expected);
        memset(expected + LIST_AT(list), 0, 3);
        for (unsigned odt = 0, n = 0; odt < all_odts(&s); n += s.entries[odt], odt++)
            if (list_of(&s, odt) == list)
                memset(expected + ENTRY_AT(n), 0, 2u * s.entries[odt]);
        ASK(&r, "FF", "E3 00 %02X 00", list);
        BYTES("lists and entries", expected + POINTER_AT, SAMPLES_AT - POINTER_AT,
              r.state + POINTER_AT, SAMPLES_AT - POINTER_AT);
        check_note("%s", "");
        rig_end(&r);
    }
}

/* Entries that an ODT gets are written 0, and those of the ODTs behind it move up. */
static void moved_entries(void)
{
    static const uint8_t counts[] = {3, 8, 1, 5, 0, 20};
    for (unsigned odt = 0; odt < COUNT(counts); odt++) {
        struct rig r;
        struct shape s = {__LINE__, 2, {4, 2}, {3, 8, 1, 5, 0, 20}};
        uint8_t expected[2 * POOL_ENTRIES];
        size_t before = 0, all = 0;
        s.entries[odt] = 0;
        for (unsigned k = 0; k < COUNT(counts); k++) {
            before += k < odt ? s.entries[k] : 0u;
            all += s.entries[k];
        }
        unlocked(&r);
        check_note("ODT %u", odt);
        HERE();
        take_shape(&r, &s);
        for (size_t i = 0; i < sizeof expected; i++)
            r.state[ENTRIES_AT + i] = (uint8_t)(3 * i + odt);
        memcpy(expected, r.state + ENTRIES_AT, 2 * before);
        memset(expected + 2 * before, 0, 2 * 9);
        memcpy(expected + 2 * (before + 9), r.state + ENTRY_AT(before), 2 * (all - before));
        ASK(&r, "FF", "D3 00 %02X 00 %02X 09", odt / 4, odt % 4);
        BYTES("entries", expected, 2 * (all + 9), r.state + ENTRIES_AT, 2 * (all + 9));
        check_note("%s", "");
        rig_end(&r);
    }
}

/* This command leaves the round and the whole session so, byte for byte, which is then expected. */
static void leaves(struct rig *r, const char *command, uint8_t expected[XCP_STATE_SIZE])
{
    check_numbers("taken", XCP_TAKEN, give(r, "%s", command));
    check_numbers("round", expected[ROUND_AT], r->state[ROUND_AT]);
    check_bytes("the session", expected + SESSION_AT, XCP_STATE_SIZE - SESSION_AT,
                r->state + SESSION_AT, XCP_STATE_SIZE - SESSION_AT);
    sends(r, "FF");
    memcpy(expected, r->state, XCP_STATE_SIZE);
}
#define LEAVES(r, command, expected) (HERE(), leaves(r, command, expected))

/* FREE_DAQ writes how far the tool has come, and no more; each allocation what it brings, empty. The
 * pointer stays as it reads. */
static void allocated_bytes(void)
{
    struct rig r;
    uint8_t expected[XCP_STATE_SIZE];
    unlocked(&r);
    memset(r.state + POINTER_AT, STALE, XCP_STATE_SIZE - POINTER_AT);
    r.state[ROUND_AT] = STALE;
    memcpy(expected, r.state, sizeof expected);
    expected[PHASE_AT] = 1;
    LEAVES(&r, "D6", expected);
    expected[ROUND_AT] = 0;
    expected[PHASE_AT] = 1 + 3;
    memset(expected + ODTS_AT, 0, ENTRIES_AT - ODTS_AT);
    LEAVES(&r, "D5 00 03 00", expected);
    memset(r.state + ENTRIES_OF_AT + 2, STALE, POOL_ODTS - 2); /* of ODTs that there are not yet */
    for (unsigned k = 0; k < 2; k++) {
        memset(expected + ENTRIES_OF_AT, 0, POOL_ODTS);
        for (unsigned odt = 0; odt < POOL_ODTS; odt++)
            expected[SAMPLE_AT(odt)] = 0;
        expected[ODTS_OF(k + 1)] = 2;
        LEAVES(&r, k == 0 ? "D4 00 01 00 02" : "D4 00 02 00 02", expected);
    }
    expected[POINTER_AT] = 0; /* it was unset */
    expected[ENTRIES_OF(3)] = 5;
    memset(expected + ENTRY_AT(0), 0, 2 * 5);
    LEAVES(&r, "D3 00 02 00 01 05", expected);
    ASK(&r, "FF", "E2 00 02 00 01 04");
    memcpy(expected, r.state, sizeof expected); /* it is set now, and stays */
    expected[ENTRIES_OF(1)] = 7;
    memset(expected + ENTRY_AT(0), 0, 2 * (5 + 7));
    LEAVES(&r, "D3 00 01 00 01 07", expected);
    NUMBER("the pointer", 16 * 2 + 1 + 1, r.state[POINTER_AT]);
    NUMBER("its entry", 4, r.state[POINTER_AT + 1]);
    rig_end(&r);
}

/* Every list is full, runs, and has both packets of a sample unsent. */
static void all_full(struct rig *r)
{
    allocated(r);
    for (unsigned list = 0; list < LIST_COUNT; list++) {
        entries(r, list, 0, FIRST_MOST, 1, 0x100 * list);
        entries(r, list, 1, LATER_MOST, 0, 0x100 * list);
        mode(r, list, 0);
        start(r, list);
    }
    check_numbers("all sample", 256 * LIST_COUNT, event(r, 0, 0x5678));
}

/* What empties lists, so that no entry of theirs may come to life again; all but the first also
 * free them. */
static void cleared(struct rig *r)
{
    uint8_t packet[PACKET];
    insist("stopped", XCP_TAKEN, give(r, "DD 00"));
    drain(r, packet);
    for (unsigned list = 0; list < LIST_COUNT; list++)
        ask(r, "FF", "E3 00 %02X 00", list);
}

static void freed_again(struct rig *r)
{
    insist("FREE_DAQ", XCP_TAKEN, give(r, "D6"));
    sends(r, "FF");
    allocate_usual(r);
}

static void renewed(struct rig *r)
{
    insist("CONNECT", XCP_TAKEN, give(r, "FF 00"));
    sends(r, CONNECTED);
    unlock(r, LISTS);
    allocate_usual(r);
}

static void ended(struct rig *r)
{
    insist("DISCONNECT", XCP_TAKEN, give(r, "FE"));
    sends(r, "FF");
    renewed(r);
}

static void wrong_key(struct rig *r)
{
    ask(r, "FF", "DD 00");
    r->state[SEED_AT] = CALIBRATION; /* as if a seed were out: for what is open there is none */
    ask(r, "FE 25", "F7 04 00 00 00 00");
    renewed(r);
}

/* After each of them no list can start, an entry that is written is the only one of its ODT, and no
 * packet of an earlier sample leaves. */
static void no_entry_comes_back(void)
{
    static void (*const emptying[])(struct rig *) = {cleared, freed_again, renewed, ended,
                                                     wrong_key};
    static const uint8_t places[] = {15, 0, 7};
    for (size_t i = 0; i < COUNT(emptying); i++)
        for (size_t k = 0; k < COUNT(places); k++)
            for (unsigned odt = 0; odt < ALL_ODTS; odt++) {
                struct rig r;
                unsigned list = odt / ODT_COUNT;
                check_note("way %zu, entry %u of ODT %u", i, places[k], odt);
                HERE();
                all_full(&r);
                emptying[i](&r);
                NUMBER("nothing samples", 0, event(&r, 0, CLOCK));
                SENDS(&r, "");
                ASK(&r, "FE 2A", "DE 01 %02X 00", list);
                HERE();
                mode(&r, list, 0);
                ASK(&r, "FE 2A", "DE 01 %02X 00", list); /* a mode alone, and no entry */
                HERE();
                entry(&r, list, odt % ODT_COUNT, places[k], 4, 1, 0x700);
                start(&r, list);
                samples(&r, odt, r.meas + 0x700, 4);
                check_note("%s", "");
                rig_end(&r);
            }
}

/* A session's end writes 0 from its first byte to the phase: then there are no lists, and the bytes
 * behind stay and mean nothing. CONNECT then opens a session. */
static void session_end(void)
{
    static const char *const commands[] = {"FE", "FF 00", "F7 04 00 00 00 00"};
    for (size_t i = 0; i < COUNT(commands); i++) {
        struct rig r;
        uint8_t expected[XCP_STATE_SIZE];
        connected(&r);
        memset(r.state + SESSION_AT, STALE, XCP_STATE_SIZE - SESSION_AT);
        r.state[OPEN_AT] = YES;
        r.state[SEED_AT] = CALIBRATION;
        memcpy(expected, r.state, sizeof expected);
        memset(expected + SESSION_AT, 0, PHASE_AT + 1 - SESSION_AT);
        expected[OPEN_AT] = i == 1;
        check_note("%s", commands[i]);
        NUMBER("taken", 1, give(&r, "%s", commands[i]));
        BYTES("the session", expected + SESSION_AT, XCP_STATE_SIZE - SESSION_AT,
              r.state + SESSION_AT, XCP_STATE_SIZE - SESSION_AT);
        check_note("%s", "");
        rig_end(&r);
    }
}

/* Every length that a captured packet may have, and every other value: then none is in store. All
 * lists run; a first ODT has an even number or an odd one. A length too short for the clock is one
 * too, though no event leaves it in a first ODT. */
static void every_sample_length(void)
{
    static const struct shape s = {__LINE__, 4, {1, 3, 4, 8}, {1, 1, 0, 0, 1, 0, 0, 0, 1}};
    struct rig r;
    unlocked(&r);
    HERE();
    take_shape(&r, &s);
    for (unsigned list = 0; list < s.lists; list++) {
        r.state[LIST_AT(list)] = MODE_OF_EVENT_0;
        r.state[LIST_AT(list) + 2] = YES;
        r.state[ENTRY_AT(list)] = 32;
    }
    for (unsigned odt = 0; odt < POOL_ODTS; odt++)
        for (unsigned length = 0; length < 256; length++) {
            r.state[SAMPLE_AT(odt)] = (uint8_t)length;
            for (unsigned i = 1; i < PACKET; i++)
                r.state[SAMPLE_AT(odt) + i] = (uint8_t)(odt + 3 * i);
            check_note("ODT %u, length %u", odt, length);
            if (length >= 1 && length < PACKET)
                SENDS(&r, "%02X %s", odt, hex_of(r.state + SAMPLE_AT(odt) + 1, length));
            SENDS(&r, "");
            r.state[SAMPLE_AT(odt)] = 0;
        }
    check_note("%s", "");
    rig_end(&r);
}

/* A packet in store of an ODT that no list has does not leave, nor does one of a list that does not
 * run. */
static void other_samples(void)
{
    struct rig r;
    unlocked(&r);
    HERE();
    allocate(&r, 2, 2, 1);
    entry(&r, 1, 0, 0, 1, 0, 0);
    mode(&r, 1, 0);
    start(&r, 1);
    for (unsigned odt = 0; odt < POOL_ODTS; odt++)
        memset(r.state + SAMPLE_AT(odt), 7, 8);
    SENDS(&r, "02 07*7");
    SENDS(&r, "03 07*7");
    SENDS(&r, "");
    rig_end(&r);
}

/* Every length that a waiting answer may have, and every other value: of those none waits. */
static void every_answer_length(void)
{
    struct rig r;
    connected(&r);
    for (unsigned length = 0; length < 256; length++) {
        r.state[ANSWER_AT] = (uint8_t)length;
        r.state[ANSWER_AT + 1] = 0xFF;
        for (unsigned i = 1; i < PACKET; i++)
            r.state[ANSWER_AT + 1 + i] = (uint8_t)(5 * i);
        check_note("length %u", length);
        if (length >= 1 && length <= PACKET)
            SENDS(&r, "%s", hex_of(r.state + ANSWER_AT + 1, length));
        SENDS(&r, "");
    }
    check_note("%s", "");
    rig_end(&r);
}

/* Where this pointer has its entry, counted over all ODTs; none where it is unset. */
static int pointed(const struct shape *s, unsigned pointer, unsigned at)
{
    enum { NONE = -1 };
    unsigned list = (pointer - 1) / POOL_ODTS, odt = (pointer - 1) % POOL_ODTS, n = at;
    if (pointer == 0 || list >= s->lists || odt >= s->odts[list])
        return NONE;
    odt += first_odt(s, list);
    if (at >= s->entries[odt])
        return NONE;
    for (unsigned before = 0; before < odt; before++)
        n += s->entries[before];
    return (int)n;
}

/* Every list pointer: where it names no list, no ODT of it or no entry it is unset; else it is
 * written there. */
static void every_pointer(void)
{
    static const struct shape s = {__LINE__, 3, {2, 0, 3}, {1, 16, 0, 109, 2}};
    static const uint8_t ats[] = {0, 1, 2, 14, 15, 16, 17, 108, 109, 127, 128, 255};
    struct rig r;
    unlocked(&r);
    HERE();
    take_shape(&r, &s);
    for (unsigned i = 0; i < 256 * COUNT(ats); i++) {
        unsigned pointer = i % 256, at = ats[i / 256];
        int n = pointed(&s, pointer, at);
        memset(r.state + LISTS_AT, 0, SAMPLES_AT - LISTS_AT);
        r.state[POINTER_AT] = (uint8_t)pointer;
        r.state[POINTER_AT + 1] = (uint8_t)at;
        check_note("pointer %02X %02X", pointer, at);
        ASK(&r, n < 0 ? "FE 29" : "FF", "E1 FF 03 01 56 04 00 00");
        if (n >= 0)
            BYTES("entry", (const uint8_t *)"\x74\x56", 2, r.state + ENTRY_AT(n), 2);
    }
    check_note("%s", "");
    rig_end(&r);
}

/* Every place of the reader, with every LEN: SYNC cuts off a message of which something has come;
 * where none can be so far, there is none. */
static void every_place(void)
{
    struct rig r;
    powered(&r);
    for (unsigned place = 0; place < 256; place++)
        for (unsigned len = 0; len < 256; len++)
            for (unsigned count = 0; count < 256; count += place <= 3 ? 1 : 85) {
                int inside = place == 1 || place == 2;
                if (count > 0 && (len < 1 || len > PACKET || count > len + 2))
                    inside = 0;
                r.state[READER_AT] = (uint8_t)place;
                r.state[READER_AT + 1] = (uint8_t)count;
                r.state[READER_AT + 2] = (uint8_t)len;
                uint32_t number = inside && (count > 0 || place == 2) ? XCP_CUT_OFF : XCP_DONE;
                check_note("place %u, LEN %u, %u bytes", place, len, count);
                HERE();
                insist("SYNC", number, feed(&r, SYNC));
            }
    check_note("%s", "");
    WIRE(&r, "01 01 FC FE", "0002"); /* the last SYNC began a message */
    rig_end(&r);
}

void test_state(void)
{
    every_first_byte();
    every_phase();
    every_count_of_odts();
    every_count_of_entries();
    every_round();
    every_entry_stored();
    every_order();
    emptied();
    cleared_bytes();
    moved_entries();
    allocated_bytes();
    no_entry_comes_back();
    session_end();
    every_sample_length();
    other_samples();
    every_answer_length();
    every_pointer();
    every_place();
}
