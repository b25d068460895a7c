#include "host.h"
#include "layout.h"
#include "shape.h"

#include <stdarg.h>
#include <stdio.h>

/* FREE_DAQ, ALLOC_DAQ, ALLOC_ODT and ALLOC_ODT_ENTRY, codes D6 to D3: what each refuses and in what
 * order, when the pool of 8 lists, 16 ODTs and 128 entries is passed, and what FREE_DAQ leaves. */

enum { FREE = 0xD6, LISTS_OF = 0xD5, ODTS_FOR = 0xD4, ENTRIES_FOR = 0xD3 };

/* What can be wrong with one of them, a bit each in the order of the checks. */
enum { SHORT = 1, LOCKED = 2, SEQUENCE = 4, LIST = 8, ODT = 16, ZERO = 32, RUNS = 64, PASSED = 128,
       FAULTS = 8 };
static const char *const of_fault[FAULTS] = {"FE 21", "FE 25", "FE 29", "FE 22",
                                             "FE 22", "FE 22", "FE 11", "FE 30"};

/* A situation, and what a command is sent for: what is wrong there in any case, and what a packet
 * can add to it. */
struct target {
    int line;
    uint8_t code;
    void (*situation)(struct rig *);
    uint8_t list, odt, there, added;
};

#define ANY_LIST (SHORT | LOCKED | ZERO | PASSED)
#define ANY_ODT (ANY_LIST | LIST)
#define ANY_ENTRY (ANY_ODT | ODT)

static const struct target targets[] = {
    {__LINE__, FREE, unlocked, 0, 0, 0, LOCKED},
    {__LINE__, FREE, freed, 0, 0, 0, LOCKED},
    {__LINE__, FREE, no_odts, 0, 0, 0, LOCKED},
    {__LINE__, FREE, half_running, 0, 0, 0, LOCKED},
    /* ALLOC_DAQ is out of order before FREE_DAQ, and where there are lists */
    {__LINE__, LISTS_OF, freed, 0, 0, 0, ANY_LIST},
    {__LINE__, LISTS_OF, unlocked, 0, 0, SEQUENCE, ANY_LIST},
    {__LINE__, LISTS_OF, no_odts, 0, 0, SEQUENCE, ANY_LIST},
    {__LINE__, LISTS_OF, no_entries, 0, 0, SEQUENCE, ANY_LIST},
    {__LINE__, LISTS_OF, half_allocated, 0, 0, SEQUENCE, ANY_LIST},
    {__LINE__, LISTS_OF, half_running, 0, 0, SEQUENCE, ANY_LIST},
    /* ALLOC_ODT before ALLOC_DAQ, once an ODT has an entry, and a second time for a list */
    {__LINE__, ODTS_FOR, no_odts, 1, 0, 0, ANY_ODT},
    {__LINE__, ODTS_FOR, no_entries, 0, 0, 0, ANY_ODT},
    {__LINE__, ODTS_FOR, unlocked, 0, 0, SEQUENCE, ANY_ODT},
    {__LINE__, ODTS_FOR, freed, 0, 0, SEQUENCE, ANY_ODT},
    {__LINE__, ODTS_FOR, no_entries, 1, 0, SEQUENCE, ANY_LIST},
    {__LINE__, ODTS_FOR, half_allocated, 0, 0, SEQUENCE, ANY_ODT},
    {__LINE__, ODTS_FOR, half_allocated, 1, 0, SEQUENCE, ANY_ODT},
    {__LINE__, ODTS_FOR, half_running, 0, 0, SEQUENCE, ANY_ODT}, /* and so never 0x11 */
    {__LINE__, ODTS_FOR, half_running, 1, 0, SEQUENCE, ANY_ODT},
    /* ALLOC_ODT_ENTRY before ALLOC_ODT, and a second time for an ODT */
    {__LINE__, ENTRIES_FOR, no_entries, 1, 2, 0, ANY_ENTRY},
    {__LINE__, ENTRIES_FOR, half_allocated, 0, 1, 0, ANY_ENTRY},
    {__LINE__, ENTRIES_FOR, half_allocated, 1, 0, 0, ANY_ENTRY},
    {__LINE__, ENTRIES_FOR, half_running, 1, 0, 0, ANY_ENTRY},
    {__LINE__, ENTRIES_FOR, half_running, 0, 1, RUNS, ANY_LIST | ODT},
    {__LINE__, ENTRIES_FOR, unlocked, 0, 0, SEQUENCE, ANY_ENTRY},
    {__LINE__, ENTRIES_FOR, freed, 0, 0, SEQUENCE, ANY_ENTRY},
    {__LINE__, ENTRIES_FOR, no_odts, 0, 0, SEQUENCE, ANY_ENTRY},
    {__LINE__, ENTRIES_FOR, half_allocated, 0, 0, SEQUENCE, ANY_LIST},
    {__LINE__, ENTRIES_FOR, half_running, 0, 0, SEQUENCE | RUNS, ANY_LIST},
};

static const char *first_answer(unsigned faults)
{
    size_t fault = 0;
    while (!(faults >> fault & 1))
        fault++;
    return of_fault[fault];
}

/* The packet with these faults; numbers that are wrong are so by one, or by far. */
static const char *faulty(const struct target *t, unsigned faults, int by_far)
{
    unsigned list = faults & LIST ? by_far ? 0x100u + t->list : 2 : t->list;
    unsigned odt = faults & ODT ? by_far ? 255 : 3 : t->odt;
    const uint8_t code = t->code;
    unsigned most = code == LISTS_OF ? POOL_LISTS : code == ODTS_FOR ? POOL_ODTS : POOL_ENTRIES;
    unsigned count = faults & ZERO ? 0 : faults & PASSED ? by_far ? 255 : most + 1 : 1;
    const uint8_t lists[] = {code, 0, (uint8_t)count, (uint8_t)(by_far && count > 0xFE ? 255 : 0)};
    const uint8_t odts[] = {code, 0, LE16(list), (uint8_t)count};
    const uint8_t entries_of_odt[] = {code, 0, LE16(list), (uint8_t)odt, (uint8_t)count};
    size_t cut = faults & SHORT ? 1 : 0;
    if (code == ENTRIES_FOR)
        return hex_of(entries_of_odt, sizeof entries_of_odt - cut);
    if (code == ODTS_FOR)
        return hex_of(odts, sizeof odts - cut);
    return hex_of(lists, code == FREE ? 1 : sizeof lists - cut);
}

/* These faults in a situation: the first in order answers and nothing changes; with none it is
 * done. */
static void faults_at(const struct target *t, unsigned added, int by_far)
{
    struct rig r;
    unsigned faults = t->there | added;
    ROW(t);
    t->situation(&r);
    if (faults & LOCKED)
        r.state[LISTS_LOCK_AT] = 0; /* no command locks again and keeps lists */
    if (faults == 0)
        ask(&r, "FF", "%s", faulty(t, faults, by_far));
    else
        refused(&r, first_answer(faults), "%s", faulty(t, faults, by_far));
    rig_end(&r);
}

/* Every set of faults that a situation and a packet can have. No count is 0 and too large. */
static void every_fault(void)
{
    for (size_t i = 0; i < COUNT(targets); i++)
        for (unsigned added = 0; added < 1u << FAULTS; added++) {
            int both = added & ZERO && added & PASSED;
            if (both || added & ~(unsigned)targets[i].added)
                continue;
            faults_at(&targets[i], added, 0);
            faults_at(&targets[i], added, 1);
        }
}

/* A moment to try commands from, each by itself. */
struct moment {
    struct rig rig;
    uint8_t state[XCP_STATE_SIZE];
};

static void keep(struct moment *m, const struct rig *r)
{
    m->rig = *r;
    memcpy(m->state, r->state, sizeof m->state);
}

/* What a command is answered: 0xFF, or the code behind FE; then all is as it was. */
static unsigned tried(struct moment *m, const char *format, ...)
{
    struct rig *r = &m->rig, kept = m->rig;
    uint8_t answer[PACKET] = {0};
    char packet[TEXT];
    va_list values;
    va_start(values, format);
    vsnprintf(packet, sizeof packet, format, values);
    va_end(values);
    insist("taken", XCP_TAKEN, give(r, "%s", packet));
    insist("answered", 1, slot(r, answer) > 0 && answer[0] >= 0xFE);
    *r = kept;
    memcpy(r->state, m->state, sizeof m->state);
    return answer[0] == 0xFF ? 0xFF : answer[1];
}

/* What a count is answered, with so many of the pool taken. */
static unsigned by_pool(unsigned taken, unsigned count, unsigned most)
{
    return count == 0 ? 0x22 : taken + count > most ? 0x30 : 0xFF;
}

static void every_count_of_lists(void)
{
    struct moment m;
    freed(&m.rig);
    keep(&m, &m.rig);
    for (unsigned count = 0; count < 65536; count++) {
        check_note("%u lists", count);
        NUMBER("ALLOC_DAQ", by_pool(0, count, 8), tried(&m, "D5 00 %02X %02X", LE16(count)));
    }
    check_note("%s", "");
    rig_end(&m.rig);
}

/* Every count that one byte asks for, in a session of that shape, of which so many are taken. */
static void every_count(const struct shape *s, unsigned taken, unsigned most, const char *format)
{
    struct moment m;
    unlocked(&m.rig);
    take_shape(&m.rig, s);
    keep(&m, &m.rig);
    for (unsigned count = 0; count < 256; count++) {
        check_note("%u taken, %u more", taken, count);
        NUMBER(format, by_pool(taken, count, most), tried(&m, format, count));
    }
    check_note("%s", "");
    rig_end(&m.rig);
}

/* Every count of ODTs for a list, with every number of them taken: by one list, by seven. */
static void every_count_of_odts(void)
{
    for (unsigned taken = 0; taken <= POOL_ODTS; taken++)
        for (unsigned spread = 0; spread < 2; spread++) {
            struct shape s = {__LINE__, POOL_LISTS, {0}, {0}};
            for (unsigned i = 0; i < taken; i++)
                s.odts[spread ? 1 + i % 7 : 1]++;
            HERE();
            every_count(&s, taken, 16, "D4 00 00 00 %02X");
        }
}

/* Every count of entries for an ODT, with every number of them taken: by an ODT before it, by one
 * behind it, by many around it. */
static void every_count_of_entries(void)
{
    for (unsigned taken = 0; taken <= POOL_ENTRIES; taken++)
        for (unsigned where = 0; where < 3; where++) {
            struct shape s = {__LINE__, 3, {6, 3, 7}, {0}};
            for (unsigned i = 0; i < taken; i++)
                s.entries[where == 0 ? 0 : where == 1 ? 15 : i % 15 + (i % 15 > 6)]++;
            HERE();
            every_count(&s, taken, 128, "D3 00 01 00 01 %02X");
        }
}

/* Every number of a list and of an ODT: 0x22 where there is none. */
static void every_number(void)
{
    struct moment m;
    no_odts(&m.rig);
    keep(&m, &m.rig);
    for (unsigned list = 0; list < 65536; list++) {
        check_note("list %u", list);
        NUMBER("ALLOC_ODT", list < 2 ? 0xFF : 0x22, tried(&m, "D4 00 %02X %02X 01", LE16(list)));
    }
    rig_end(&m.rig);
    no_entries(&m.rig);
    keep(&m, &m.rig);
    for (unsigned i = 0; i < 65536; i++) {
        unsigned list = i / 256 < 4 ? i / 256 : i / 256 << 8 | 1, odt = i % 256;
        check_note("list %u, ODT %u", list, odt);
        NUMBER("ALLOC_ODT_ENTRY", list == 1 && odt < 3 ? 0xFF : 0x22,
               tried(&m, "D3 00 %02X %02X %02X 01", LE16(list), odt));
    }
    check_note("%s", "");
    rig_end(&m.rig);
}

/* With so many lists, those and no others are there for the commands that name one. */
static void every_list(void)
{
    static const char *const formats[] = {"E3 00 %02X %02X", "E0 10 %02X %02X 00 00 01 00",
                                          "DE 00 %02X %02X", "DE 02 %02X %02X"};
    for (unsigned lists = 0; lists <= POOL_LISTS; lists++) {
        struct moment m;
        freed(&m.rig);
        if (lists > 0)
            ASK(&m.rig, "FF", "D5 00 %02X 00", lists);
        keep(&m, &m.rig);
        for (size_t i = 0; i < COUNT(formats); i++)
            for (unsigned n = 0; n < 512; n++) {
                unsigned list = n < 256 ? n : (n - 256) << 8 | (n & 7);
                unsigned expected = list < lists ? 0xFF : 0x22;
                check_note("%u lists, %s of list %u", lists, formats[i], list);
                NUMBER("it is there", expected, tried(&m, formats[i], LE16(list)));
            }
        check_note("%s", "");
        rig_end(&m.rig);
    }
}

/* Every entry of every ODT of lists that differ, and none besides: SET_DAQ_PTR. */
static void every_entry(void)
{
    static const struct shape uneven = {__LINE__, 5, {3, 0, 1, 2, 4},
                                        {5, 0, 1, 64, 16, 0, 0, 3, 2, 37}};
    struct moment m;
    unlocked(&m.rig);
    HERE();
    take_shape(&m.rig, &uneven);
    keep(&m, &m.rig);
    for (unsigned list = 0; list <= 5; list++)
        for (unsigned odt = 0; odt <= 5; odt++)
            for (unsigned at = 0; at < 256; at++) {
                int there = list < 5 && odt < uneven.odts[list] &&
                            at < uneven.entries[first_odt(&uneven, list) + odt];
                check_note("list %u, ODT %u, entry %u", list, odt, at);
                NUMBER("it is there", there ? 0xFF : 0x22,
                       tried(&m, "E2 00 %02X 00 %02X %02X", list, odt, at));
            }
    check_note("%s", "");
    rig_end(&m.rig);
}

/* Without lists no list number is there, before FREE_DAQ and after it; what names none is done. */
static void no_lists(void)
{
    static void (*const situations[])(struct rig *) = {unlocked, freed};
    for (size_t i = 0; i < COUNT(situations); i++) {
        struct rig r;
        situations[i](&r);
        ASK(&r, "FF 11 00 00 02 00 00 00", "DA");
        REFUSED(&r, "FE 22", "E3 00 00 00");
        REFUSED(&r, "FE 22", "E2 00 00 00 00 00");
        REFUSED(&r, "FE 29", "E1 FF 01 00 00 00 00 00");
        REFUSED(&r, "FE 22", "E0 10 00 00 00 00 01 00");
        for (unsigned what = 0; what < 3; what++)
            REFUSED(&r, "FE 22", "DE %02X 00 00", what);
        for (unsigned what = 0; what < 3; what++)
            ASK(&r, "FF", "DD %02X", what);
        ASK(&r, "FF 00 00 00 00 00", "FD");
        NUMBER("nothing to sample", 0, event(&r, 0, 1) + event(&r, 1, 1));
        SENDS(&r, "");
        rig_end(&r);
    }
}

/* A refused one leaves the order as it was: the right one is done after it. */
static void refused_then_done(void)
{
    struct rig r;
    unlocked(&r);
    REFUSED(&r, "FE 29", "D5 00 01 00");
    ASK(&r, "FF", "D6");
    REFUSED(&r, "FE 30", "D5 00 09 00");
    REFUSED(&r, "FE 29", "D4 00 00 00 01");
    ASK(&r, "FF", "D5 00 02 00");
    REFUSED(&r, "FE 29", "D5 00 02 00");
    REFUSED(&r, "FE 29", "D3 00 00 00 00 01");
    REFUSED(&r, "FE 30", "D4 00 00 00 11");
    ASK(&r, "FF", "D4 00 00 00 0F");
    REFUSED(&r, "FE 29", "D4 00 00 00 01"); /* a second time, though one is left */
    REFUSED(&r, "FE 30", "D4 00 01 00 02");
    ASK(&r, "FF", "D4 00 01 00 01");
    REFUSED(&r, "FE 30", "D3 00 01 00 00 81");
    ASK(&r, "FF", "D3 00 01 00 00 7F");
    REFUSED(&r, "FE 29", "D3 00 01 00 00 01");
    REFUSED(&r, "FE 30", "D3 00 00 00 0E 02");
    ASK(&r, "FF", "D3 00 00 00 0E 01");
    REFUSED(&r, "FE 30", "D3 00 00 00 00 01");
    HAS_SHAPE(&r, (&(struct shape){0, 2, {15, 1}, {[14] = 1, [15] = 127}}));
    rig_end(&r);
}

/* A list's first packet number is that of the ODTs before it: it changes with each ALLOC_ODT. */
static void first_numbers(void)
{
    struct rig r;
    freed(&r);
    ASK(&r, "FF", "D5 00 08 00");
    for (unsigned what = 0; what < 3; what += 2)
        ASK(&r, "FF 00", "DE %02X 07 00", what);
    ASK(&r, "FF", "D4 00 03 00 05");
    ASK(&r, "FF 00", "DE 02 03 00");
    ASK(&r, "FF 05", "DE 02 04 00");
    ASK(&r, "FF", "D4 00 00 00 0A");
    ASK(&r, "FF 0A", "DE 02 03 00");
    ASK(&r, "FF 0F", "DE 00 07 00");
    ASK(&r, "FF", "D4 00 07 00 01");
    ASK(&r, "FF 0F", "DE 00 07 00");
    ASK(&r, "FF 0A", "DE 02 01 00"); /* a list without ODTs has one too */
    ASK(&r, "FF", "D3 00 07 00 00 02");
    HERE();
    entry(&r, 7, 0, 1, 1, 0, 0);
    mode(&r, 7, 0);
    ASK(&r, "FF 0F", "DE 01 07 00");
    ASK(&r, "FF", "D3 00 03 00 04 7E"); /* all that is left */
    ASK(&r, "FF 0F", "DE 01 07 00");
    NUMBER("sampled", 0x100, event(&r, 0, 0x0102));
    SENDS(&r, "0F 02 01 %02X", r.cal[0]);
    rig_end(&r);
}

/* CLEAR_DAQ_LIST empties entries and leaves them allocated. */
static void clear_keeps(void)
{
    static const struct shape s = {__LINE__, 3, {2, 0, 3}, {1, 4, 0, 100, 2}};
    struct rig r;
    unlocked(&r);
    HERE();
    take_shape(&r, &s);
    entry(&r, 2, 1, 99, 1, 0, 0);
    entry(&r, 0, 1, 3, 1, 0, 0);
    for (unsigned list = 0; list < 3; list++)
        ASK(&r, "FF", "E3 00 %02X 00", list);
    HAS_SHAPE(&r, &s);
    for (unsigned list = 0; list < 3; list++) {
        HERE();
        mode(&r, list, 0);
        REFUSED(&r, "FE 2A", "DE 01 %02X 00", list);
    }
    REFUSED(&r, "FE 29", "D4 00 01 00 01");    /* no ODTs for any list, once one has entries */
    REFUSED(&r, "FE 29", "D3 00 02 00 01 01"); /* it still has entries */
    ASK(&r, "FF", "D3 00 02 00 00 15");        /* and no more than the rest is left */
    rig_end(&r);
}

/* A list without ODTs, and one whose ODTs have no entries: all but entries and a start. */
static void empty_lists(void)
{
    struct rig r;
    no_entries(&r);
    for (unsigned list = 0; list < 2; list++) {
        REFUSED(&r, "FE 22", "E2 00 %02X 00 00 00", list);
        ASK(&r, "FF", "E3 00 %02X 00", list);
        HERE();
        mode(&r, list, 1);
        REFUSED(&r, "FE 2A", "DE 01 %02X 00", list);
        ASK(&r, "FF 00", "DE 02 %02X 00", list);
        REFUSED(&r, "FE 2A", "DD 01");
        ASK(&r, "FF 00", "DE 00 %02X 00", list);
        ASK(&r, "FF", "DD 02");
        ASK(&r, "FF", "DD 01"); /* it is selected no more */
    }
    NUMBER("nothing samples", 0, event(&r, 1, 1));
    rig_end(&r);
}

/* Shapes that take all of the pool, or all that is left of it for one ODT. */
static const struct shape whole_pools[] = {
    {__LINE__, 8, {2, 2, 2, 2, 2, 2, 2, 2}, {8, 8, 8, 8, 8, 8, 8, 8, 8, 8, 8, 8, 8, 8, 8, 8}},
    {__LINE__, 1, {16}, {8, 8, 8, 8, 8, 8, 8, 8, 8, 8, 8, 8, 8, 8, 8, 8}},
    {__LINE__, 1, {16}, {1, 1, 1, 1, 1, 1, 1, 1, 1, 1, 1, 1, 1, 1, 1, 113}},
    {__LINE__, 1, {1}, {128}},
    {__LINE__, 8, {1, 0, 0, 0, 0, 0, 0, 15}, {128}},
    {__LINE__, 8, {0, 9, 0, 0, 0, 0, 0, 7}, {[15] = 128}},
    {__LINE__, 3, {5, 10, 1}, {1, 2, 3, 4, 5, 6, 7, 8, 9, 10, 11, 12, 13, 14, 15, 8}},
};

/* Every list that can starts, of some bytes, and has a sample waiting. */
static void all_sampling(struct rig *r)
{
    static const struct shape *const s = &whole_pools[0];
    unlocked(r);
    take_shape(r, s);
    for (unsigned list = 0; list < s->lists; list++) {
        r->odts = 2;
        entry(r, list, 0, 7, 4, 1, list);
        entry(r, list, 1, 0, 4, 0, list);
        mode(r, list, 0);
        ask(r, hex_of((const uint8_t[]){0xFF, (uint8_t)(2 * list)}, 2), "DE 02 %02X 00", list);
        start(r, list);
    }
    check_numbers("all sample", 0x800, event(r, 0, 0x0708));
}

/* After FREE_DAQ, from wherever it is sent, all of the pool can be had, in any shape. */
static void whole_pool_again(void)
{
    static void (*const situations[])(struct rig *) = {
        unlocked,     freed,     no_odts, no_entries,   half_allocated,
        half_running, allocated, busy,    all_sampling,
    };
    for (size_t i = 0; i < COUNT(situations); i++)
        for (size_t k = 0; k < COUNT(whole_pools); k++) {
            struct rig r;
            uint8_t answer[PACKET] = {0};
            ROW(&whole_pools[k]);
            check_note("from situation %zu", i);
            situations[i](&r);
            check_numbers("FREE_DAQ", XCP_TAKEN, give(&r, "D6"));
            check_numbers("its answer", 1, (uint32_t)slot(&r, answer));
            check_numbers("FF", 0xFF, answer[0]);
            has_shape(&r, &(struct shape){0, 0, {0}, {0}});
            take_shape(&r, &whole_pools[k]);
            has_shape(&r, &whole_pools[k]);
            for (size_t n = 0; n < COUNT(whole_pools); n++) { /* one shape after another */
                take_shape(&r, &whole_pools[n]);
                has_shape(&r, &whole_pools[n]);
            }
            check_note("%s", "");
            rig_end(&r);
        }
}

/* Nothing more is left of a pool that is taken: ODTs without entries get none. */
static void nothing_left(void)
{
    for (size_t k = 0; k < COUNT(whole_pools); k++) {
        const struct shape *s = &whole_pools[k];
        struct rig r;
        ROW(s);
        unlocked(&r);
        take_shape(&r, s);
        check_numbers("entries", POOL_ENTRIES, all_entries(s));
        for (unsigned odt = 0; odt < all_odts(s); odt++) {
            unsigned list = list_of(s, odt);
            refused(&r, s->entries[odt] > 0 ? "FE 29" : "FE 30", "D3 00 %02X 00 %02X 01", list,
                    odt - first_odt(s, list));
        }
        refused(&r, "FE 29", "D4 00 00 00 01");
        refused(&r, "FE 29", "D5 00 01 00");
        rig_end(&r);
    }
}

/* FREE_DAQ stops all lists, running or not, and drops what waits of them; no mode, no selection and
 * no entry comes back with lists of the same shape. */
static void free_stops(void)
{
    struct rig r;
    HERE();
    all_sampling(&r);
    NUMBER("FREE_DAQ", XCP_TAKEN, give(&r, "D6"));
    NUMBER("nothing samples", 0, event(&r, 0, 1));
    SENDS(&r, "FF");
    SENDS(&r, "");
    ASK(&r, "FF 00 00 00 00 00", "FD");
    HERE();
    take_shape(&r, &whole_pools[0]);
    ASK(&r, "FF", "DD 01"); /* none is selected */
    ASK(&r, "FF 00 00 00 00 00", "FD");
    for (unsigned list = 0; list < POOL_LISTS; list++) {
        REFUSED(&r, "FE 2A", "DE 01 %02X 00", list);
        HERE();
        mode(&r, list, 0);
        REFUSED(&r, "FE 2A", "DE 01 %02X 00", list); /* its entries are of size 0 */
        HERE();
        entry(&r, list, 0, 0, 1, 0, list);
        start(&r, list);
        SENDS(&r, ""); /* of the old sample nothing is left */
    }
    NUMBER("all sample", 0x800, event(&r, 0, 0x0201));
    for (unsigned list = 0; list < POOL_LISTS; list++)
        SENDS(&r, "%02X 01 02 %02X", 2 * list, r.cal[list]);
    SENDS(&r, "");
    rig_end(&r);
}

/* What FREE_DAQ leaves: memories, MTA, the seed that is out, locks, wrong keys, CTR, and whether
 * the last frame was an answer. */
static void free_leaves(void)
{
    static uint8_t cal[REACH], meas[REACH], state[XCP_STATE_SIZE];
    struct rig r;
    connected(&r);
    HERE();
    spend_key(&r, CALIBRATION);
    unlock(&r, LISTS);
    get_seed(&r, CALIBRATION);
    allocate_usual(&r);
    entry(&r, 2, 0, 0, 1, 1, 0);
    mode(&r, 2, 0);
    start(&r, 2);
    ASK(&r, "FF", "E2 00 01 00 01 03");
    ASK(&r, "FF", "F6 00 00 01 20 00 00 00");
    for (int last = 0; last < 2; last++) { /* a packet was sent last, then an answer */
        if (last == 0) {
            NUMBER("sampled", 0x100, event(&r, 0, 1));
            SENDS(&r, "04 01 00 %02X", r.meas[0]);
        }
        memcpy(cal, r.cal, REACH);
        memcpy(meas, r.meas, REACH);
        memcpy(state, r.state, sizeof state);
        NUMBER("FREE_DAQ", XCP_TAKEN, give(&r, "D6"));
        BYTES("mark, generator, wrong keys, CTR", state, ROUND_AT, r.state, ROUND_AT);
        NUMBER("the last frame", state[LAST_FRAME_AT], r.state[LAST_FRAME_AT]);
        BYTES("session, locks, seed, MTA", state + SESSION_AT, POINTER_AT - SESSION_AT,
              r.state + SESSION_AT, POINTER_AT - SESSION_AT);
        BYTES("calibration", cal, REACH, r.cal, REACH);
        BYTES("measured", meas, REACH, r.meas, REACH);
        SENDS(&r, "FF");
    }
    ASK(&r, answer_of(r.meas + 0x20, 2), "F5 02");
    ASK(&r, "FF 00", "F7 04 %02X %02X %02X %02X", LE32(key_of(r.seed, CALIBRATION)));
    rig_end(&r);
}

/* The pointer is unset by FREE_DAQ, and stays so while what it pointed at is allocated again. */
static void free_unsets_pointer(void)
{
    struct rig r;
    allocated(&r);
    ASK(&r, "FF", "E2 00 01 00 01 03");
    ASK(&r, "FF", "D6");
    REFUSED(&r, "FE 29", "E1 FF 01 00 00 00 00 00");
    HERE();
    allocate_usual(&r);
    REFUSED(&r, "FE 29", "E1 FF 01 00 00 00 00 00");
    rig_end(&r);
}

/* FREE_DAQ begins the round at list 0, wherever it was; so it is with any number of lists then. */
static void free_begins_round(void)
{
    for (unsigned served = 0; served < POOL_LISTS; served++)
        for (unsigned lists = 1; lists <= POOL_LISTS; lists++) {
            struct rig r;
            check_note("list %u was served, then %u lists", served, lists);
            HERE();
            unlocked(&r);
            allocate(&r, POOL_LISTS, 1, 1);
            entry(&r, served, 0, 0, 1, 0, 0);
            mode(&r, served, 0);
            start(&r, served);
            NUMBER("sampled", 0x100, event(&r, 0, 0));
            SENDS(&r, "%02X 00 00 %02X", served, r.cal[0]);
            HERE();
            allocate(&r, lists, 2, 1);
            for (unsigned list = 0; list < lists; list++) {
                entry(&r, list, 0, 0, 1, 0, list);
                mode(&r, list, 0);
                start(&r, list);
            }
            NUMBER("sampled", 256 * lists, event(&r, 0, 0));
            for (unsigned list = 0; list < lists; list++)
                SENDS(&r, "%02X 00 00 %02X", 2 * list, r.cal[list]);
            SENDS(&r, "");
            check_note("%s", "");
            rig_end(&r);
        }
}

/* Whatever the tables held while there were no lists, nothing of it comes to life: no ODT and no
 * entry, no mode, selection or start, no packet. */
static void nothing_old(void)
{
    static const uint8_t fills[] = {0x00, 0x01, 0x02, 0x03, 0x10, 0x2F, 0x3F, 0xA5, 0xFF};
    static const struct shape bare = {__LINE__, 8, {0}, {0}};
    for (size_t i = 0; i < COUNT(fills); i++)
        for (size_t k = 0; k < COUNT(whole_pools); k++) {
            const struct shape *s = &whole_pools[k];
            struct rig r;
            freed(&r);
            memset(r.state + ODTS_AT, fills[i], XCP_STATE_SIZE - ODTS_AT);
            check_note("tables of %02X", fills[i]);
            ASK(&r, "FF", "D5 00 08 00");
            HAS_SHAPE(&r, &bare);
            NUMBER("nothing samples", 0, event(&r, 0, 1) + event(&r, 1, 1));
            HERE();
            take_shape(&r, s);
            has_shape(&r, s);
            ASK(&r, "FF", "DD 01"); /* none is selected */
            for (unsigned list = 0; list < s->lists; list++) {
                ASK(&r, "FE 2A", "DE 01 %02X 00", list);
                HERE();
                mode(&r, list, 0);
                ASK(&r, "FE 2A", "DE 01 %02X 00", list);
            }
            NUMBER("nothing samples", 0, event(&r, 0, 1) + event(&r, 1, 1));
            SENDS(&r, "");
            check_note("%s", "");
            rig_end(&r);
        }
}

/* List 0 gets two ODTs and list 1 four, list 1 first, and all get three entries, the last ODT first:
 * step by step. */
static void step_to_entries(struct rig *r, unsigned step)
{
    if (step == 0)
        ASK(r, "FF", "D5 00 02 00");
    if (step == 1)
        ASK(r, "FF", "D4 00 01 00 04");
    if (step == 2)
        ASK(r, "FF", "D4 00 00 00 02");
    for (unsigned k = 6; step == 3 && k > 0; k--)
        ASK(r, "FF", "D3 00 %02X 00 %02X 03", k > 2, k > 2 ? k - 3 : k - 1);
}

/* A pointer that reads as unset, because what it names is not allocated, stays unset when it is. */
static void pointer_stays_unset(void)
{
    for (unsigned odt = 0; odt < 6; odt++)
        for (unsigned at = 0; at < 3; at++)
            for (unsigned before = 0; before < 4; before++) {
                unsigned list = odt >= 2, number = list ? odt - 2 : odt;
                struct rig r;
                freed(&r);
                check_note("ODT %u of list %u, entry %u, before step %u", number, list, at, before);
                for (unsigned step = 0; step < 4; step++) {
                    if (step == before) {
                        r.state[POINTER_AT] = (uint8_t)(POOL_ODTS * list + number + 1);
                        r.state[POINTER_AT + 1] = (uint8_t)at;
                    }
                    step_to_entries(&r, step);
                }
                ASK(&r, "FE 29", "E1 FF 01 00 00 00 00 00");
                check_note("%s", "");
                rig_end(&r);
            }
}

/* What the slave should have, for a walk through its commands. */
struct model {
    int freed;
    struct shape shape;
};

static unsigned walk_lists(struct model *m, unsigned count)
{
    if (!m->freed || m->shape.lists > 0)
        return 0x29;
    unsigned answer = by_pool(0, count, POOL_LISTS);
    if (answer == 0xFF)
        m->shape.lists = count;
    return answer;
}

static unsigned walk_odts(struct model *m, unsigned list, unsigned count)
{
    struct shape *s = &m->shape;
    if (s->lists == 0 || all_entries(s) > 0 || (list < s->lists && s->odts[list] > 0))
        return 0x29;
    unsigned answer = list >= s->lists ? 0x22 : by_pool(all_odts(s), count, POOL_ODTS);
    if (answer == 0xFF)
        s->odts[list] = (uint8_t)count;
    return answer;
}

static unsigned walk_entries(struct model *m, unsigned list, unsigned odt, unsigned count)
{
    struct shape *s = &m->shape;
    int there = list < s->lists && odt < s->odts[list];
    unsigned number = first_odt(s, list) + odt;
    if (all_odts(s) == 0 || (there && s->entries[number] > 0))
        return 0x29;
    unsigned answer = !there ? 0x22 : by_pool(all_entries(s), count, POOL_ENTRIES);
    if (answer == 0xFF)
        s->entries[number] = (uint8_t)count;
    return answer;
}

/* One command of the four, with numbers as the dice fall: mostly small ones. */
static void walk_step(struct rig *r, struct model *m, uint32_t dice)
{
    unsigned which = dice >> 28, list = dice >> 24 & 15, odt = dice >> 18 & 63;
    unsigned count = dice >> 10 & 255, expected = 0xFF;
    uint8_t answer[PACKET] = {0};
    char packet[TEXT];
    list = list < 12 ? list % 4 : list;
    odt = odt < 48 ? odt % 4 : odt - 48;
    count = count < 200 ? count % 12 : count;
    if (which == 0) {
        snprintf(packet, sizeof packet, "D6");
        *m = (struct model){1, {0, 0, {0}, {0}}};
    } else if (which < 5) {
        snprintf(packet, sizeof packet, "D5 00 %02X 00", count);
        expected = walk_lists(m, count);
    } else if (which < 10) {
        snprintf(packet, sizeof packet, "D4 00 %02X 00 %02X", list, count);
        expected = walk_odts(m, list, count);
    } else {
        snprintf(packet, sizeof packet, "D3 00 %02X 00 %02X %02X", list, odt, count);
        expected = walk_entries(m, list, odt, count);
    }
    check_note("%s", packet);
    NUMBER("taken", 1, give(r, "%s", packet));
    NUMBER("answer", expected == 0xFF ? 1 : 2, (uint32_t)slot(r, answer));
    NUMBER("its code", expected, expected == 0xFF ? answer[0] : answer[1]);
}

static void walk(void)
{
    struct rig r;
    struct model m = {0, {0, 0, {0}, {0}}};
    uint32_t dice = 2025;
    unlocked(&r);
    for (unsigned step = 0; step < 30000; step++) {
        dice = dice * 1664525u + 1013904223u;
        walk_step(&r, &m, dice);
        if (step % 16 == 0)
            HAS_SHAPE(&r, &m.shape);
    }
    check_note("%s", "");
    rig_end(&r);
}

void test_pool(void)
{
    every_fault();
    every_count_of_lists();
    every_count_of_odts();
    every_count_of_entries();
    every_number();
    every_list();
    every_entry();
    no_lists();
    refused_then_done();
    first_numbers();
    clear_keeps();
    empty_lists();
    whole_pool_again();
    nothing_left();
    free_stops();
    free_leaves();
    free_unsets_pointer();
    free_begins_round();
    nothing_old();
    pointer_stays_unset();
    walk();
}
