#include "host.h"
#include "shape.h"

/* Lists of any shape at work: one long list, eight short ones, and what is between. */

/* Lists of a shape at work: what each entry samples, by its number over all ODTs; how many lists
 * run; and with which list the next round of packets begins. */
struct work {
    const struct shape *shape;
    uint8_t size[POOL_ENTRIES], ext[POOL_ENTRIES];
    uint16_t address[POOL_ENTRIES];
    unsigned running, round;
};

static unsigned first_entry(const struct shape *s, unsigned odt)
{
    unsigned sum = 0;
    for (unsigned before = 0; before < odt; before++)
        sum += s->entries[before];
    return sum;
}

static int is_first(const struct shape *s, unsigned odt)
{
    return odt == first_odt(s, list_of(s, odt));
}

/* As many bytes in every ODT as it has room for, in entries of all sizes; those behind are of 0. */
static void plan(struct work *w, const struct shape *s)
{
    memset(w, 0, sizeof *w);
    w->shape = s;
    for (unsigned odt = 0; odt < all_odts(s); odt++) {
        unsigned left = is_first(s, odt) ? FIRST_MOST : LATER_MOST;
        for (unsigned at = 0; at < s->entries[odt]; at++) {
            unsigned n = first_entry(s, odt) + at, size = ENTRY_MOST - (at + odt) % 5 % 4;
            w->size[n] = (uint8_t)(size < left ? size : left);
            w->ext[n] = (at + odt) % 2;
            w->address[n] = (uint16_t)((n * 311 + 7 * odt) % (REACH - ENTRY_MOST));
            left -= w->size[n];
        }
    }
}

/* The packet of an ODT as the memories are now, without number; gives how many bytes. */
static size_t packet_of(const struct rig *r, const struct work *w, unsigned odt, uint16_t clock,
                        uint8_t packet[PACKET])
{
    size_t len = 0;
    if (is_first(w->shape, odt)) {
        packet[len++] = (uint8_t)clock;
        packet[len++] = (uint8_t)(clock >> 8);
    }
    for (unsigned n = first_entry(w->shape, odt); n < first_entry(w->shape, odt + 1); n++) {
        memcpy(packet + len, (w->ext[n] ? r->meas : r->cal) + w->address[n], w->size[n]);
        len += w->size[n];
    }
    return len;
}

/* Writes all entries of an ODT, one behind the other. */
static void write_odt(struct rig *r, const struct work *w, unsigned odt)
{
    const struct shape *s = w->shape;
    unsigned list = list_of(s, odt);
    if (s->entries[odt] == 0)
        return;
    ask(r, "FF", "E2 00 %02X 00 %02X 00", list, odt - first_odt(s, list));
    for (unsigned n = first_entry(s, odt); n < first_entry(s, odt + 1); n++)
        ask(r, "FF", "E1 FF %02X %02X %02X %02X 00 00", w->size[n], w->ext[n], LE16(w->address[n]));
    ask(r, "FE 29", "E1 FF 00 00 00 00 00 00"); /* the pointer is unset behind the last */
}

static int has_bytes(const struct work *w, unsigned odt)
{
    for (unsigned n = first_entry(w->shape, odt); n < first_entry(w->shape, odt + 1); n++)
        if (w->size[n] > 0)
            return 1;
    return 0;
}

/* Some ODT of the list has bytes: only then can it start. */
static int can_start(const struct work *w, unsigned list)
{
    for (unsigned odt = first_odt(w->shape, list); odt < first_odt(w->shape, list + 1); odt++)
        if (has_bytes(w, odt))
            return 1;
    return 0;
}

/* Sets all of it up on event 0, and starts every list that can. */
static void set_up(struct rig *r, struct work *w)
{
    for (unsigned odt = 0; odt < all_odts(w->shape); odt++)
        write_odt(r, w, odt);
    for (unsigned list = 0; list < w->shape->lists; list++) {
        const uint8_t first[] = {(uint8_t)first_odt(w->shape, list)};
        mode(r, list, 0);
        ask(r, can_start(w, list) ? answer_of(first, 1) : "FE 2A", "DE 01 %02X 00", list);
        w->running += can_start(w, list) ? 1 : 0;
    }
}

/* The ODT of a list whose packet is next, from this one on; behind its last if there is none. */
static unsigned next_packet(const struct work *w, unsigned list, unsigned odt)
{
    unsigned first = first_odt(w->shape, list), end = first_odt(w->shape, list + 1);
    if (!can_start(w, list))
        return end;
    while (odt < end && odt != first && !has_bytes(w, odt))
        odt++;
    return odt;
}

/* All packets of a sample as they were at the event, round the lists: a packet of each in turn. */
static void sends_sample(struct rig *r, struct work *w, uint8_t packets[POOL_ODTS][PACKET],
                         const size_t lens[POOL_ODTS])
{
    const struct shape *s = w->shape;
    unsigned next[POOL_LISTS], left = w->running;
    for (unsigned list = 0; list < s->lists; list++)
        next[list] = next_packet(w, list, first_odt(s, list));
    for (unsigned list = w->round; left > 0; list = (list + 1) % s->lists) {
        unsigned odt = next[list], end = first_odt(s, list + 1);
        if (odt == end)
            continue;
        sends(r, "%02X %s", odt, hex_of(packets[odt], lens[odt]));
        next[list] = next_packet(w, list, odt + 1);
        left -= next[list] == end;
        w->round = (list + 1) % s->lists;
    }
    sends(r, "");
}

/* An event: every list samples, and all of it reads back as it was then, whatever the memories hold
 * when it leaves. */
static void sampled_whole(struct rig *r, struct work *w, uint16_t clock)
{
    static uint8_t packets[POOL_ODTS][PACKET];
    size_t lens[POOL_ODTS] = {0};
    for (unsigned odt = 0; odt < all_odts(w->shape); odt++)
        lens[odt] = packet_of(r, w, odt, clock, packets[odt]);
    check_numbers("all sample", 256 * w->running, event(r, 0, clock));
    for (size_t i = 0; i < REACH; i++) {
        r->cal[i] = (uint8_t)(r->cal[i] * 5 + 1);
        r->meas[i] ^= SYNC;
    }
    check_numbers("all miss the next", w->running, event(r, 0, 1));
    check_numbers("none is on the other", 0, event(r, 1, 1));
    sends_sample(r, w, packets, lens);
}

static const struct shape shapes[] = {
    /* one long list: sixteen packets */
    {__LINE__, 1, {16}, {8, 8, 8, 8, 8, 8, 8, 8, 8, 8, 8, 8, 8, 8, 8, 8}},
    {__LINE__, 1, {16}, {15, 15, 15, 15, 15, 15, 15, 15, 1, 1, 1, 1, 1, 1, 1, 1}},
    /* eight short ones */
    {__LINE__, 8, {2, 2, 2, 2, 2, 2, 2, 2}, {8, 8, 8, 8, 8, 8, 8, 8, 8, 8, 8, 8, 8, 8, 8, 8}},
    {__LINE__, 8, {1, 1, 1, 1, 1, 1, 1, 1}, {16, 16, 16, 16, 16, 16, 16, 16}},
    /* one ODT of all entries there are */
    {__LINE__, 1, {1}, {128}},
    /* lists that differ: a first ODT has an even or an odd number, lists and ODTs have nothing */
    {__LINE__, 5, {1, 3, 0, 2, 5}, {4, 30, 1, 17, 2, 9, 16, 16, 16, 16, 1}},
    {__LINE__, 3, {3, 1, 2}, {20, 0, 40, 0, 0, 7}},
    {__LINE__, 8, {0, 0, 0, 0, 0, 0, 0, 9}, {0, 1, 0, 2, 0, 3, 0, 4, 0}},
    {__LINE__, 2, {15, 1}, {1, 2, 3, 4, 5, 6, 7, 8, 9, 10, 11, 12, 13, 14, 15, 8}},
};

/* Each is allocated, set up, started, sampled and read, a few times; then the next one is. */
static void every_shape(void)
{
    struct rig r;
    struct work w;
    unlocked(&r);
    for (size_t i = 0; i < COUNT(shapes); i++) {
        ROW(&shapes[i]);
        plan(&w, &shapes[i]);
        take_shape(&r, &shapes[i]);
        has_shape(&r, &shapes[i]);
        set_up(&r, &w);
        for (uint16_t clock = 0x9A98; clock < 0x9A9E; clock++)
            sampled_whole(&r, &w, clock);
        has_shape(&r, &shapes[i]);
    }
    rig_end(&r);
}

/* The entries of an ODT, whichever were allocated before: the five ODTs of two lists in every
 * order, each written as soon as it can be. */
static void every_order(void)
{
    static const struct shape s = {__LINE__, 2, {3, 2}, {4, 3, 20, 5, 1}};
    struct work w;
    for (unsigned order = 0; order < 5 * 4 * 3 * 2; order++) {
        struct rig r;
        uint8_t left[] = {0, 1, 2, 3, 4};
        plan(&w, &s);
        unlocked(&r);
        check_note("order %u", order);
        HERE();
        take_shape(&r, &(struct shape){__LINE__, 2, {3, 2}, {0}});
        for (unsigned count = 5, rest = order; count > 0; rest /= count, count--) {
            unsigned which = rest % count, odt = left[which], list = odt > 2;
            memmove(left + which, left + which + 1, count - which - 1);
            ASK(&r, "FF", "D3 00 %02X 00 %02X %02X", list, odt - 3 * list, s.entries[odt]);
            HERE();
            write_odt(&r, &w, odt);
        }
        HAS_SHAPE(&r, &s);
        for (unsigned list = 0; list < 2; list++) {
            HERE();
            mode(&r, list, 0);
            ASK(&r, list == 0 ? "FF 00" : "FF 03", "DE 01 %02X 00", list);
            w.running++;
        }
        HERE();
        sampled_whole(&r, &w, 0x0102);
        check_note("%s", "");
        rig_end(&r);
    }
}

/* List 1 runs on event 1, with bytes in its first and third ODT; a sample of it waits, and the
 * pointer is in it. The lists around it have ODTs without entries. */
static void in_the_middle(struct rig *r)
{
    unlocked(r);
    take_shape(r, &(struct shape){__LINE__, 3, {2, 3, 1}, {0, 0, 9, 0, 16, 0}});
    entry(r, 1, 0, 8, 3, 0, 0x10);
    entry(r, 1, 2, 15, 2, 0, 0x20);
    mode(r, 1, 1);
    ask(r, "FF 02", "DE 01 01 00");
    ask(r, "FF", "E2 00 01 00 02 01");
    check_numbers("sampled", 0x100, event(r, 1, 0x0304));
}

/* While a list runs, others get entries, before it and behind it: its own entries stay, and what of
 * its sample waits, and where the pointer points. */
static void beside_a_running_list(void)
{
    struct rig r;
    HERE();
    in_the_middle(&r);
    NUMBER("taken", 1, give(&r, "D3 00 00 00 01 02"));
    SENDS(&r, "02 04 03 %s", hex_of(r.cal + 0x10, 3)); /* the last frame was an answer */
    SENDS(&r, "FF");
    NUMBER("taken", 1, give(&r, "D3 00 00 00 00 07"));
    SENDS(&r, "04 %s", hex_of(r.cal + 0x20, 2));
    SENDS(&r, "FF");
    ASK(&r, "FF", "D3 00 02 00 00 05");
    REFUSED(&r, "FE 29", "D3 00 01 00 00 01");
    REFUSED(&r, "FE 11", "D3 00 01 00 01 01");
    HAS_SHAPE(&r, (&(struct shape){__LINE__, 3, {2, 3, 1}, {7, 2, 9, 0, 16, 5}}));
    NUMBER("sampled again", 0x100, event(&r, 1, 0x0506));
    SENDS(&r, "02 06 05 %s", hex_of(r.cal + 0x10, 3));
    SENDS(&r, "04 %s", hex_of(r.cal + 0x20, 2));
    REFUSED(&r, "FE 11", "E1 FF 01 00 00 00 00 00"); /* the pointer is in it still */
    ASK(&r, "FF 02", "DE 00 01 00");
    ASK(&r, "FF", "E1 FF 01 00 30 00 00 00");
    ASK(&r, "FF 02", "DE 01 01 00");
    NUMBER("sampled", 0x100, event(&r, 1, 0x0708));
    SENDS(&r, "02 08 07 %s", hex_of(r.cal + 0x10, 3));
    SENDS(&r, "04 %02X %s", r.cal[0x30], hex_of(r.cal + 0x20, 2));
    SENDS(&r, "");
    rig_end(&r);
}

/* Entries that are allocated have size 0, also where the entries of ODTs behind them were; and the
 * pointer stays at its entry of such an ODT. */
static void new_entries_are_empty(void)
{
    struct rig r;
    unlocked(&r);
    HERE();
    take_shape(&r, &(struct shape){__LINE__, 2, {2, 1}, {0, 3, 2}});
    for (unsigned at = 0; at < 3; at++)
        entry(&r, 0, 1, at, 1, 0, at);
    entry(&r, 1, 0, 0, 1, 0, 3);
    ASK(&r, "FF", "E2 00 00 00 01 01");
    ASK(&r, "FF", "D3 00 00 00 00 05");
    ASK(&r, "FF", "E1 FF 01 00 50 00 00 00");
    HERE();
    mode(&r, 0, 0);
    ASK(&r, "FF 00", "DE 01 00 00");
    NUMBER("sampled", 0x100, event(&r, 0, 0x0102));
    SENDS(&r, "00 02 01"); /* all five are of size 0 */
    SENDS(&r, "01 %02X %02X %02X", r.cal[0], r.cal[0x50], r.cal[2]);
    SENDS(&r, "");
    rig_end(&r);
}

/* The rooms of a list's ODTs: 61 bytes in the first, 63 in each later one, wherever the list is. */
static void rooms(void)
{
    for (unsigned odts = 1; odts <= 8; odts += 7)
        for (unsigned odt = 0; odt < odts; odt++) {
            struct shape s = {__LINE__, 2, {8, (uint8_t)odts}, {0}};
            unsigned most = odt == 0 ? FIRST_MOST : LATER_MOST;
            struct rig r;
            uint8_t packet[PACKET];
            s.entries[8 + odt] = 16;
            unlocked(&r);
            check_note("ODT %u of %u", odt, odts);
            HERE();
            take_shape(&r, &s);
            mode(&r, 1, 0);
            entries(&r, 1, odt, most + 1, 0, 0);
            REFUSED(&r, "FE 2A", "DE 01 01 00");
            HERE();
            entries(&r, 1, odt, most, 0, 0);
            ASK(&r, "FF 08", "DE 01 01 00");
            NUMBER("sampled", 0x100, event(&r, 0, 1));
            if (odt > 0)
                NUMBER("number and clock", 3, (uint32_t)slot(&r, packet));
            NUMBER("a packet as long as can be", PACKET, (uint32_t)slot(&r, packet));
            NUMBER("its number", 8 + odt, packet[0]);
            SENDS(&r, "");
            check_note("%s", "");
            rig_end(&r);
        }
}

/* A first ODT sends number and clock, with bytes or without; a later one without bytes, nothing. */
static void empty_odts(void)
{
    struct rig r;
    unlocked(&r);
    HERE();
    take_shape(&r, &(struct shape){__LINE__, 2, {1, 5}, {1, 0, 4, 0, 2, 0}});
    mode(&r, 1, 1);
    entry(&r, 1, 3, 1, 2, 0, 0x40);
    ASK(&r, "FF 01", "DE 01 01 00");
    NUMBER("sampled", 0x100, event(&r, 1, 0xBEEF));
    SENDS(&r, "01 EF BE");
    SENDS(&r, "04 %s", hex_of(r.cal + 0x40, 2));
    SENDS(&r, "");
    rig_end(&r);
}

/* Eight lists on one event: of its counts each goes from 0 to 8. */
static void counts_to_eight(void)
{
    struct rig r;
    unlocked(&r);
    HERE();
    allocate(&r, POOL_LISTS, 1, 1);
    for (unsigned list = 0; list < POOL_LISTS; list++) {
        entry(&r, list, 0, 0, 1, 0, list);
        mode(&r, list, 1);
        start(&r, list);
    }
    for (unsigned sent = 0; sent <= POOL_LISTS; sent++) {
        uint8_t packet[PACKET];
        check_note("%u sent", sent);
        drain(&r, packet);
        NUMBER("eight sample", 0x800, event(&r, 1, 1));
        for (unsigned i = 0; i < sent; i++)
            NUMBER("a packet", 4, (uint32_t)slot(&r, packet));
        uint32_t result =
            xcp_event(r.state, XCP_STATE_SIZE, r.cal, r.cal_len, r.meas, r.meas_len, 1, 2);
        NUMBER("done", XCP_DONE, XCP_NUMBER(result));
        NUMBER("sampled", sent, XCP_SAMPLED(result));
        NUMBER("missed", POOL_LISTS - sent, XCP_MISSED(result));
    }
    check_note("%s", "");
    rig_end(&r);
}

/* A long list misses every event until the last of its packets has left. */
static void long_list_misses(void)
{
    struct rig r;
    uint8_t packet[PACKET];
    unlocked(&r);
    HERE();
    allocate(&r, 1, POOL_ODTS, 1);
    for (unsigned odt = 0; odt < POOL_ODTS; odt++)
        entry(&r, 0, odt, 0, 1, 0, odt);
    mode(&r, 0, 0);
    start(&r, 0);
    for (int sample = 0; sample < 3; sample++) {
        NUMBER("sampled", 0x100, event(&r, 0, 1));
        for (unsigned odt = 0; odt < POOL_ODTS; odt++) {
            NUMBER("missed", 1, event(&r, 0, 2));
            NUMBER("a packet", odt == 0 ? 4 : 2, (uint32_t)slot(&r, packet));
            NUMBER("its number", odt, packet[0]);
            NUMBER("its last byte", r.cal[odt], packet[odt == 0 ? 3 : 1]);
        }
    }
    rig_end(&r);
}

/* Lists with so many packets each, all of a byte, that run on event 0. */
static void start_lists(struct rig *r, unsigned lists, unsigned packets)
{
    allocate(r, lists, packets, 1);
    for (unsigned list = 0; list < lists; list++) {
        for (unsigned odt = 0; odt < packets; odt++)
            entry(r, list, odt, 0, 1, 0, odt);
        mode(r, list, 0);
        start(r, list);
    }
}

/* With answers coming all the time: of L lists each has its next packet sent within 2L slots, and
 * of a sample of p packets the last leaves in slot 2Lp, not before. */
static void every_bound(void)
{
    for (unsigned lists = 1; lists <= POOL_LISTS; lists++)
        for (unsigned packets = 1; lists * packets <= POOL_ODTS; packets++) {
            struct rig r;
            uint8_t packet[PACKET];
            HERE();
            unlocked(&r);
            start_lists(&r, lists, packets);
            event(&r, 0, 0);
            drain(&r, packet); /* the last frame is the last list's */
            NUMBER("sampled", 256 * lists, event(&r, 0, 0));
            for (unsigned i = 0; i < 2 * lists * packets; i++) {
                unsigned list = i / 2 % lists, odt = i / 2 / lists;
                check_note("%u lists of %u packets, slot %u", lists, packets, i + 1);
                if (i % 2 == 0)
                    NUMBER("SYNCH", 1, give(&r, "FC"));
                NUMBER("a frame", 1, slot(&r, packet) > 0);
                NUMBER("its first byte", i % 2 == 0 ? 0xFE : packets * list + odt, packet[0]);
            }
            check_note("%s", "");
            SENDS(&r, "");
            rig_end(&r);
        }
}

/* The rule of turns, as a model to run against: whose frame is next, or NOBODY, or the ANSWER.
 * waiting[l] is how many of its packets list l has unsent. */
enum { ANSWER = POOL_LISTS, NOBODY };

struct turns {
    const struct shape *shape;
    int answer, last_was_answer;
    unsigned next, waiting[POOL_LISTS];
};

static unsigned whose_turn(const struct turns *t)
{
    if (t->answer && !t->last_was_answer)
        return ANSWER;
    for (unsigned i = 0; i < t->shape->lists; i++)
        if (t->waiting[(t->next + i) % t->shape->lists] > 0)
            return (t->next + i) % t->shape->lists;
    return t->answer ? ANSWER : NOBODY;
}

static void one_turn(struct rig *r, struct turns *t)
{
    uint8_t packet[PACKET] = {0};
    unsigned turn = whose_turn(t);
    size_t len = slot(r, packet);
    NUMBER("a frame", turn != NOBODY, len > 0);
    if (turn == ANSWER) {
        NUMBER("the answer", 0xFE, packet[0]);
        t->answer = 0;
        t->last_was_answer = 1;
    } else if (turn != NOBODY) {
        unsigned left = t->waiting[turn]--;
        NUMBER("packet", first_odt(t->shape, turn + 1) - left, packet[0]);
        t->next = (turn + 1) % t->shape->lists;
        t->last_was_answer = 0;
    }
}

static void one_event(struct rig *r, struct turns *t, unsigned number)
{
    uint32_t expected = 0;
    for (unsigned list = 0; list < t->shape->lists; list++)
        if (list % 2 != number || t->shape->odts[list] == 0) {
            continue; /* on the other event, or without ODTs */
        } else if (t->waiting[list] > 0) {
            expected += 1;
        } else {
            expected += 256;
            t->waiting[list] = t->shape->odts[list];
        }
    NUMBER("event", expected, event(r, number, (uint16_t)expected));
}

/* Every ODT has a byte, and lists are on event 0 and 1 by turns; so many steps as the dice fall. */
static void turns_of(const struct shape *s, uint32_t dice)
{
    struct rig r;
    struct turns t = {s, 0, 1, 0, {0}};
    ROW(s);
    unlocked(&r);
    take_shape(&r, s);
    for (unsigned list = 0; list < s->lists; list++) {
        const uint8_t first[] = {(uint8_t)first_odt(s, list)};
        for (unsigned odt = 0; odt < s->odts[list]; odt++)
            entry(&r, list, odt, 0, 1, 0, odt);
        mode(&r, list, list % 2);
        if (s->odts[list] > 0)
            ask(&r, answer_of(first, 1), "DE 01 %02X 00", list);
    }
    ask(&r, "FE 00", "FC");
    for (int step = 0; step < 4000; step++) {
        dice = dice * 1664525u + 1013904223u;
        check_note("lists of line %d, step %d", s->line, step);
        unsigned choice = dice >> 24;
        if (choice < 40) {
            one_event(&r, &t, choice % 2);
        } else if (choice < 128) {
            NUMBER("SYNCH", t.answer ? 6 : 1, give(&r, "FC"));
            t.answer = 1;
        } else {
            one_turn(&r, &t);
        }
    }
    check_note("%s", "");
    rig_end(&r);
}

static void turns(void)
{
    static const struct shape of[] = {
        {__LINE__, 4, {2, 2, 1, 1}, {1, 1, 1, 1, 1, 1}},
        {__LINE__, 1, {16}, {1, 1, 1, 1, 1, 1, 1, 1, 1, 1, 1, 1, 1, 1, 1, 1}},
        {__LINE__, 8, {2, 2, 2, 2, 2, 2, 2, 2}, {1, 1, 1, 1, 1, 1, 1, 1, 1, 1, 1, 1, 1, 1, 1, 1}},
        {__LINE__, 5, {1, 3, 0, 2, 5}, {1, 1, 1, 1, 1, 1, 1, 1, 1, 1, 1}},
        {__LINE__, 7, {1, 0, 1, 9, 0, 0, 4}, {1, 1, 1, 1, 1, 1, 1, 1, 1, 1, 1, 1, 1, 1, 1}},
        {__LINE__, 3, {1, 1, 1}, {1, 1, 1}},
    };
    for (size_t i = 0; i < COUNT(of); i++)
        turns_of(&of[i], 12345 + (uint32_t)i);
}

void test_shapes(void)
{
    every_shape();
    every_order();
    beside_a_running_list();
    new_entries_are_empty();
    rooms();
    empty_odts();
    counts_to_eight();
    long_list_misses();
    every_bound();
    turns();
}
