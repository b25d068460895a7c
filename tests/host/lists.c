#include "host.h"

/* A list with one byte of measured memory in ODT 0, at the address of its own number. */
static void small_list(struct rig *r, unsigned list, unsigned event_number)
{
    entry(r, list, 0, 0, 1, 1, list);
    mode(r, list, event_number);
}

/* Four small lists on event 0; all waiting packets of an event, then no more. */
static void four_lists(struct rig *r)
{
    allocated(r);
    memcpy(r->meas, "\xB0\xB1\xB2\xB3", 4);
    for (unsigned list = 0; list < LIST_COUNT; list++)
        small_list(r, list, 0);
}

/* An event must be sampled by exactly these lists (bit l for list l), and missed by none. */
static void sampled_by(struct rig *r, uint32_t number, unsigned lists)
{
    unsigned seen = 0;
    uint32_t count = 0;
    uint8_t packet[PACKET];
    uint32_t counts = event(r, number, 0x2211);
    for (int slots = 0; slots < 16 && slot(r, packet) > 0; slots++) {
        seen |= 1u << packet[0] / 2;
        count += packet[0] % 2 == 0; /* ODT 0: one for each list */
    }
    check_numbers("lists that sent", lists, seen);
    check_numbers("sampled and missed", 256 * count, counts);
}
#define SAMPLED_BY(r, number, lists) (HERE(), sampled_by(r, number, lists))

static void status_runs(struct rig *r, int runs)
{
    ask(r, runs ? "FF 40 00 00 00 00" : "FF 00 00 00 00 00", "FD");
}
#define STATUS_RUNS(r, runs) (HERE(), status_runs(r, runs))

/* WRITE_DAQ steps through the entries of one ODT, and leaves the pointer unset after the last. */
static void pointer_steps(void)
{
    for (unsigned odt = 0; odt < ODT_COUNT; odt++)
        for (unsigned first = 0; first < ENTRY_COUNT; first++) {
            struct rig r;
            allocated(&r);
            check_note("ODT %u from entry %u", odt, first);
            ASK(&r, "FF", "E2 00 03 00 %02X %02X", odt, first);
            for (unsigned at = first; at < ENTRY_COUNT; at++)
                ASK(&r, "FF", "E1 FF 01 01 %02X 00 00 00", at);
            REFUSED(&r, "FE 29", "E1 FF 01 01 00 00 00 00");
            HERE();
            mode(&r, 3, 0);
            start(&r, 3);
            NUMBER("sampled", 0x100, event(&r, 0, 0x0102));
            if (odt == 1)
                SENDS(&r, "06 02 01");
            SENDS(&r, "%s %s", odt == 0 ? "06 02 01" : "07",
                  hex_of(r.meas + first, ENTRY_COUNT - first));
            SENDS(&r, "");
            check_note("%s", "");
            rig_end(&r);
        }
}

static void clear(void)
{
    struct rig r;
    four_lists(&r);
    ASK(&r, "FF 02", "DE 02 01 00");
    ASK(&r, "FF 04", "DE 02 02 00");
    ASK(&r, "FF", "E2 00 01 00 00 02");
    ASK(&r, "FF", "E3 00 01 00");
    REFUSED(&r, "FE 2A", "DE 01 01 00");
    HERE();
    mode(&r, 1, 0);
    REFUSED(&r, "FE 2A", "DE 01 01 00"); /* its entries are gone */
    ASK(&r, "FF", "E1 FF 01 01 03 00 00 00"); /* the pointer stayed, and steps on */
    ASK(&r, "FF", "DD 01");
    SAMPLED_BY(&r, 0, 4); /* list 1 is not selected any more, list 2 is */
    HERE();
    start(&r, 1);
    NUMBER("sampled by list 1, missed by none", 0x200, event(&r, 0, 0x2211));
    SENDS(&r, "02 11 22 B3");
    SENDS(&r, "04 11 22 B2");
    ASK(&r, "FF 02", "DE 00 01 00");
    ASK(&r, "FF", "E3 00 01 00");
    HERE();
    entry(&r, 1, 0, 0, 1, 1, 0);
    REFUSED(&r, "FE 2A", "DE 01 01 00"); /* its mode is forgotten */
    rig_end(&r);
}

static void set_mode(void)
{
    struct rig r;
    four_lists(&r);
    ASK(&r, "FF 00", "DE 02 00 00");
    HERE();
    mode(&r, 0, 1); /* another event; the selection stays */
    ASK(&r, "FF", "DD 01");
    SAMPLED_BY(&r, 0, 0);
    SAMPLED_BY(&r, 1, 1);
    ASK(&r, "FF", "E2 00 00 00 00 01"); /* the pointer may enter a running list */
    REFUSED(&r, "FE 11", "E1 FF 01 01 00 00 00 00");
    ASK(&r, "FF 00", "DE 00 00 00");
    ASK(&r, "FF", "E1 FF 01 01 03 00 00 00");
    HERE();
    start(&r, 0);
    NUMBER("sampled", 0x100, event(&r, 1, 0x2211));
    SENDS(&r, "00 11 22 B0 B3");
    rig_end(&r);
}

static void start_and_stop(void)
{
    struct rig r;
    four_lists(&r);
    STATUS_RUNS(&r, 0);
    for (unsigned list = 0; list < LIST_COUNT; list++) {
        HERE();
        start(&r, list);
        STATUS_RUNS(&r, 1);
        SAMPLED_BY(&r, 0, (2u << list) - 1);
    }
    NUMBER("all sample", 0x400, event(&r, 0, 1));
    for (unsigned list = 0; list < LIST_COUNT; list++) { /* a stop drops what waits */
        NUMBER("taken", 1, give(&r, "DE 00 %02X 00", list));
        SENDS(&r, "FF %02X", 2 * list);
        if (list < 3)
            SENDS(&r, "%02X 01 00 %02X", 2 * list + 2, 0xB1 + list);
    }
    SENDS(&r, "");
    STATUS_RUNS(&r, 0);
    SAMPLED_BY(&r, 0, 0);
    ASK(&r, "FF 06", "DE 00 03 00"); /* a stopped list stops again */
    HERE();
    start(&r, 3);
    SAMPLED_BY(&r, 0, 8);
    rig_end(&r);
}

/* Starting a running list changes nothing: packets and selection stay. */
static void start_again(void)
{
    struct rig r;
    uint8_t packet[PACKET];
    four_lists(&r);
    HERE();
    entry(&r, 1, 1, 3, 2, 1, 2);
    ASK(&r, "FF 02", "DE 02 01 00");
    start(&r, 1);
    NUMBER("sampled", 0x100, event(&r, 0, 0x3344));
    NUMBER("first packet", 4, (uint32_t)slot(&r, packet));
    NUMBER("taken", 1, give(&r, "DE 01 01 00"));
    SENDS(&r, "FF 02");
    NUMBER("missed", 1, event(&r, 0, 0x5566));
    SENDS(&r, "03 B2 B3");
    NUMBER("sampled", 0x100, event(&r, 0, 0x5566));
    NUMBER("first packet", 4, (uint32_t)slot(&r, packet));
    NUMBER("taken", 1, give(&r, "DD 01")); /* it is selected still, and runs already */
    SENDS(&r, "FF");
    SENDS(&r, "03 B2 B3");
    SENDS(&r, "");
    ASK(&r, "FF", "DD 02"); /* once done, none is selected */
    SAMPLED_BY(&r, 0, 2);
    rig_end(&r);
}

/* Select, start it by itself, then stop what is selected. */
static void select_then_start(void)
{
    struct rig r;
    four_lists(&r);
    ASK(&r, "FF 02", "DE 02 01 00");
    ASK(&r, "FF 06", "DE 02 03 00");
    HERE();
    start(&r, 1);
    start(&r, 2);
    SAMPLED_BY(&r, 0, 6);
    ASK(&r, "FF 04", "DE 00 02 00");
    ASK(&r, "FF 02", "DE 00 01 00"); /* a stop does not deselect */
    HERE();
    start(&r, 1);
    start(&r, 2);
    ASK(&r, "FF", "DD 02");
    SAMPLED_BY(&r, 0, 4);
    ASK(&r, "FF", "DD 01"); /* none is selected: nothing starts */
    SAMPLED_BY(&r, 0, 4);
    ASK(&r, "FF", "DD 02");
    SAMPLED_BY(&r, 0, 4);
    rig_end(&r);
}

/* A list may be selected while it runs, and without mode or entry. */
static void select_any(void)
{
    struct rig r;
    allocated(&r);
    memcpy(r.meas, "\xB0\xB1\xB2\xB3", 4);
    HERE();
    small_list(&r, 0, 0);
    start(&r, 0);
    ASK(&r, "FF 00", "DE 02 00 00");
    ASK(&r, "FF 02", "DE 02 01 00");
    REFUSED(&r, "FE 2A", "DD 01");
    SAMPLED_BY(&r, 0, 1);
    HERE();
    small_list(&r, 1, 0);
    ASK(&r, "FF", "DD 01"); /* the selections outlived the refusal */
    SAMPLED_BY(&r, 0, 3);
    rig_end(&r);
}

static void stop_selected(void)
{
    struct rig r;
    four_lists(&r);
    for (unsigned list = 0; list < LIST_COUNT; list++) {
        HERE();
        start(&r, list);
    }
    ASK(&r, "FF 00", "DE 02 00 00");
    ASK(&r, "FF 04", "DE 02 02 00");
    NUMBER("all sample", 0x400, event(&r, 0, 0x0807));
    NUMBER("taken", 1, give(&r, "DD 02"));
    SENDS(&r, "02 07 08 B1");
    SENDS(&r, "FF");
    SENDS(&r, "06 07 08 B3");
    SENDS(&r, "");
    SAMPLED_BY(&r, 0, 10);
    rig_end(&r);
}

static void stop_all(void)
{
    struct rig r;
    four_lists(&r);
    for (unsigned list = 0; list < 3; list++) {
        HERE();
        start(&r, list);
    }
    ASK(&r, "FF 06", "DE 02 03 00");
    NUMBER("three sample", 0x300, event(&r, 0, 0x0807));
    NUMBER("taken", 1, give(&r, "DD 00"));
    SENDS(&r, "FF");
    SENDS(&r, "");
    STATUS_RUNS(&r, 0);
    SAMPLED_BY(&r, 0, 0);
    ASK(&r, "FF", "DD 01"); /* list 3 is not selected any more */
    STATUS_RUNS(&r, 0);
    rig_end(&r);
}

/* List 0 with entries of these sizes in one ODT, and none in the other: it starts if they fit, and
 * sends as many bytes. Then it is cleared. */
static void starts_if_it_fits(struct rig *r, unsigned odt, const uint8_t sizes[ENTRY_COUNT])
{
    uint8_t packet[PACKET];
    unsigned sum = 0;
    ASK(r, "FF", "E2 00 00 00 %02X 00", odt);
    for (unsigned at = 0; at < ENTRY_COUNT; at++) {
        ASK(r, "FF", "E1 FF %02X 00 08 00 00 00", sizes[at]);
        sum += sizes[at];
    }
    HERE();
    mode(r, 0, 0);
    check_note("ODT %u of %u bytes", odt, sum);
    int fits = sum > 0 && sum <= (odt == 0 ? 61u : 63u);
    ASK(r, fits ? "FF 00" : "FE 2A", "DE 01 00 00");
    NUMBER("sampled", fits ? 0x100 : 0, event(r, 0, 9));
    NUMBER("packet of ODT 0", fits ? odt == 0 ? 3 + sum : 3 : 0, (uint32_t)slot(r, packet));
    NUMBER("packet of ODT 1", fits && odt == 1 ? 1 + sum : 0, (uint32_t)slot(r, packet));
    ASK(r, "FF 00", "DE 00 00 00");
    ASK(r, "FF", "E3 00 00 00");
    check_note("%s", "");
}

/* Which lists fit: all sizes of four entries, in either ODT, beside twelve that are empty or full.
 * The four stand at the front, in the middle and at the end. */
static void every_size(void)
{
    struct rig r;
    allocated(&r);
    for (unsigned i = 0; i < 2 * 2 * 3 * 625; i++) {
        uint8_t sizes[ENTRY_COUNT];
        unsigned first = i / 625 % 3 * 6, left = i % 625;
        memset(sizes, i / 1875 % 2 == 0 ? 0 : ENTRY_MOST, sizeof sizes);
        for (unsigned at = first; at < first + 4; at++, left /= 5)
            sizes[at] = (uint8_t)(left % 5);
        starts_if_it_fits(&r, i / 3750, sizes);
    }
    rig_end(&r);
}

/* Every sum of an ODT's bytes, in entries as large as they can be and as even as they can be. */
static void every_sum(void)
{
    struct rig r;
    allocated(&r);
    for (unsigned odt = 0; odt < ODT_COUNT; odt++)
        for (unsigned sum = 0; sum <= ENTRY_COUNT * ENTRY_MOST; sum++) {
            uint8_t large[ENTRY_COUNT], even[ENTRY_COUNT];
            for (unsigned at = 0; at < ENTRY_COUNT; at++) {
                unsigned left = sum > ENTRY_MOST * at ? sum - ENTRY_MOST * at : 0;
                large[at] = (uint8_t)(left > ENTRY_MOST ? ENTRY_MOST : left);
                even[at] = (uint8_t)((sum + at) / ENTRY_COUNT);
            }
            starts_if_it_fits(&r, odt, large);
            starts_if_it_fits(&r, odt, even);
        }
    rig_end(&r);
}

/* Size 0 has any address; it makes an entry read nothing, also one that had a size. */
static void size_0(void)
{
    struct rig r;
    four_lists(&r);
    HERE();
    entry(&r, 0, 0, 1, 0, 1, 0xFFFFFFFF);
    entry(&r, 0, 0, 0, 0, 0, 0x80000000);
    REFUSED(&r, "FE 2A", "DE 01 00 00");
    HERE();
    entry(&r, 0, 0, 15, 1, 1, 3);
    start(&r, 0);
    NUMBER("sampled", 0x100, event(&r, 0, 0x0201));
    SENDS(&r, "00 01 02 B3");
    rig_end(&r);
}

static void infos(void)
{
    struct rig r;
    allocated(&r);
    ASK(&r, "FF 11 04 00 02 00 00 00", "DA");
    ASK(&r, "FF 01 04 00 00 6A 01 00", "D9");
    rig_end(&r);
}

void test_lists(void)
{
    pointer_steps();
    clear();
    set_mode();
    start_and_stop();
    start_again();
    select_then_start();
    select_any();
    stop_selected();
    stop_all();
    every_size();
    every_sum();
    size_0();
    infos();
}
