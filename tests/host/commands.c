#include "host.h"

/* Every check of every command, in order: each packet fails the named check and, as far as one
 * packet can, all later ones too, so that only the right order gives the right code. */

/* Situations for MTA and pointer; in the last three the MTA is where no block is inside. */
static void reading(struct rig *r)
{
    connected(r);
    ask(r, "FF", "F6 00 00 00 08 00 00 00");
}

static void reading_outside(struct rig *r)
{
    connected(r);
    ask(r, "FF", "F6 00 00 01 FF FF FF FF");
}

static void writing(struct rig *r)
{
    unlocked(r);
    ask(r, "FF", "F6 00 00 00 08 00 00 00");
}

static void writing_outside(struct rig *r)
{
    unlocked(r);
    ask(r, "FF", "F6 00 00 00 FE FF FF FF");
}

static void writing_measured(struct rig *r)
{
    unlocked(r);
    ask(r, "FF", "F6 00 00 01 08 00 00 00");
}

static void measured_outside(struct rig *r)
{
    unlocked(r);
    ask(r, "FF", "F6 00 00 01 FE FF FF FF");
}

/* Calibration locked, but the MTA set: only the lock stands before a write. */
static void locked_writing(struct rig *r)
{
    connected(r);
    unlock(r, LISTS);
    ask(r, "FF", "F6 00 00 00 08 00 00 00");
}

/* Lists locked, but calibration open. */
static void lists_locked(struct rig *r)
{
    connected(r);
    unlock(r, CALIBRATION);
}

static void seeded(struct rig *r)
{
    connected(r);
    get_seed(r, CALIBRATION);
}

static void seeded_lists(struct rig *r)
{
    connected(r);
    unlock(r, CALIBRATION);
    get_seed(r, LISTS);
}

/* Two wrong keys, so that one more would shut it; calibration is open, and a seed is out. */
static void one_key_left(struct rig *r)
{
    connected(r);
    spend_key(r, CALIBRATION);
    spend_key(r, LISTS);
    unlock(r, CALIBRATION);
    get_seed(r, LISTS);
}

/* The pointer is at a list that does not run. */
static void pointing(struct rig *r)
{
    allocated(r);
    ask(r, "FF", "E2 00 03 00 01 02");
}

/* List 1 lacks one thing that a start needs, and is selected together with list 0, which is fit. */
static void selected(struct rig *r)
{
    allocated(r);
    entry(r, 0, 0, 0, 1, 0, 0);
    mode(r, 0, 0);
    ask(r, "FF 00", "DE 02 00 00");
    ask(r, "FF 02", "DE 02 01 00");
}

static void no_mode(struct rig *r)
{
    selected(r);
    entry(r, 1, 0, 0, 1, 0, 0);
}

static void no_entry(struct rig *r)
{
    selected(r);
    mode(r, 1, 0);
    entry(r, 1, 0, 2, 0, 1, 0xFFFFFFFF);
}

static void odt_0_of_62(struct rig *r)
{
    selected(r);
    mode(r, 1, 0);
    entries(r, 1, 0, 62, 0, 0);
}

/* Every entry of the ODT has four bytes: it can be set up so, and not started. */
static void odt_1_of_64(struct rig *r)
{
    selected(r);
    mode(r, 1, 0);
    entries(r, 1, 1, 64, 0, 0);
}

struct row {
    int line;
    void (*situation)(struct rig *);
    const char *packet, *answer;
};

#define TOO_LARGE "FE 22 00 00 00 10 00 00"

static const struct row rows[] = {
    /* CONNECT inside a session */
    {__LINE__, busy, "FF", "FE 21"},
    {__LINE__, busy, "FF 01", "FE 22"},
    {__LINE__, busy, "FF 80 00 00", "FE 22"},
    /* SYNCH is no refusal, and changes as little */
    {__LINE__, busy, "FC", "FE 00"},
    {__LINE__, seeded, "FC 01 02 03 04 05 06 07", "FE 00"},
    {__LINE__, busy, "FC 01*63", "FE 00"},
    /* GET_SEED: short, mode 1, other modes and resources */
    {__LINE__, connected, "F8", "FE 21"},
    {__LINE__, connected, "F8 01", "FE 21"},
    {__LINE__, seeded, "F8 02", "FE 21"},
    {__LINE__, seeded, "F8 01 09", "FE 29"},
    {__LINE__, seeded, "F8 01 01", "FE 29"},
    {__LINE__, busy, "F8 01 01", "FE 29"},
    {__LINE__, seeded, "F8 02 01", "FE 22"},
    {__LINE__, seeded, "F8 FF 09", "FE 22"},
    {__LINE__, seeded, "F8 00 00", "FE 22"},
    {__LINE__, seeded, "F8 00 05", "FE 22"},
    {__LINE__, seeded, "F8 00 08", "FE 22"},
    {__LINE__, seeded, "F8 00 10", "FE 22"},
    {__LINE__, seeded_lists, "F8 00 FF", "FE 22"},
    {__LINE__, busy, "F8 00 02", "FE 22"},
    /* GET_SEED after three wrong keys: short, shut; and not after two */
    {__LINE__, shut, "F8", "FE 21"},
    {__LINE__, shut, "F8 02", "FE 21"},
    {__LINE__, shut, "F8 01 09", "FE 25"},
    {__LINE__, shut, "F8 01 04", "FE 25"},
    {__LINE__, shut, "F8 02 01", "FE 25"},
    {__LINE__, shut, "F8 FF 09", "FE 25"},
    {__LINE__, shut, "F8 00 00", "FE 25"},
    {__LINE__, shut, "F8 00 01", "FE 25"},
    {__LINE__, shut, "F8 00 04 00 00 00 00 00", "FE 25"},
    {__LINE__, one_key_left, "F8 01", "FE 21"},
    {__LINE__, one_key_left, "F8 01 09", "FE 29"},
    {__LINE__, one_key_left, "F8 02 01", "FE 22"},
    {__LINE__, one_key_left, "F8 00 02", "FE 22"},
    /* UNLOCK: short, no seed, length, bytes missing; the seed and the session stay */
    {__LINE__, connected, "F7", "FE 21"},
    {__LINE__, seeded, "F7", "FE 21"},
    {__LINE__, connected, "F7 05", "FE 29"},
    {__LINE__, connected, "F7 04", "FE 29"},
    {__LINE__, busy, "F7 04 00 00 00 00", "FE 29"},
    {__LINE__, seeded, "F7 05", "FE 22"},
    {__LINE__, seeded, "F7 00", "FE 22"},
    {__LINE__, seeded, "F7 03 00 7F F0", "FE 22"},
    {__LINE__, seeded, "F7 05 00 7F F0 04", "FE 22"},
    {__LINE__, seeded_lists, "F7 FF 00 00 00 00 00 00", "FE 22"},
    {__LINE__, seeded, "F7 04", "FE 21"},
    {__LINE__, seeded, "F7 04 00", "FE 21"},
    {__LINE__, seeded, "F7 04 00 7F", "FE 21"},
    {__LINE__, seeded, "F7 04 00 7F F0", "FE 21"},
    {__LINE__, seeded_lists, "F7 04 00 00 00", "FE 21"},
    {__LINE__, one_key_left, "F7", "FE 21"},
    {__LINE__, one_key_left, "F7 05 00 00 00 00", "FE 22"},
    {__LINE__, one_key_left, "F7 04 00 00 00", "FE 21"},
    /* UNLOCK after three wrong keys: short, no seed */
    {__LINE__, shut, "F7", "FE 21"},
    {__LINE__, shut, "F7 05", "FE 29"},
    {__LINE__, shut, "F7 04", "FE 29"},
    {__LINE__, shut, "F7 04 00 7F F0", "FE 29"},
    {__LINE__, shut, "F7 04 00 7F F0 04", "FE 29"},
    /* SET_MTA */
    {__LINE__, reading, "F6", "FE 21"},
    {__LINE__, reading, "F6 00 00 02", "FE 21"},
    {__LINE__, reading, "F6 00 00 02 10 00 00", "FE 21"},
    {__LINE__, reading, "F6 00 00 02 10 00 00 00", "FE 22"},
    {__LINE__, reading, "F6 00 00 FF 10 00 00 00", "FE 22"},
    {__LINE__, busy, "F6 00 00 80 10 00 00 00", "FE 22"},
    /* UPLOAD: short, MTA unset, count, not inside */
    {__LINE__, connected, "F5", "FE 21"},
    {__LINE__, connected, "F5 00", "FE 29"},
    {__LINE__, connected, "F5 40", "FE 29"},
    {__LINE__, connected, "F5 01", "FE 29"},
    {__LINE__, reading_outside, "F5 00", "FE 22"},
    {__LINE__, reading_outside, "F5 40", "FE 22"},
    {__LINE__, reading, "F5 40", "FE 22"},
    {__LINE__, reading, "F5 FF", "FE 22"},
    {__LINE__, reading_outside, "F5 01", "FE 24"},
    {__LINE__, reading_outside, "F5 3F 00 00 00", "FE 24"},
    {__LINE__, busy, "F5 00", "FE 22"},
    /* SHORT_UPLOAD: short, count or extension, not inside; it needs no MTA */
    {__LINE__, reading, "F4 00", "FE 21"},
    {__LINE__, reading, "F4 00 00 02 FF FF FF", "FE 21"},
    {__LINE__, reading, "F4 00 00 00 FF FF FF FF", "FE 22"},
    {__LINE__, reading, "F4 40 00 00 FF FF FF FF", "FE 22"},
    {__LINE__, reading, "F4 40 00 00 08 00 00 00", "FE 22"},
    {__LINE__, reading, "F4 FF 00 00 08 00 00 00", "FE 22"},
    {__LINE__, connected, "F4 00 00 07 00 00 00 00", "FE 22"},
    {__LINE__, reading, "F4 01 00 02 FF FF FF FF", "FE 22"},
    {__LINE__, reading, "F4 01 00 00 FF FF FF FF", "FE 24"},
    {__LINE__, reading, "F4 01 00 01 00 10 00 00", "FE 24"},
    {__LINE__, connected, "F4 01 00 01 00 10 00 00", "FE 24"},
    {__LINE__, reading_outside, "F4 3F 00 00 C2 0F 00 00", "FE 24"},
    {__LINE__, busy, "F4 3F 00 01 C2 0F 00 00", "FE 24"},
    /* BUILD_CHECKSUM: short, MTA unset, size, not inside */
    {__LINE__, connected, "F3", "FE 21"},
    {__LINE__, connected, "F3 00 00 00 00 00 00", "FE 21"},
    {__LINE__, connected, "F3 00 00 00 00 00 00 00", "FE 29"},
    {__LINE__, connected, "F3 00 00 00 01 10 00 00", "FE 29"},
    {__LINE__, reading_outside, "F3 00 00 00 00 00 00 00", TOO_LARGE},
    {__LINE__, reading_outside, "F3 00 00 00 01 10 00 00", TOO_LARGE},
    {__LINE__, reading, "F3 00 00 00 00 00 01 00", TOO_LARGE},
    {__LINE__, reading, "F3 00 00 00 10 00 00 80", TOO_LARGE},
    {__LINE__, reading, "F3 00 00 00 FF FF FF FF", TOO_LARGE},
    {__LINE__, reading_outside, "F3 00 00 00 01 00 00 00", "FE 24"},
    {__LINE__, reading, "F3 00 00 00 00 10 00 00", "FE 24"},
    {__LINE__, busy, "F3 00 00 00 F1 0F 00 00", "FE 24"},
    /* DOWNLOAD: short, locked, MTA unset, count, data missing, extension 1, not inside */
    {__LINE__, connected, "F0", "FE 21"},
    {__LINE__, unlocked, "F0", "FE 21"},
    {__LINE__, connected, "F0 3F", "FE 25"},
    {__LINE__, locked_writing, "F0 00", "FE 25"},
    {__LINE__, locked_writing, "F0 01 55", "FE 25"},
    {__LINE__, unlocked, "F0 00", "FE 29"},
    {__LINE__, unlocked, "F0 3F", "FE 29"},
    {__LINE__, unlocked, "F0 01 55", "FE 29"},
    {__LINE__, measured_outside, "F0 00", "FE 22"},
    {__LINE__, measured_outside, "F0 3F", "FE 22"},
    {__LINE__, writing, "F0 3F 55*61", "FE 22"},
    {__LINE__, writing, "F0 3F 55*62", "FE 22"},
    {__LINE__, writing, "F0 40 55*62", "FE 22"},
    {__LINE__, writing, "F0 FF 55*62", "FE 22"},
    {__LINE__, writing, "F0 00 55*62", "FE 22"},
    {__LINE__, measured_outside, "F0 3E 55*61", "FE 21"},
    {__LINE__, writing, "F0 3E 55*61", "FE 21"},
    {__LINE__, measured_outside, "F0 01", "FE 21"},
    {__LINE__, writing, "F0 02 01", "FE 21"},
    {__LINE__, measured_outside, "F0 01 55", "FE 23"},
    {__LINE__, writing_measured, "F0 01 55", "FE 23"},
    {__LINE__, writing_measured, "F0 3E 55*62", "FE 23"},
    {__LINE__, writing_outside, "F0 01 55", "FE 24"},
    {__LINE__, writing_outside, "F0 03 55 55 55", "FE 24"},
    {__LINE__, writing_outside, "F0 3E 55*62", "FE 24"},
    {__LINE__, busy, "F0 00 01", "FE 22"},
    {__LINE__, shut, "F0", "FE 21"},
    {__LINE__, shut, "F0 01 55", "FE 25"},
    /* SHORT_DOWNLOAD: short, locked, count or extension, data missing, extension 1, not inside; it
     * needs no MTA, and leaves the one that there is (more of it in short_download.c) */
    {__LINE__, connected, "ED", "FE 21"},
    {__LINE__, connected, "ED 00 00 02 FF FF FF", "FE 21"},
    {__LINE__, unlocked, "ED 00 00 02 FF FF FF", "FE 21"},
    {__LINE__, writing, "ED 01 00 00 08 00 00", "FE 21"},
    {__LINE__, connected, "ED 00 00 02 FF FF FF FF", "FE 25"},
    {__LINE__, locked_writing, "ED 01 00 00 08 00 00 00", "FE 25"},
    {__LINE__, locked_writing, "ED 01 00 01 FF FF FF FF 55", "FE 25"},
    {__LINE__, locked_writing, "ED 01 00 00 08 00 00 00 55", "FE 25"},
    {__LINE__, locked_writing, "ED 38 00 00 08 00 00 00 55*56", "FE 25"},
    {__LINE__, unlocked, "ED 00 00 02 FF FF FF FF", "FE 22"},
    {__LINE__, unlocked, "ED 00 00 00 08 00 00 00", "FE 22"},
    {__LINE__, unlocked, "ED 39 00 01 FF FF FF FF", "FE 22"},
    {__LINE__, writing, "ED 00 00 00 08 00 00 00 55*56", "FE 22"},
    {__LINE__, writing, "ED 39 00 00 08 00 00 00 55*56", "FE 22"},
    {__LINE__, writing, "ED FF 00 00 08 00 00 00 55*56", "FE 22"},
    {__LINE__, unlocked, "ED 01 00 02 FF FF FF FF", "FE 22"},
    {__LINE__, writing, "ED 38 00 02 08 00 00 00 55*56", "FE 22"},
    {__LINE__, writing, "ED 01 00 FF 08 00 00 00 55", "FE 22"},
    {__LINE__, unlocked, "ED 01 00 01 FF FF FF FF", "FE 21"},
    {__LINE__, measured_outside, "ED 38 00 01 FF FF FF FF 55*55", "FE 21"},
    {__LINE__, writing, "ED 02 00 00 08 00 00 00 55", "FE 21"},
    {__LINE__, writing, "ED 38 00 00 08 00 00 00 55*55", "FE 21"},
    {__LINE__, unlocked, "ED 01 00 01 FF FF FF FF 55", "FE 23"},
    {__LINE__, writing, "ED 38 00 01 08 00 00 00 55*56", "FE 23"},
    {__LINE__, writing_measured, "ED 01 00 01 08 00 00 00 55", "FE 23"},
    {__LINE__, unlocked, "ED 01 00 00 FF FF FF FF 55", "FE 24"},
    {__LINE__, writing, "ED 01 00 00 00 10 00 00 55", "FE 24"},
    {__LINE__, writing, "ED 38 00 00 C9 0F 00 00 55*56", "FE 24"},
    {__LINE__, measured_outside, "ED 38 00 00 00 00 01 00 55*56", "FE 24"},
    {__LINE__, busy, "ED 39 00 00 08 00 00 00 55*56", "FE 22"},
    {__LINE__, busy, "ED 38 00 00 C9 0F 00 00 55*56", "FE 24"},
    {__LINE__, shut, "ED 01 00 00 08 00 00", "FE 21"},
    {__LINE__, shut, "ED 01 00 00 08 00 00 00 55", "FE 25"},
    /* CLEAR_DAQ_LIST: short, locked, list, runs */
    {__LINE__, lists_locked, "E3", "FE 21"},
    {__LINE__, lists_locked, "E3 00 04", "FE 21"},
    {__LINE__, lists_locked, "E3 00 04 00", "FE 25"},
    {__LINE__, busy, "E3 00 04 00", "FE 22"},
    {__LINE__, busy, "E3 00 00 01", "FE 22"},
    {__LINE__, busy, "E3 00 02 FF", "FE 22"},
    {__LINE__, busy, "E3 00 FF FF", "FE 22"},
    {__LINE__, busy, "E3 55 02 00", "FE 11"},
    /* SET_DAQ_PTR: short, locked, then list, ODT and entry, one at a time */
    {__LINE__, lists_locked, "E2", "FE 21"},
    {__LINE__, lists_locked, "E2 00 04 00 02", "FE 21"},
    {__LINE__, lists_locked, "E2 00 04 00 02 10", "FE 25"},
    {__LINE__, busy, "E2 00 04 00 00 00", "FE 22"},
    {__LINE__, busy, "E2 00 01 01 00 00", "FE 22"},
    {__LINE__, busy, "E2 00 01 00 02 00", "FE 22"},
    {__LINE__, busy, "E2 00 01 00 00 10", "FE 22"},
    {__LINE__, busy, "E2 00 01 00 01 10", "FE 22"},
    {__LINE__, pointing, "E2 00 FF FF FF FF", "FE 22"},
    /* WRITE_DAQ: short, locked, pointer unset, numbers, list runs, not inside */
    {__LINE__, lists_locked, "E1", "FE 21"},
    {__LINE__, lists_locked, "E1 00 05 02 FF FF FF", "FE 21"},
    {__LINE__, lists_locked, "E1 00 05 02 FF FF FF FF", "FE 25"},
    {__LINE__, unlocked, "E1 00 05 02 FF FF FF FF", "FE 29"},
    {__LINE__, unlocked, "E1 FF 01 00 00 00 00 00", "FE 29"},
    {__LINE__, busy, "E1 00 01 00 FF FF FF FF", "FE 22"},
    {__LINE__, busy, "E1 1F 01 00 FF FF FF FF", "FE 22"},
    {__LINE__, busy, "E1 FE 01 00 FF FF FF FF", "FE 22"},
    {__LINE__, busy, "E1 FF 05 00 FF FF FF FF", "FE 22"},
    {__LINE__, busy, "E1 FF FF 00 FF FF FF FF", "FE 22"},
    {__LINE__, busy, "E1 FF 01 02 FF FF FF FF", "FE 22"},
    {__LINE__, pointing, "E1 FF 00 02 00 00 00 00", "FE 22"},
    {__LINE__, busy, "E1 FF 01 00 FF FF FF FF", "FE 11"},
    {__LINE__, busy, "E1 FF 00 01 00 00 00 00", "FE 11"},
    {__LINE__, pointing, "E1 FF 01 00 FF FF FF FF", "FE 24"},
    {__LINE__, pointing, "E1 FF 04 01 FD 0F 00 00", "FE 24"},
    {__LINE__, pointing, "E1 FF 01 01 00 10 00 00", "FE 24"},
    {__LINE__, pointing, "E1 FF 04 00 FC 0F 01 00", "FE 24"},
    /* SET_DAQ_LIST_MODE: short, locked, each number, runs */
    {__LINE__, lists_locked, "E0", "FE 21"},
    {__LINE__, lists_locked, "E0 00 04 00 02 00 02", "FE 21"},
    {__LINE__, lists_locked, "E0 00 04 00 02 00 02 01", "FE 25"},
    {__LINE__, busy, "E0 00 02 00 01 00 01 00", "FE 22"},
    {__LINE__, busy, "E0 30 02 00 01 00 01 00", "FE 22"},
    {__LINE__, busy, "E0 12 02 00 01 00 01 00", "FE 22"},
    {__LINE__, busy, "E0 10 04 00 01 00 01 00", "FE 22"},
    {__LINE__, busy, "E0 10 02 01 01 00 01 00", "FE 22"},
    {__LINE__, busy, "E0 10 02 00 02 00 01 00", "FE 22"},
    {__LINE__, busy, "E0 10 02 00 00 01 01 00", "FE 22"},
    {__LINE__, busy, "E0 10 02 00 01 01 01 00", "FE 22"},
    {__LINE__, busy, "E0 10 02 00 01 00 00 00", "FE 22"},
    {__LINE__, busy, "E0 10 02 00 01 00 02 00", "FE 22"},
    {__LINE__, busy, "E0 10 02 00 01 00 01 01", "FE 22"},
    {__LINE__, busy, "E0 10 00 00 01 00 01 FF", "FE 22"},
    {__LINE__, busy, "E0 10 02 00 00 00 01 00", "FE 11"},
    /* START_STOP_DAQ_LIST: short, locked, numbers, unfit */
    {__LINE__, lists_locked, "DE", "FE 21"},
    {__LINE__, lists_locked, "DE 03 04", "FE 21"},
    {__LINE__, lists_locked, "DE 03 04 00", "FE 25"},
    {__LINE__, busy, "DE 03 00 00", "FE 22"},
    {__LINE__, busy, "DE FF 02 00", "FE 22"},
    {__LINE__, busy, "DE 00 04 00", "FE 22"},
    {__LINE__, busy, "DE 01 00 01", "FE 22"},
    {__LINE__, busy, "DE 02 02 01", "FE 22"},
    {__LINE__, busy, "DE 01 00 00", "FE 2A"},
    {__LINE__, busy, "DE 01 03 00", "FE 2A"},
    {__LINE__, no_mode, "DE 01 01 00", "FE 2A"},
    {__LINE__, no_entry, "DE 01 01 00", "FE 2A"},
    {__LINE__, odt_0_of_62, "DE 01 01 00", "FE 2A"},
    {__LINE__, odt_1_of_64, "DE 01 01 00", "FE 2A"},
    /* START_STOP_SYNCH: short, locked, mode, one selected list unfit: then none starts */
    {__LINE__, lists_locked, "DD", "FE 21"},
    {__LINE__, lists_locked, "DD 03", "FE 25"},
    {__LINE__, no_mode, "DD 03", "FE 22"},
    {__LINE__, busy, "DD FF", "FE 22"},
    {__LINE__, busy, "DD 01", "FE 2A"},
    {__LINE__, no_mode, "DD 01", "FE 2A"},
    {__LINE__, no_entry, "DD 01", "FE 2A"},
    {__LINE__, odt_0_of_62, "DD 01", "FE 2A"},
    {__LINE__, odt_1_of_64, "DD 01", "FE 2A"},
    /* GET_DAQ_PROCESSOR_INFO and GET_DAQ_RESOLUTION_INFO need lists too */
    {__LINE__, lists_locked, "DA", "FE 25"},
    {__LINE__, lists_locked, "D9", "FE 25"},
    {__LINE__, connected, "DA 01 02 03 04 05 06 07", "FE 25"},
    {__LINE__, shut, "D9", "FE 25"},
    /* FREE_DAQ needs lists, and no more */
    {__LINE__, lists_locked, "D6", "FE 25"},
    {__LINE__, connected, "D6 01 02 03 04 05 06 07", "FE 25"},
    {__LINE__, shut, "D6", "FE 25"},
    /* ALLOC_DAQ: short, locked, no FREE_DAQ yet or lists there already, count, pool (more of these
     * four commands in pool.c) */
    {__LINE__, lists_locked, "D5", "FE 21"},
    {__LINE__, lists_locked, "D5 00 00", "FE 21"},
    {__LINE__, unlocked, "D5 00 09", "FE 21"},
    {__LINE__, lists_locked, "D5 00 00 00", "FE 25"},
    {__LINE__, connected, "D5 00 FF FF", "FE 25"},
    {__LINE__, unlocked, "D5 00 00 00", "FE 29"},
    {__LINE__, unlocked, "D5 00 01 00", "FE 29"},
    {__LINE__, unlocked, "D5 00 09 00", "FE 29"},
    {__LINE__, busy, "D5 00 00 00", "FE 29"},
    {__LINE__, busy, "D5 00 04 00", "FE 29"},
    {__LINE__, no_entries, "D5 00 09 00", "FE 29"},
    {__LINE__, freed, "D5 00 00 00", "FE 22"},
    {__LINE__, freed, "D5 00 09 00", "FE 30"},
    {__LINE__, freed, "D5 00 00 01", "FE 30"},
    {__LINE__, freed, "D5 00 FF FF", "FE 30"},
    /* ALLOC_ODT: short, locked, no lists yet or entries there already or a second time, numbers,
     * pool */
    {__LINE__, lists_locked, "D4", "FE 21"},
    {__LINE__, lists_locked, "D4 00 08 00", "FE 21"},
    {__LINE__, lists_locked, "D4 00 08 00 00", "FE 25"},
    {__LINE__, unlocked, "D4 00 00 00 01", "FE 29"},
    {__LINE__, freed, "D4 00 08 00 00", "FE 29"},
    {__LINE__, freed, "D4 00 00 00 11", "FE 29"},
    {__LINE__, busy, "D4 00 02 00 01", "FE 29"},
    {__LINE__, busy, "D4 00 04 00 00", "FE 29"},
    {__LINE__, no_entries, "D4 00 01 00 01", "FE 29"},
    {__LINE__, no_entries, "D4 00 01 00 00", "FE 29"},
    {__LINE__, no_entries, "D4 00 01 00 FF", "FE 29"},
    {__LINE__, no_entries, "D4 00 02 00 11", "FE 22"},
    {__LINE__, no_entries, "D4 00 01 01 01", "FE 22"},
    {__LINE__, no_entries, "D4 00 FF FF 01", "FE 22"},
    {__LINE__, no_entries, "D4 00 00 00 00", "FE 22"},
    {__LINE__, no_entries, "D4 00 00 00 0E", "FE 30"},
    {__LINE__, no_entries, "D4 00 00 00 FF", "FE 30"},
    /* ALLOC_ODT_ENTRY: short, locked, no ODT yet or a second time, numbers, list runs, pool */
    {__LINE__, lists_locked, "D3", "FE 21"},
    {__LINE__, lists_locked, "D3 00 08 00 00", "FE 21"},
    {__LINE__, lists_locked, "D3 00 08 00 00 00", "FE 25"},
    {__LINE__, unlocked, "D3 00 00 00 00 01", "FE 29"},
    {__LINE__, freed, "D3 00 08 00 00 00", "FE 29"},
    {__LINE__, no_odts, "D3 00 08 00 00 00", "FE 29"},
    {__LINE__, no_odts, "D3 00 00 00 00 81", "FE 29"},
    {__LINE__, busy, "D3 00 02 00 01 00", "FE 29"},
    {__LINE__, busy, "D3 00 03 00 01 FF", "FE 29"},
    {__LINE__, busy, "D3 00 04 00 00 01", "FE 22"},
    {__LINE__, no_entries, "D3 00 02 00 00 81", "FE 22"},
    {__LINE__, no_entries, "D3 00 01 01 00 81", "FE 22"},
    {__LINE__, no_entries, "D3 00 01 00 03 81", "FE 22"},
    {__LINE__, no_entries, "D3 00 00 00 00 01", "FE 22"},
    {__LINE__, no_entries, "D3 00 01 00 00 00", "FE 22"},
    {__LINE__, half_running, "D3 00 00 00 01 00", "FE 22"},
    {__LINE__, half_running, "D3 00 00 00 01 FF", "FE 11"},
    {__LINE__, half_running, "D3 00 00 00 01 01", "FE 11"},
    {__LINE__, half_running, "D3 00 01 00 00 80", "FE 30"},
    {__LINE__, no_entries, "D3 00 01 00 00 81", "FE 30"},
    {__LINE__, no_entries, "D3 00 01 00 02 FF", "FE 30"},
    /* Not refused, and changing nothing either: status, infos, a seed for what is open (one for
     * the other resource stays good, and the generator stays), a start of a running list */
    {__LINE__, busy, "FD", "FF 40 00 00 00 00"},
    {__LINE__, seeded, "FD", "FF 00 05 00 00 00"},
    {__LINE__, shut, "FD", "FF 00 05 00 00 00"},
    {__LINE__, seeded_lists, "F8 00 01", "FF 00"},
    {__LINE__, one_key_left, "F8 00 01", "FF 00"},
    {__LINE__, busy, "F8 00 04", "FF 00"},
    {__LINE__, busy, "DA", "FF 11 04 00 02 00 00 00"},
    {__LINE__, unlocked, "DA", "FF 11 00 00 02 00 00 00"},
    {__LINE__, busy, "D9", "FF 01 04 00 00 6A 01 00"},
    {__LINE__, busy, "DE 01 02 00", "FF 04"},
    {__LINE__, busy, "DE 02 01 00", "FF 02"},
};

static void every_row(void)
{
    for (size_t i = 0; i < COUNT(rows); i++) {
        struct rig r;
        ROW(&rows[i]);
        rows[i].situation(&r);
        refused(&r, rows[i].answer, "%s", rows[i].packet);
        rig_end(&r);
    }
}

/* Fewest bytes of each known code; 0 is no code of ours. */
static size_t fewest(unsigned code)
{
    static const uint8_t of[256] = {
        [0xFF] = 2, [0xFE] = 1, [0xFD] = 1, [0xFC] = 1, [0xF8] = 3, [0xF7] = 2,
        [0xF6] = 8, [0xF5] = 2, [0xF4] = 8, [0xF3] = 8, [0xF0] = 2, [0xED] = 8,
        [0xE3] = 4, [0xE2] = 6, [0xE1] = 8, [0xE0] = 8, [0xDE] = 4, [0xDD] = 2,
        [0xDA] = 1, [0xD9] = 1, [0xD6] = 1, [0xD5] = 4, [0xD4] = 5, [0xD3] = 6,
    };
    return of[code];
}

/* Every code at every length: unknown is 0x20 even alone, a known one too short is 0x21. */
static void every_code(void)
{
    struct rig r;
    busy(&r);
    for (unsigned code = 0; code < 256; code++)
        for (size_t len = 1; len <= PACKET; len++) {
            uint8_t packet[PACKET], answer[PACKET] = {0};
            memset(packet, 0xFF, sizeof packet);
            packet[0] = (uint8_t)code;
            if (fewest(code) != 0 && len >= fewest(code))
                continue;
            check_note("code %02X, %zu bytes", code, len);
            NUMBER("taken", 1, give_bytes(&r, packet, len));
            if (slot(&r, answer) > 0 && answer[0] < 0xFE)
                slot(&r, answer); /* busy's own packet may come first */
            NUMBER("FE", 0xFE, answer[0]);
            NUMBER("code", fewest(code) == 0 ? 0x20 : 0x21, answer[1]);
        }
    check_note("%s", "");
    rig_end(&r);
}

static void unknown_changes_nothing(void)
{
    static const char *const codes[] = {"00", "BF", "C0", "CF", "D2", "D7", "D8", "DB", "DC", "DF",
                                        "E4", "EC", "EE", "EF", "F1", "F2", "F9", "FA", "FB"};
    for (size_t i = 0; i < COUNT(codes); i++) {
        struct rig r;
        busy(&r);
        REFUSED(&r, "FE 20", "%s", codes[i]);
        rig_end(&r);
        busy(&r);
        REFUSED(&r, "FE 20", "%s 01 02 00 00 00 00 00 55*56", codes[i]);
        rig_end(&r);
    }
}

/* MTA inside, pointer set, both unlocked: a command's numbers are the first thing to fail. */
static void all_set(struct rig *r)
{
    writing(r);
    allocate_usual(r);
    ask(r, "FF", "E2 00 03 00 00 00");
}

/* Each byte that has a range: 0x22 for all values outside it, and for none inside it. */
struct range {
    int line;
    void (*situation)(struct rig *);
    const char *format; /* with one %02X */
    unsigned least, most;
};

/* GET_SEED's mode 1 has a code of its own, so it counts as inside here. */
static const struct range ranges[] = {
    {__LINE__, all_set, "F5 %02X", 1, 63},
    {__LINE__, all_set, "F4 %02X 00 00 00 00 00 00", 1, 63},
    {__LINE__, all_set, "F4 01 00 %02X 00 00 00 00", 0, 1},
    {__LINE__, all_set, "F6 00 00 %02X 00 00 00 00", 0, 1},
    {__LINE__, all_set, "F0 %02X 55*62", 1, 62},
    {__LINE__, all_set, "ED %02X 00 00 00 00 00 00 55*56", 1, 56},
    {__LINE__, all_set, "ED 01 00 %02X 00 00 00 00 55", 0, 1},
    {__LINE__, all_set, "E3 00 %02X 00", 0, 3},
    {__LINE__, all_set, "E3 00 00 %02X", 0, 0},
    {__LINE__, all_set, "E2 00 %02X 00 00 00", 0, 3},
    {__LINE__, all_set, "E2 00 00 %02X 00 00", 0, 0},
    {__LINE__, all_set, "E2 00 00 00 %02X 00", 0, 1},
    {__LINE__, all_set, "E2 00 00 00 00 %02X", 0, 15},
    {__LINE__, all_set, "E2 00 03 00 01 %02X", 0, 15},
    {__LINE__, all_set, "E1 %02X 01 00 00 00 00 00", 0xFF, 0xFF},
    {__LINE__, all_set, "E1 FF %02X 00 00 00 00 00", 0, 4},
    {__LINE__, all_set, "E1 FF 01 %02X 00 00 00 00", 0, 1},
    {__LINE__, all_set, "E0 %02X 00 00 00 00 01 00", 0x10, 0x10},
    {__LINE__, all_set, "E0 10 %02X 00 00 00 01 00", 0, 3},
    {__LINE__, all_set, "E0 10 00 %02X 00 00 01 00", 0, 0},
    {__LINE__, all_set, "E0 10 00 00 %02X 00 01 00", 0, 1},
    {__LINE__, all_set, "E0 10 00 00 00 %02X 01 00", 0, 0},
    {__LINE__, all_set, "E0 10 00 00 00 00 %02X 00", 1, 1},
    {__LINE__, all_set, "E0 10 00 00 00 00 01 %02X", 0, 0},
    {__LINE__, all_set, "DE %02X 02 00", 0, 2},
    {__LINE__, all_set, "DE 00 %02X 00", 0, 3},
    {__LINE__, all_set, "DE 00 00 %02X", 0, 0},
    {__LINE__, all_set, "DD %02X", 0, 2},
    {__LINE__, all_set, "FF %02X", 0, 0},
    {__LINE__, all_set, "F8 %02X 04", 0, 1},
    {__LINE__, seeded_lists, "F7 %02X 00 00 00 00", 4, 4},
};

/* Each value from the same state. */
static void every_range(void)
{
    for (size_t i = 0; i < COUNT(ranges); i++) {
        struct rig r, kept;
        uint8_t state[XCP_STATE_SIZE];
        ROW(&ranges[i]);
        ranges[i].situation(&r);
        kept = r;
        memcpy(state, r.state, sizeof state);
        for (unsigned value = 0; value < 256; value++) {
            uint8_t answer[PACKET] = {0};
            check_note("value %02X", value);
            insist("taken", 1, give(&r, ranges[i].format, value));
            insist("an answer", 1, slot(&r, answer) > 0);
            uint32_t outside = value < ranges[i].least || value > ranges[i].most;
            uint32_t refused_so = answer[0] == 0xFE && answer[1] == 0x22;
            check_numbers("outside its range", outside, refused_so);
            r = kept;
            memcpy(r.state, state, sizeof state);
        }
        check_note("%s", "");
        rig_end(&r);
    }
}

/* GET_SEED knows two resources; to any other it answers as to a number outside its range. */
static void every_resource(void)
{
    struct rig r;
    connected(&r);
    for (unsigned resource = 0; resource < 256; resource++) {
        uint8_t answer[PACKET] = {0};
        int known = resource == CALIBRATION || resource == LISTS;
        check_note("resource %02X", resource);
        NUMBER("taken", 1, give(&r, "F8 00 %02X", resource));
        NUMBER("length", known ? 6 : 2, (uint32_t)slot(&r, answer));
        NUMBER("answer", known ? 0x04FF : 0x22FE, (uint32_t)(answer[0] | answer[1] << 8));
    }
    check_note("%s", "");
    rig_end(&r);
}

/* Reserved bytes, and bytes past those that a command needs, are ignored. */
static void ignored_bytes(void)
{
    struct rig r;
    unlocked(&r);
    memcpy(r.cal + 0x100, "\x41\x42\x43\x44", 4);
    ASK(&r, "FF 00 00 00 00 00", "FD AA BB CC DD EE FF 01");
    ASK(&r, "FF 00", "F8 00 01 AA BB CC DD EE");
    ASK(&r, "FF 43 44", "F4 02 AA 00 02 01 00 00");
    ASK(&r, "FF", "F6 AA BB 00 00 01 00 00");
    ASK(&r, "FF 41", "F5 01 AA BB CC DD EE FF");
    ASK(&r, "FF 02 00 00 85 00 00 00", "F3 AA BB CC 02 00 00 00");
    ASK(&r, "FF", "F0 01 54 AA*61");
    BYTES("one byte written", (const uint8_t *)"\x41\x42\x43\x54", 4, r.cal + 0x100, 4);
    ASK(&r, "FF", "ED 01 BB 00 03 01 00 00 44 AA*55");
    BYTES("one byte written", (const uint8_t *)"\x41\x42\x43\x44", 4, r.cal + 0x100, 4);
    ASK(&r, "FF", "D6 AA BB CC DD EE FF 01");
    ASK(&r, "FF", "D5 AA 02 00 BB CC DD EE");
    ASK(&r, "FF", "D4 AA 00 00 02 BB CC DD");
    ASK(&r, "FF", "D4 BB 01 00 01 CC DD EE");
    ASK(&r, "FF", "D3 AA 01 00 00 01 BB CC");
    ASK(&r, "FF", "E3 AA 01 00 BB CC DD EE");
    ASK(&r, "FF", "E2 AA 01 00 00 00 BB CC");
    ASK(&r, "FF", "E1 FF 01 00 02 01 00 00");
    ASK(&r, "FF", "E0 10 01 00 01 00 01 00");
    ASK(&r, "FF 02", "DE 01 01 00 AA BB CC DD");
    NUMBER("sampled", 0x100, event(&r, 1, 0xABCD));
    SENDS(&r, "02 CD AB 43");
    ASK(&r, "FF", "DD 00 AA BB CC DD EE FF");
    ASK(&r, "FF 11 02 00 02 00 00 00", "DA AA BB CC DD EE FF 01");
    ASK(&r, "FF 01 04 00 00 6A 01 00", "D9 AA BB CC DD EE FF 01");
    ASK(&r, "FF", "FE AA BB CC DD EE FF 01");
    rig_end(&r);
}

void test_commands(void)
{
    every_row();
    every_code();
    unknown_changes_nothing();
    every_range();
    every_resource();
    ignored_bytes();
}
