#include "host.h"

void powered(struct rig *r)
{
    rig_start(r, REACH, REACH, 1);
}

void connected(struct rig *r)
{
    powered(r);
    ask(r, CONNECTED, "FF 00");
}

void unlocked(struct rig *r)
{
    connected(r);
    unlock(r, CALIBRATION);
    unlock(r, LISTS);
}

void freed(struct rig *r)
{
    unlocked(r);
    ask(r, "FF", "D6");
}

void no_odts(struct rig *r)
{
    freed(r);
    ask(r, "FF", "D5 00 02 00");
}

void no_entries(struct rig *r)
{
    no_odts(r);
    ask(r, "FF", "D4 00 01 00 03");
}

void half_allocated(struct rig *r)
{
    no_odts(r);
    ask(r, "FF", "D4 00 00 00 02");
    ask(r, "FF", "D4 00 01 00 01");
    ask(r, "FF", "D3 00 00 00 00 01");
}

void half_running(struct rig *r)
{
    half_allocated(r);
    entry(r, 0, 0, 0, 1, 0, 0);
    mode(r, 0, 0);
    ask(r, "FF 00", "DE 01 00 00");
}

void allocated(struct rig *r)
{
    unlocked(r);
    allocate_usual(r);
}

void shut(struct rig *r)
{
    connected(r);
    spend_key(r, CALIBRATION);
    spend_key(r, LISTS);
    spend_key(r, CALIBRATION);
}

void closed_waiting(struct rig *r)
{
    connected(r);
    check_numbers("DISCONNECT is taken", XCP_TAKEN, give(r, "FE"));
}

/* List 2 runs on event 1 and its second packet is unsent; list 1 is fit and selected; list 3 is
 * selected without an entry; list 0 has an entry and no mode. The pointer is in list 2, the MTA is
 * inside, and the last frame was list 2's, so that an answer is next. */
void busy(struct rig *r)
{
    uint8_t packet[PACKET];
    allocated(r);
    entry(r, 0, 1, 2, 3, 0, 0x20);
    entry(r, 1, 0, 0, 2, 1, 0x30);
    mode(r, 1, 0);
    ask(r, "FF 02", "DE 02 01 00");
    mode(r, 3, 1);
    ask(r, "FF 06", "DE 02 03 00");
    entry(r, 2, 0, 1, 4, 1, 0x40);
    entry(r, 2, 1, 0, 4, 0, 0x50);
    mode(r, 2, 1);
    start(r, 2);
    ask(r, "FF", "F6 00 00 00 60 00 00 00");
    check_numbers("one list samples", 0x100, event(r, 1, 0x4321));
    check_numbers("its first packet has seven bytes", 7, (uint32_t)slot(r, packet));
}
