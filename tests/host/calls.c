#include "host.h"

/* The calls themselves: what they are lent, and refusals 8, 9 and 10, which change nothing. */

/* All that a call is lent, as it was before the call. */
struct kept {
    uint8_t state[2 * XCP_STATE_SIZE], cal[64], meas[64], out[XCP_SLOT_ROOM];
};

static void keep(struct kept *k, const struct rig *r, const uint8_t *state, size_t state_len)
{
    if (state_len > 0)
        memcpy(k->state, state, state_len);
    memcpy(k->cal, r->cal, r->cal_len);
    memcpy(k->meas, r->meas, r->meas_len);
    memcpy(k->out, r->out, r->out_len);
}

static void unchanged(const struct kept *k, const struct rig *r, const uint8_t *state,
                      size_t state_len)
{
    check_bytes("state", k->state, state_len, state, state_len);
    check_bytes("calibration", k->cal, r->cal_len, r->cal, r->cal_len);
    check_bytes("measured", k->meas, r->meas_len, r->meas, r->meas_len);
    check_bytes("out", k->out, r->out_len, r->out, r->out_len);
}

/* Every call but power-up must refuse this state with 10, before 8 and 9. */
static void bad_state(const struct rig *r, uint8_t *state, size_t len)
{
    static const uint8_t bytes[] = {0x00, 0x01, 0x02, 0xFF, SYNC, ESC};
    static const uint32_t events[] = {0, 1, 2, 0xFFFFFFFF};
    struct kept k;
    keep(&k, r, state, len);
    for (size_t i = 0; i < COUNT(bytes); i++)
        check_numbers("a byte", 655360, xcp_receive_byte(state, len, r->cal, r->cal_len, r->meas,
                                                         r->meas_len, bytes[i]));
    for (size_t i = 0; i <= COUNT(bytes); i++)
        check_numbers("a slice, of which none is taken", 1,
                      xcp_receive(state, len, r->cal, r->cal_len, r->meas, r->meas_len, bytes, i) ==
                          655360);
    for (size_t i = 0; i < COUNT(events); i++)
        check_numbers("an event", 655360, xcp_event(state, len, r->cal, r->cal_len, r->meas,
                                                    r->meas_len, events[i], 1));
    for (size_t room = 0; room <= r->out_len; room++)
        check_numbers("a slot", 655360, xcp_slot(state, len, r->out, room));
    unchanged(&k, r, state, len);
}

static void wrong_sizes(void)
{
    /* 248, 249 and 945 are those of earlier versions */
    static const size_t sizes[] = {0,   1,   4,    23,   134,  135, 248,
                                   249, 945, 1485, 1487, 2048, 2 * XCP_STATE_SIZE};
    for (size_t i = 0; i < COUNT(sizes); i++) {
        struct rig r;
        struct kept k;
        rig_start(&r, 16, 16, 1);
        uint8_t *state = lend(sizes[i], 0);
        memcpy(state, r.state, sizes[i] < XCP_STATE_SIZE ? sizes[i] : XCP_STATE_SIZE);
        check_note("state of %zu bytes", sizes[i]);
        HERE();
        bad_state(&r, state, sizes[i]);
        keep(&k, &r, state, sizes[i]);
        NUMBER("power-up", 655360, xcp_power_up(state, sizes[i], 1));
        unchanged(&k, &r, state, sizes[i]);
        check_note("%s", "");
        lend_end(state, sizes[i]);
        rig_end(&r);
    }
}

/* A state that was never powered up; power-up takes it, whatever it holds. */
static void never_powered_up(void)
{
    static const uint8_t fills[] = {0x00, 0xFF, 0x5A};
    for (size_t i = 0; i < COUNT(fills); i++) {
        struct rig r;
        rig_start(&r, 16, 16, 1);
        check_note("state of bytes %02X", fills[i]);
        memset(r.state, fills[i], XCP_STATE_SIZE);
        HERE();
        bad_state(&r, r.state, XCP_STATE_SIZE);
        NUMBER("power-up", 0, xcp_power_up(r.state, XCP_STATE_SIZE, 1));
        check_note("%s", "");
        ASK(&r, CONNECTED, "FF 00");
        ASK(&r, "FF 04 21 20 04 00", "F8 00 04");
        rig_end(&r);
    }
}

/* The mark that power-up writes; with any other bit in it, as a version before this one wrote, the
 * state was never powered up. */
static void marks(void)
{
    struct rig r;
    rig_start(&r, 16, 16, 1);
    BYTES("mark", (const uint8_t *)"XCP5", 4, r.state, 4);
    for (unsigned bit = 0; bit < 32; bit++) {
        uint8_t other = (uint8_t)(1 << bit % 8);
        check_note("bit %u of the mark", bit);
        HERE();
        r.state[bit / 8] ^= other;
        bad_state(&r, r.state, XCP_STATE_SIZE);
        r.state[bit / 8] ^= other;
    }
    check_note("%s", "");
    ASK(&r, CONNECTED, "FF 00"); /* it is as it was */
    rig_end(&r);
}

/* Power-up writes every byte: what the buffer held before does not show in it. */
static void power_up_is_whole(void)
{
    uint8_t *one = lend(XCP_STATE_SIZE, 0x00), *other = lend(XCP_STATE_SIZE, 0xFF);
    NUMBER("power-up", 0, xcp_power_up(one, XCP_STATE_SIZE, 77));
    NUMBER("power-up", 0, xcp_power_up(other, XCP_STATE_SIZE, 77));
    BYTES("state", one, XCP_STATE_SIZE, other, XCP_STATE_SIZE);
    lend_end(one, XCP_STATE_SIZE);
    lend_end(other, XCP_STATE_SIZE);
}

static void bad_events(void)
{
    static const uint32_t numbers[] = {2, 3, 255, 256, 257, 65536, 65537, 0x80000000, 0xFFFFFFFF};
    for (size_t i = 0; i < COUNT(numbers); i++) {
        struct rig r;
        uint8_t before[XCP_STATE_SIZE];
        static struct seen seen_before, seen_after;
        HERE();
        busy(&r);
        seen_before.len = seen_after.len = 0;
        memcpy(before, r.state, sizeof before);
        probe(&r, &seen_before);
        check_note("event %lu", (unsigned long)numbers[i]);
        NUMBER("event", 524288, xcp_event(r.state, XCP_STATE_SIZE, r.cal, r.cal_len, r.meas,
                                          r.meas_len, numbers[i], 1));
        BYTES("state", before, sizeof before, r.state, XCP_STATE_SIZE);
        probe(&r, &seen_after);
        BYTES("what shows", seen_before.bytes, seen_before.len, seen_after.bytes, seen_after.len);
        check_note("%s", "");
        rig_end(&r);
    }
}

/* Too little room is 9, whatever waits: nothing, an answer of a few bytes, a list's packet. */
static void little_room(void)
{
    for (int what = 0; what < 3; what++)
        for (size_t room = 0; room < XCP_SLOT_ROOM; room++) {
            struct rig r;
            uint8_t before[XCP_STATE_SIZE];
            HERE();
            if (what == 2)
                busy(&r);
            else
                connected(&r);
            if (what == 1)
                NUMBER("SYNCH", 1, give(&r, "FC"));
            uint8_t *out = lend(room, 0x11);
            memcpy(before, r.state, sizeof before);
            check_note("room %zu", room);
            NUMBER("slot", 589824, xcp_slot(r.state, XCP_STATE_SIZE, out, room));
            NUMBER("slot lent NULL", 589824, xcp_slot(r.state, XCP_STATE_SIZE, NULL, 0));
            BYTES("state", before, sizeof before, r.state, XCP_STATE_SIZE);
            for (size_t i = 0; i < room; i++)
                NUMBER("out", 0x11, out[i]);
            lend_end(out, room);
            if (what == 1)
                SENDS(&r, "FE 00"); /* it waits for room */
            check_note("%s", "");
            rig_end(&r);
        }
}

/* More room than needed: the frame stands at the front and the rest stays, as slot() checks. */
static void much_room(void)
{
    static const size_t rooms[] = {136, 255, 256, 4096, 5000};
    for (size_t i = 0; i < COUNT(rooms); i++) {
        struct rig r;
        powered(&r);
        lend_end(r.out, r.out_len);
        r.out_len = rooms[i];
        r.out = lend(rooms[i], 0);
        SENDS(&r, "");
        ASK(&r, CONNECTED, "FF 00");
        ASK(&r, "FE 00", "FC");
        rig_end(&r);
    }
}

/* The longest answers, each byte of data SYNC or ESC, at every CTR and every checksum: they read
 * back as what memory holds, and are the very frames. None needs all the room: LEN and FF are no
 * pairs, and where all data are, CTR and checksum are not both. */
static void full_frames(void)
{
    struct rig r;
    uint8_t packet[PACKET], frame[FRAME];
    size_t longest = 0;
    connected(&r);
    for (unsigned i = 0; i < 256 * (UPLOAD_MOST + 1); i++) {
        unsigned escs = i / 256;
        check_note("%u bytes ESC, frame %u", escs, i);
        memset(r.cal, SYNC, UPLOAD_MOST);
        memset(r.cal + UPLOAD_MOST - escs, ESC, escs);
        NUMBER("taken", 1, give(&r, "F4 3F 00 00 00 00 00 00"));
        NUMBER("bytes of the answer", PACKET, (uint32_t)slot(&r, packet));
        BYTES("data", r.cal, UPLOAD_MOST, packet + 1, UPLOAD_MOST);
        size_t size = frame_of((uint8_t)(r.slave_ctr - 1), packet, PACKET, frame);
        BYTES("frame", frame, size, r.out, size);
        longest = size > longest ? size : longest;
    }
    check_note("%s", "");
    NUMBER("the longest frame", FRAME - 3, (uint32_t)longest);
    rig_end(&r);
}

/* NULL with length 0 for both memories, through a whole session. */
static void no_memories(void)
{
    struct rig r;
    rig_start(&r, 0, 0, 1);
    uint8_t *cal = r.cal, *meas = r.meas;
    r.cal = r.meas = NULL;
    ASK(&r, CONNECTED, "FF 00");
    HERE();
    unlock(&r, CALIBRATION);
    unlock(&r, LISTS);
    allocate_usual(&r);
    for (unsigned ext = 0; ext < 2; ext++) {
        ASK(&r, "FF", "F6 00 00 %02X 00 00 00 00", ext);
        ASK(&r, "FE 24", "F5 01");
        ASK(&r, "FE 24", "F4 01 00 %02X 00 00 00 00", ext);
        ASK(&r, "FE 24", "F3 00 00 00 01 00 00 00");
        ASK(&r, ext == 0 ? "FE 24" : "FE 23", "F0 01 55");
        ASK(&r, "FF", "E2 00 00 00 00 00");
        ASK(&r, "FE 24", "E1 FF 01 %02X 00 00 00 00", ext);
        ASK(&r, "FF", "E1 FF 00 %02X 00 00 00 00", ext);
    }
    NUMBER("event", 0, event(&r, 0, 1));
    ASK(&r, "FF", "FE");
    r.cal = cal;
    r.meas = meas;
    rig_end(&r);
    NUMBER("power-up lent NULL", 655360, xcp_power_up(NULL, 0, 1));
    NUMBER("a byte lent NULL", 655360, xcp_receive_byte(NULL, 0, NULL, 0, NULL, 0, SYNC));
    NUMBER("a slice lent NULL", 1, xcp_receive(NULL, 0, NULL, 0, NULL, 0, NULL, 0) == 655360);
    NUMBER("an event lent NULL", 655360, xcp_event(NULL, 0, NULL, 0, NULL, 0, 2, 0));
    NUMBER("a slot lent NULL", 655360, xcp_slot(NULL, 0, NULL, 0));
}

/* The state may be moved between calls, to any alignment. */
static void moved_state(void)
{
    struct rig r;
    powered(&r);
    uint8_t *room = lend(XCP_STATE_SIZE + 16, 0x3C), *home = r.state;
    memcpy(room, home, XCP_STATE_SIZE);
    r.state = room;
    for (unsigned i = 0; i < 16; i++) {
        check_note("offset %u", i);
        memmove(room + i, r.state, XCP_STATE_SIZE);
        r.state = room + i;
        ASK(&r, CONNECTED, "FF 00");
        HERE();
        unlock(&r, LISTS);
        allocate_usual(&r);
        entry(&r, 0, 0, 0, 4, 1, i);
        mode(&r, 0, 0);
        start(&r, 0);
        NUMBER("sampled", 256, event(&r, 0, 0x0102));
        SENDS(&r, "00 02 01 %02X %02X %02X %02X", r.meas[i], r.meas[i + 1], r.meas[i + 2],
              r.meas[i + 3]);
    }
    check_note("%s", "");
    r.state = home;
    lend_end(room, XCP_STATE_SIZE + 16);
    rig_end(&r);
}

void test_calls(void)
{
    NUMBER("state size", XCP_STATE_SIZE, xcp_state_size());
    wrong_sizes();
    never_powered_up();
    marks();
    power_up_is_whole();
    bad_events();
    little_room();
    much_room();
    full_frames();
    no_memories();
    moved_state();
}
