#include "host.h"

/* A slave at work: what it sends, byte for byte, while others work beside it. */
struct worker {
    struct rig rig;
    uint8_t sent[512];
    size_t count;
};

/* A session that unlocks and writes, in the frames of start number 1; the last one disconnects. */
static const char *const talk[] = {"FF 00", "F8 00 01", "F7 04 00 7F F0 04", "F6 00 00 00 10 00 00 00",
                                   "F0 04 9A 9B 01 02", "F4 04 00 00 10 00 00 00", "FD", "FE"};

static size_t frame_at(size_t step, uint8_t frame[FRAME])
{
    uint8_t packet[PACKET];
    return frame_of((uint8_t)step, packet, bytes_of(talk[step], packet, sizeof packet), frame);
}

static void take_slot(struct worker *w)
{
    uint8_t room[XCP_SLOT_ROOM];
    uint32_t size = XCP_SIZE(xcp_slot(w->rig.state, XCP_STATE_SIZE, room, sizeof room));
    memcpy(w->sent + w->count, room, size);
    w->count += size;
}

/* All of them hear each frame, a byte at a time in turn, and send in turn. */
static void work(struct worker *workers, size_t count)
{
    for (size_t step = 0; step < COUNT(talk); step++) {
        uint8_t frame[FRAME];
        size_t size = frame_at(step, frame);
        for (size_t at = 0; at < size; at++)
            for (size_t i = 0; i < count; i++)
                feed(&workers[i].rig, frame[at]);
        for (size_t i = 0; i < count; i++)
            take_slot(&workers[i]);
    }
}

/* Three in one program, of which two have the same start number, send what one sends alone; the
 * third has another, so that the key is wrong there, and that is its own affair. */
static void side_by_side(void)
{
    static struct worker alone, all[3];
    alone.count = 0;
    rig_start(&alone.rig, 64, 8, 1);
    for (size_t i = 0; i < COUNT(all); i++) {
        all[i].count = 0;
        rig_start(&all[i].rig, 64, 8, i == 1 ? 2 : 1);
    }
    work(&alone, 1);
    work(all, COUNT(all));
    BYTES("what the first sends", alone.sent, alone.count, all[0].sent, all[0].count);
    BYTES("what the third sends", alone.sent, alone.count, all[2].sent, all[2].count);
    NUMBER("the second sends something else", 1,
           all[1].count != alone.count || memcmp(all[1].sent, alone.sent, alone.count) != 0);
    BYTES("the first one's calibration", alone.rig.cal, 64, all[0].rig.cal, 64);
    NUMBER("the second one's is as it was", 1, memcmp(all[1].rig.cal, alone.rig.cal, 64) != 0);
    rig_end(&alone.rig);
    for (size_t i = 0; i < COUNT(all); i++)
        rig_end(&all[i].rig);
}

/* A copy of the state is a slave too: SYNCH tells what it stands at, and the first hears nothing. */
static void asked_of_a_copy(struct rig *r, uint32_t number)
{
    static const uint8_t synch[] = {SYNC, 0x01, 0x00, 0xFC, 0xFD};
    uint8_t before[XCP_STATE_SIZE], *copy = lend(XCP_STATE_SIZE, 0);
    uint32_t result = 0;
    memcpy(before, r->state, sizeof before);
    memcpy(copy, r->state, sizeof before);
    for (size_t i = 0; i < sizeof synch; i++)
        result = xcp_receive_byte(copy, XCP_STATE_SIZE, NULL, 0, NULL, 0, synch[i]);
    NUMBER("what SYNCH gives at a copy", number, XCP_NUMBER(result));
    BYTES("the state that was copied", before, sizeof before, r->state, XCP_STATE_SIZE);
    lend_end(copy, XCP_STATE_SIZE);
}

static void copies(void)
{
    struct rig r;
    powered(&r);
    asked_of_a_copy(&r, XCP_NO_SESSION);
    feed(&r, SYNC);
    feed(&r, 0x08);
    asked_of_a_copy(&r, XCP_NO_SESSION); /* in the middle of a message, too */
    rig_end(&r);
    connected(&r);
    asked_of_a_copy(&r, XCP_TAKEN);
    rig_end(&r);
    busy(&r);
    asked_of_a_copy(&r, XCP_TAKEN);
    rig_end(&r);
    closed_waiting(&r);
    asked_of_a_copy(&r, XCP_ANSWER_WAITS);
    uint8_t packet[PACKET];
    drain(&r, packet);
    asked_of_a_copy(&r, XCP_NO_SESSION);
    r.state[2] ^= 4;
    asked_of_a_copy(&r, XCP_BAD_STATE);
    rig_end(&r);
}

void test_several(void)
{
    side_by_side();
    copies();
}
