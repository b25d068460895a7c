#include "host.h"

/* Lists 0 and 1 have two packets, lists 2 and 3 one; 0 and 2 are on event 0, 1 and 3 on event 1. */
static void sampling(struct rig *r)
{
    allocated(r);
    for (unsigned list = 0; list < LIST_COUNT; list++) {
        entry(r, list, 0, 0, 2, 1, 16 * list);
        if (list < 2)
            entry(r, list, 1, 0, 3, 0, 16 * list);
        mode(r, list, list % 2);
        start(r, list);
    }
}

/* Entries are read in order, from either memory, both ODTs at the event and not later. */
static void captured_at_once(void)
{
    struct rig r;
    allocated(&r);
    memcpy(r.cal, "\x10\x11\x12\x13\x14\x15\x16\x17", 8);
    memcpy(r.meas, "\x20\x21\x22\x23\x24\x25\x26\x27", 8);
    HERE();
    entry(&r, 2, 0, 0, 1, 1, 7);
    entry(&r, 2, 0, 2, 3, 0, 1);
    entry(&r, 2, 0, 3, 1, 1, 0);
    entry(&r, 2, 1, 1, 4, 1, 2);
    entry(&r, 2, 1, 3, 3, 0, 5);
    mode(&r, 2, 1);
    start(&r, 2);
    NUMBER("sampled", 0x100, event(&r, 1, 0x9A9B));
    memset(r.cal, 0xDD, r.cal_len);
    memset(r.meas, 0xDD, r.meas_len);
    SENDS(&r, "04 9B 9A 27 11 12 13 20");
    memset(r.meas, 0xCC, r.meas_len);
    rig_resize_meas(&r, 0);
    rig_resize_cal(&r, 0);
    SENDS(&r, "05 22 23 24 25 15 16 17");
    SENDS(&r, "");
    rig_end(&r);
}

static void missed(void)
{
    struct rig r;
    uint8_t packet[PACKET];
    sampling(&r);
    NUMBER("both of event 0", 0x200, event(&r, 0, 0x0A0A));
    NUMBER("again: both missed", 2, event(&r, 0, 0x0B0B));
    NUMBER("both of event 1", 0x200, event(&r, 1, 0x0C0C));
    SENDS(&r, "00 0A 0A %02X %02X", r.meas[0], r.meas[1]); /* the old one stays */
    NUMBER("only the second packet is unsent: missed", 2, event(&r, 0, 0x0D0D));
    SENDS(&r, "02 0C 0C %02X %02X", r.meas[16], r.meas[17]);
    SENDS(&r, "04 0A 0A %02X %02X", r.meas[32], r.meas[33]);
    NUMBER("list 2 is free", 0x101, event(&r, 0, 0x0E0E));
    SENDS(&r, "06 0C 0C %02X %02X", r.meas[48], r.meas[49]);
    SENDS(&r, "01 %02X %02X %02X", r.cal[0], r.cal[1], r.cal[2]);
    NUMBER("list 0 is free", 0x101, event(&r, 0, 0x0F0F));
    drain(&r, packet);
    NUMBER("all free", 0x200, event(&r, 0, 1));
    rig_end(&r);
}

/* Four lists on one event: two sample and two miss is 514. */
static void counts(void)
{
    struct rig r;
    allocated(&r);
    for (unsigned list = 0; list < LIST_COUNT; list++) {
        HERE();
        entry(&r, list, 0, 0, 1, 0, 0);
        mode(&r, list, 0);
        start(&r, list);
    }
    NUMBER("all sample", 1024, event(&r, 0, 0));
    SENDS(&r, "00 00 00 %02X", r.cal[0]);
    SENDS(&r, "02 00 00 %02X", r.cal[0]);
    uint32_t result =
        xcp_event(r.state, XCP_STATE_SIZE, r.cal, r.cal_len, r.meas, r.meas_len, 0, 7);
    NUMBER("two of each", 514, result);
    NUMBER("sampled", 2, XCP_SAMPLED(result));
    NUMBER("missed", 2, XCP_MISSED(result));
    rig_end(&r);
}

static void no_list_runs(void)
{
    static void (*const situations[])(struct rig *) = {powered, connected, unlocked, allocated};
    for (size_t i = 0; i < COUNT(situations); i++)
        for (uint32_t number = 0; number < 2; number++) {
            struct rig r;
            uint8_t before[XCP_STATE_SIZE];
            HERE();
            situations[i](&r);
            memcpy(before, r.state, sizeof before);
            NUMBER("nothing to sample", 0, event(&r, number, 5));
            BYTES("state", before, sizeof before, r.state, XCP_STATE_SIZE);
            rig_end(&r);
        }
}

/* The memories shrink between setup and event: bytes that are no longer inside read 0. */
static void shrunk(void)
{
    for (size_t len = 0; len <= 8; len++) {
        struct rig r;
        uint8_t expected[PACKET] = {0, 0x34, 0x12}, packet[PACKET];
        allocated(&r);
        memcpy(r.cal, "\x10\x11\x12\x13\x14\x15\x16\x17", 8);
        memcpy(r.meas, "\x20\x21\x22\x23\x24\x25\x26\x27", 8);
        check_note("%zu bytes left", len);
        HERE();
        entry(&r, 0, 0, 0, 4, 1, 3);
        entry(&r, 0, 0, 1, 1, 0, 0);
        entry(&r, 0, 1, 0, 3, 0, 5);
        entry(&r, 0, 1, 1, 1, 1, 4095);
        mode(&r, 0, 0);
        start(&r, 0);
        rig_resize_cal(&r, len);
        rig_resize_meas(&r, len);
        NUMBER("sampled all the same", 0x100, event(&r, 0, 0x1234));
        for (size_t i = 0; i < 4; i++)
            expected[3 + i] = (uint8_t)(3 + i < len ? 0x23 + i : 0);
        expected[7] = len > 0 ? 0x10 : 0;
        size_t got = slot(&r, packet);
        BYTES("ODT 0", expected, 8, packet, got);
        expected[0] = 1;
        for (size_t i = 0; i < 3; i++)
            expected[1 + i] = (uint8_t)(5 + i < len ? 0x15 + i : 0);
        expected[4] = 0;
        got = slot(&r, packet);
        BYTES("ODT 1", expected, 5, packet, got);
        check_note("%s", "");
        rig_end(&r);
    }
}

/* A longer memory shows no more than its first 4,096 bytes; NULL with length 0 is a memory. */
static void other_memories(void)
{
    struct rig r;
    rig_start(&r, 5000, 5000, 1);
    ask(&r, CONNECTED, "FF 00");
    unlock(&r, LISTS);
    allocate_usual(&r);
    ASK(&r, "FF", "E2 00 00 00 00 00");
    REFUSED(&r, "FE 24", "E1 FF 02 01 FF 0F 00 00");
    ASK(&r, "FF", "E1 FF 01 01 FF 0F 00 00");
    ASK(&r, "FF", "E1 FF 04 00 FC 0F 00 00");
    HERE();
    mode(&r, 0, 0);
    start(&r, 0);
    NUMBER("sampled", 0x100, event(&r, 0, 0));
    SENDS(&r, "00 00 00 %02X %02X %02X %02X %02X", r.meas[4095], r.cal[4092], r.cal[4093],
          r.cal[4094], r.cal[4095]);
    NUMBER("no memory at all", 0x100,
           xcp_event(r.state, XCP_STATE_SIZE, NULL, 0, NULL, 0, 0, 0x0708));
    SENDS(&r, "00 08 07 00 00 00 00 00");
    rig_end(&r);
}

/* Lists as full as they can be: 61 measured bytes in ODT 0, 63 of calibration in ODT 1. */
static void full_lists(struct rig *r)
{
    allocated(r);
    for (unsigned list = 0; list < LIST_COUNT; list++) {
        entries(r, list, 0, FIRST_MOST, 1, 0x400 * list);
        entries(r, list, 1, LATER_MOST, 0, 0x400 * list + 7);
        mode(r, list, 0);
        start(r, list);
    }
}

/* Both packets of every full list, whole and in order. */
static void sends_full(struct rig *r, uint16_t clock)
{
    for (unsigned odt = 0; odt < ODT_COUNT; odt++)
        for (unsigned list = 0; list < LIST_COUNT; list++)
            if (odt == 0)
                sends(r, "%02X %02X %02X %s", 2 * list, LE16(clock),
                      hex_of(r->meas + 0x400 * list, FIRST_MOST));
            else
                sends(r, "%02X %s", 2 * list + 1, hex_of(r->cal + 0x400 * list + 7, LATER_MOST));
    sends(r, "");
}

/* Samples of the longest packets: of scattered bytes, of SYNC, of ESC, of both; at every CTR, since
 * eight frames leave at a time. The clock is sent as pairs too, as often as not. */
static void full_samples(void)
{
    struct rig r;
    HERE();
    full_lists(&r);
    for (unsigned i = 0; i < 3 * 256 / 8; i++) {
        check_note("sample %u", i);
        for (size_t k = 0; i > 0 && k < REACH; k++) {
            r.cal[k] = i % 3 == 0 ? SYNC : i % 3 == 1 ? ESC : (i + k) % 5 < 2 ? ESC : SYNC;
            r.meas[k] = i % 3 == 0 ? ESC : i % 3 == 1 ? SYNC : (i + k) % 7 < 3 ? SYNC : ESC;
        }
        uint16_t clock = i % 2 == 0 ? 0x9A9B : (uint16_t)(259 * i);
        NUMBER("all sample", 0x400, event(&r, 0, clock));
        NUMBER("all miss the next", 4, event(&r, 0, 1));
        HERE();
        sends_full(&r, clock);
    }
    check_note("%s", "");
    rig_end(&r);
}

/* Full packets of samples and of answers in turn; a command of the longest packet comes between. */
static void full_packets_in_turn(void)
{
    struct rig r;
    uint8_t packet[PACKET];
    HERE();
    full_lists(&r);
    ask(&r, "FF", "F6 00 00 00 00 08 00 00");
    NUMBER("all sample", 0x400, event(&r, 0, 1));
    NUMBER("list 0", PACKET, (uint32_t)slot(&r, packet)); /* the last frame was an answer */
    NUMBER("DOWNLOAD", 1, give(&r, "F0 3E 9A*62"));
    SENDS(&r, "FF");
    NUMBER("list 1", PACKET, (uint32_t)slot(&r, packet));
    NUMBER("SHORT_DOWNLOAD", 1, give(&r, "ED 38 00 00 3E 08 00 00 9B*56"));
    SENDS(&r, "FF");
    NUMBER("list 2", PACKET, (uint32_t)slot(&r, packet));
    NUMBER("SHORT_UPLOAD", 1, give(&r, "F4 3F 00 00 37 08 00 00"));
    SENDS(&r, "FF 9A*7 9B*56");
    NUMBER("list 3", PACKET, (uint32_t)slot(&r, packet));
    NUMBER("its number", 6, packet[0]);
    NUMBER("UPLOAD", 1, give(&r, "F5 3F"));
    SENDS(&r, "FF %s", hex_of(r.cal + 0x876, UPLOAD_MOST));
    for (unsigned list = 0; list < LIST_COUNT; list++) {
        NUMBER("ODT 1", PACKET, (uint32_t)slot(&r, packet));
        NUMBER("its number", 2 * list + 1, packet[0]);
    }
    SENDS(&r, "");
    rig_end(&r);
}

/* Full lists whose memories end inside an entry, between two, or are gone: the rest reads 0. */
static void shrunk_full(void)
{
    static const size_t lengths[] = {0, 1, 4, 31, 59, 60, 61, 62, 69, 70};
    for (size_t i = 0; i < COUNT(lengths); i++) {
        struct rig r;
        uint8_t expected[2 * PACKET];
        HERE();
        full_lists(&r);
        memset(expected, 0, sizeof expected);
        memcpy(expected, r.meas, lengths[i]);
        rig_resize_meas(&r, lengths[i]);
        check_note("%zu bytes left", lengths[i]);
        NUMBER("sampled all the same", 0x400, event(&r, 0, 0x0201));
        SENDS(&r, "00 01 02 %s", hex_of(expected, FIRST_MOST));
        for (unsigned list = 1; list < LIST_COUNT; list++)
            SENDS(&r, "%02X 01 02 00*61", 2 * list);
        SENDS(&r, "01 %s", hex_of(r.cal + 7, LATER_MOST));
        check_note("%s", "");
        rig_end(&r);
    }
}

/* ODT 0 without bytes still sends its number and the clock; ODT 1 without bytes sends nothing. */
static void empty_odts(void)
{
    struct rig r;
    allocated(&r);
    HERE();
    entry(&r, 3, 1, 2, 1, 0, 4);
    mode(&r, 3, 1);
    start(&r, 3);
    NUMBER("sampled", 0x100, event(&r, 1, 0xBEEF));
    SENDS(&r, "06 EF BE");
    SENDS(&r, "07 %02X", r.cal[4]);
    SENDS(&r, "");
    rig_end(&r);
}

/* What stops a list drops its second packet, though the first has left. */
static void half_a_sample(void)
{
    static const char *const commands[] = {"DE 00 00 00", "DD 00", "DD 02", "D6", "FE", "FF 00"};
    for (size_t i = 0; i < COUNT(commands); i++) {
        struct rig r;
        uint8_t packet[PACKET];
        HERE();
        sampling(&r);
        ask(&r, "FF 00", "DE 02 00 00");
        ask(&r, "FF 04", "DE 02 02 00");
        check_note("%s", commands[i]);
        NUMBER("sampled", 0x200, event(&r, 0, 1));
        NUMBER("ODT 0", 5, (uint32_t)slot(&r, packet));
        NUMBER("ODT 0 of list 2", 5, (uint32_t)slot(&r, packet));
        NUMBER("taken", 1, give(&r, "%s", commands[i]));
        NUMBER("answer", 1, slot(&r, packet) > 0 && packet[0] == 0xFF);
        SENDS(&r, "");
        NUMBER("list 0 does not sample", i == 0 ? 0x100 : 0, event(&r, 0, 1));
        check_note("%s", "");
        rig_end(&r);
    }
}

/* What frees the lists begins the round at list 0, in the same session or in the next; an answer
 * does not move it. */
static void round_begins_anew(int connects)
{
    struct rig r;
    uint8_t packet[PACKET];
    sampling(&r);
    NUMBER("sampled", 0x200, event(&r, 1, 1));
    NUMBER("list 1", 5, (uint32_t)slot(&r, packet)); /* list 2 would be next */
    if (connects) {
        ASK(&r, CONNECTED, "FF 00");
        HERE();
        unlock(&r, LISTS);
    }
    HERE();
    allocate_usual(&r);
    for (unsigned list = 0; list < LIST_COUNT; list++) {
        entry(&r, list, 0, 0, 1, 0, 0);
        mode(&r, list, 0);
        start(&r, list);
    }
    NUMBER("sampled", 0x400, event(&r, 0, 0));
    NUMBER("taken", 1, give(&r, "FC"));
    SENDS(&r, "00 00 00 %02X", r.cal[0]); /* the last frame was an answer */
    SENDS(&r, "FE 00");
    SENDS(&r, "02 00 00 %02X", r.cal[0]);
    SENDS(&r, "04 00 00 %02X", r.cal[0]);
    SENDS(&r, "06 00 00 %02X", r.cal[0]);
    SENDS(&r, "");
    rig_end(&r);
}

/* Events and slots between the bytes of a command, a short or a long one, do not disturb it. */
static void between_bytes(size_t count)
{
    struct rig r;
    uint8_t packet[PACKET] = {0xF0, (uint8_t)count}, frame[FRAME], sent[PACKET];
    HERE();
    sampling(&r);
    ask(&r, "FF", "F6 00 00 00 80 00 00 00");
    for (size_t i = 0; i < count; i++)
        packet[2 + i] = (uint8_t)(i % 4 == 0 ? SYNC : i % 4 == 1 ? ESC : i % 4 == 2);
    size_t size = frame_of(SYNC, packet, 2 + count, frame);
    for (size_t i = 0; i < size; i++) {
        check_note("byte %zu", i);
        NUMBER("number", i + 1 == size, feed(&r, frame[i]));
        event(&r, i % 2, (uint16_t)i);
        if (i + 1 < size)
            slot(&r, sent);
    }
    check_note("%s", "");
    BYTES("written", packet + 2, count, r.cal + 0x80, count);
    int first = slot(&r, sent) > 0 && sent[0] == 0xFF;
    int second = slot(&r, sent) > 0 && sent[0] == 0xFF;
    NUMBER("its answer leaves in one of two slots", 1, (uint32_t)(first + second));
    rig_end(&r);
}

void test_events(void)
{
    captured_at_once();
    missed();
    counts();
    no_list_runs();
    shrunk();
    other_memories();
    full_samples();
    full_packets_in_turn();
    shrunk_full();
    empty_odts();
    half_a_sample();
    round_begins_anew(0);
    round_begins_anew(1);
    between_bytes(6);
    between_bytes(DOWNLOAD_MOST);
}
