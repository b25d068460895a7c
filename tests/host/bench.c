#include "host.h"

/* The bench sheet, byte for byte on the wire, from a power-up with start 1. Cases 7, 10 and 11 come
 * after an allocation of four lists of two ODTs. */

static void cases_1_to_3(void)
{
    struct rig r;
    powered(&r);
    r.cal[0] = SYNC;
    WIRE(&r, "9A 02 00 FF 00 01", "000001");
    SENDS_FRAME(&r, "9A 08 00 FF 05 00 40 40 00 01 01 8E");
    WIRE(&r, "9A 01 01 FC FE", "00001");
    SENDS_FRAME(&r, "9A 02 01 FE 00 01");
    WIRE(&r, "9A 08 02 F4 01 00 00 00 00 00 00 FF", "000000000001");
    SENDS_FRAME(&r, "9A 02 02 FF 9B 01 9D"); /* FF 9A at CTR 2 */
    rig_end(&r);
}

static void case_4(void)
{
    struct rig r;
    connected(&r);
    for (int ctr = 1; ctr < 0x9A; ctr++)
        ASK(&r, "FE 00", "FC");
    NUMBER("SET_MTA", 1, give(&r, "F6 00 00 00 00 00 00 00"));
    SENDS_FRAME(&r, "9A 01 9B 01 FF 9B 01"); /* FF at CTR 9A */
    rig_end(&r);
}

static void case_5(void)
{
    struct rig r;
    connected(&r);
    NUMBER("calibration key", 0x04F07F00, key_of(0x00042021, CALIBRATION));
    WIRE(&r, "9A 03 01 F8 00 01 FD", "0000001");
    SENDS_FRAME(&r, "9A 06 01 FF 04 21 20 04 00 4F");
    WIRE(&r, "9A 06 02 F7 04 00 7F F0 04 76", "0000000001");
    SENDS_FRAME(&r, "9A 02 02 FF 04 07");
    rig_end(&r);
}

static void case_6(void)
{
    struct rig r;
    connected(&r);
    NUMBER("lists key", 0x04FA2100, key_of(0x00042021, LISTS));
    ASK(&r, "FF 04 21 20 04 00", "F8 00 04");
    ASK(&r, "FF 01", "F7 04 00 21 FA 04");
    rig_end(&r);
}

static void case_7(void)
{
    struct rig r;
    connected(&r);
    memcpy(r.meas + 0x40, "\x64\x00", 2);
    HERE();
    unlock(&r, LISTS);
    allocate_usual(&r);
    entry(&r, 1, 0, 0, 2, 1, 0x40);
    mode(&r, 1, 0);
    start(&r, 1);
    while (r.slave_ctr != 9) /* round to 9 again: setting up takes more messages than that */
        ASK(&r, "FF 40 01 00 00 00", "FD");
    NUMBER("sampled", 256, event(&r, 0, 0x1234));
    SENDS_FRAME(&r, "9A 05 09 02 34 12 64 00 BA");
    rig_end(&r);
}

static void cases_8_and_9(void)
{
    struct rig r;
    uint8_t data[62];
    for (size_t i = 0; i < sizeof data; i++)
        data[i] = (uint8_t)(i + 1);
    unlocked(&r);
    ASK(&r, "FF", "F6 00 00 00 C3 0F 00 00"); /* 4,035 */
    REFUSED(&r, "FE 24", "F0 3E %s", hex_of(data, sizeof data));
    ASK(&r, "FF", "F6 00 00 00 C2 0F 00 00"); /* 4,034 */
    ASK(&r, "FF", "F0 3E %s", hex_of(data, sizeof data));
    BYTES("written", data, sizeof data, r.cal + 4034, sizeof data);
    ASK(&r, "FF", "F6 00 00 00 00 00 00 00");
    REFUSED(&r, "FE 22", "F0 3F %s", hex_of(data, sizeof data));
    rig_end(&r);
}

static void case_10(void)
{
    struct rig r;
    allocated(&r);
    HERE();
    entries(&r, 0, 0, 62, 0, 0);
    mode(&r, 0, 0);
    REFUSED(&r, "FE 2A", "DE 01 00 00");
    HERE();
    entries(&r, 0, 0, 61, 0, 0); /* the last entry has a byte less */
    ASK(&r, "FF 00", "DE 01 00 00");
    rig_end(&r);
}

/* Case 11: the last frame was list 3's, all lists wait, answers keep coming. */
static void case_11(void)
{
    static const char *const order[] = {"FE 00", "00 07 00 %02X", "FE 00", "02 07 00 %02X",
                                        "FE 00", "04 07 00 %02X", "FE 00", "06 07 00 %02X"};
    struct rig r;
    uint8_t packet[PACKET] = {0};
    allocated(&r);
    for (unsigned list = 0; list < LIST_COUNT; list++) {
        HERE();
        entry(&r, list, 0, 0, 1, 1, 0);
        mode(&r, list, 0);
        start(&r, list);
    }
    event(&r, 0, 0);
    drain(&r, packet);
    NUMBER("the last frame was list 3's", 6, packet[0]);
    NUMBER("all sample", 0x400, event(&r, 0, 7));
    for (size_t i = 0; i < COUNT(order); i++) {
        if (i % 2 == 0)
            NUMBER("SYNCH", 1, give(&r, "FC"));
        SENDS(&r, order[i], r.meas[0]);
    }
    SENDS(&r, "");
    rig_end(&r);
}

/* Exchanges of the standard's examples whose settings agree with ours. */
static void examples(void)
{
    struct rig r;
    uint32_t sum = 0;
    unlocked(&r);
    for (size_t i = 60; i < 60 + 3501; i++)
        sum += r.cal[i];
    ASK(&r, "FF", "F6 FF FF 00 3C 00 00 00");
    NUMBER("BUILD_CHECKSUM", 1, give(&r, "F3 FF FF FF AD 0D 00 00"));
    SENDS(&r, "FF 02 00 00 %02X %02X 00 00", LE16(sum));
    ASK(&r, "FF", "F6 FF FF 00 60 00 00 00");
    ASK(&r, "FF", "F0 04 00 00 80 3F");
    ASK(&r, "FF 00 00 80 3F", "F4 04 FF 00 60 00 00 00");
    ASK(&r, "FF", "D6");
    ASK(&r, "FF", "D5 FF 01 00");
    ASK(&r, "FF", "D4 FF 00 00 01");
    ASK(&r, "FF", "D3 FF 00 00 00 02");
    ASK(&r, "FF", "E2 FF 00 00 00 00");
    ASK(&r, "FF", "E1 FF 04 00 08 05 00 00");
    ASK(&r, "FF", "E0 10 00 00 00 00 01 00");
    ASK(&r, "FF 00", "DE 02 00 00");
    ASK(&r, "FF", "DD 01");
    ASK(&r, "FF 40 00 00 00 00", "FD");
    ASK(&r, "FF 00", "DE 02 00 00");
    ASK(&r, "FF", "DD 02");
    ASK(&r, "FF 00 00 00 00 00", "FD");
    ASK(&r, "FF", "FE");
    rig_end(&r);
}

void test_bench(void)
{
    cases_1_to_3();
    case_4();
    case_5();
    case_6();
    case_7();
    cases_8_and_9();
    case_10();
    case_11();
    examples();
}
