#include "host.h"

/* Bytes on the wire and the number that each returns. The good message in these rows is SYNCH
 * (01 ctr FC sum): 2 with no session. Whatever is dropped changes the reader's place alone. */
struct row {
    int line;
    const char *bytes, *numbers;
};

static const struct row rows[] = {
    /* a good message */
    {__LINE__, "9A 01 01 FC FE", "00002"},
    /* what follows it is passed over */
    {__LINE__, "9A 01 01 FC FE FE 00 9B 9B 07", "0000200000"},
    /* SYNC while ESC is pending, in CTR */
    {__LINE__, "9A 01 9B 9A 01 01 FC FE", "00070002"},
    /* the same in LEN: ESC counts as a byte */
    {__LINE__, "9A 9B 9A 01 01 FC FE", "0070002"},
    /* the same in the packet */
    {__LINE__, "9A 01 01 9B 9A 01 01 FC FE", "000070002"},
    /* the same in the checksum */
    {__LINE__, "9A 01 01 FC 9B 9A 01 01 FC FE", "0000070002"},
    /* SYNC cuts off after LEN */
    {__LINE__, "9A 01 9A 01 01 FC FE", "0070002"},
    /* after CTR */
    {__LINE__, "9A 01 01 9A 01 01 FC FE", "00070002"},
    /* before the checksum */
    {__LINE__, "9A 01 01 FC 9A 01 01 FC FE", "000070002"},
    /* SYNC right after SYNC cuts off nothing */
    {__LINE__, "9A 9A 01 01 FC FE", "000002"},
    {__LINE__, "9A 9A 9A 9A 01 01 FC FE", "00000002"},
    /* SYNC after an ended message */
    {__LINE__, "9A 01 01 FC FE 9A 01 01 FC FE", "0000200002"},
    /* SYNC after a dropped one: LEN */
    {__LINE__, "9A 41 9A 01 01 FC FE", "0300002"},
    {__LINE__, "9A FF 9A 01 01 FC FE", "0300002"},
    /* cut off after the longest LEN */
    {__LINE__, "9A 40 9A 01 01 FC FE", "0070002"},
    /* escape */
    {__LINE__, "9A 01 9B 05 9A 01 01 FC FE", "000400002"},
    /* checksum */
    {__LINE__, "9A 01 01 FC 00 9A 01 01 FC FE", "0000500002"},
    /* ESC outside leaves nothing pending */
    {__LINE__, "9B 00 9B 01 9B 9A 01 01 FC FE", "0000000002"},
    /* ESC ESC: no new pair begins */
    {__LINE__, "9A 01 9B 9B 00 FC 9A 01 01 FC FE", "00040000002"},
    /* LEN as a pair: 9B is above 64 */
    {__LINE__, "9A 9B 00 01 FC", "00300"},
    /* and so is 9A */
    {__LINE__, "9A 9B 01 01 FC", "00300"},
    /* no LEN was read: not 3 */
    {__LINE__, "9A 9B 05 01 FC", "00400"},
    /* LEN 0 */
    {__LINE__, "9A 00 01 FC FE", "03000"},
    /* the rest is passed over */
    {__LINE__, "9A 41 01 02 03 04 05 06 07 08 09 0A 0B", "0300000000000"},
    /* a pair in CTR */
    {__LINE__, "9A 01 9B 01 FC 97", "000002"},
    {__LINE__, "9A 01 9B 00 FC 98", "000002"},
    /* a pair in the packet */
    {__LINE__, "9A 02 01 FC 9B 01 99", "0000002"},
    /* and in the checksum: judged at its end */
    {__LINE__, "9A 02 01 FC 9B 00 9B 01", "00000002"},
    {__LINE__, "9A 01 9D FC 9B 01", "000002"},
    {__LINE__, "9A 01 9E FC 9B 00", "000002"},
    /* the other pair is another checksum */
    {__LINE__, "9A 01 9D FC 9B 00", "000005"},
    /* a checksum over escaped bytes is wrong */
    {__LINE__, "9A 02 05 FC 9B 01 9F", "0000005"},
    /* a checksum that counts SYNC */
    {__LINE__, "9A 01 01 FC 98 9A 01 01 FC FE", "0000500002"},
    /* FF 9A is no good CONNECT */
    {__LINE__, "9A 02 02 FF 9B 01 9D", "0000002"},
    /* 01 sent as a pair: only two pairs exist */
    {__LINE__, "9A 02 00 FF 00 9B 41", "0000004"},
    /* stays inside: the probe's SYNC goes on */
    {__LINE__, "FF 00 01 9A", "0000"},
};

static void run_rows(void (*situation)(struct rig *))
{
    for (size_t i = 0; i < COUNT(rows); i++) {
        struct rig r;
        ROW(&rows[i]);
        situation(&r);
        dropped(&r, rows[i].bytes, rows[i].numbers);
        rig_end(&r);
    }
}

/* In a session the first good message is taken, and a second is 6 while that answer waits. */
static void run_rows_in_session(void)
{
    for (size_t i = 0; i < COUNT(rows); i++) {
        struct rig r;
        char numbers[32];
        uint8_t packet[PACKET];
        size_t count = strlen(rows[i].numbers);
        uint32_t taken = 0;
        for (size_t k = 0; k <= count; k++) {
            numbers[k] = rows[i].numbers[k];
            if (numbers[k] == '2')
                numbers[k] = taken++ == 0 ? '1' : '6';
        }
        ROW(&rows[i]);
        connected(&r);
        wire(&r, rows[i].bytes, numbers);
        check_numbers("an answer waits if a message was good", taken > 0, slot(&r, packet) > 0);
        check_numbers("one answer, not two", 0, (uint32_t)slot(&r, packet));
        rig_end(&r);
    }
}

/* While an answer waits the same rows give 6 for 2, and the answer stays. */
static void run_rows_waiting(void)
{
    for (size_t i = 0; i < COUNT(rows); i++) {
        struct rig r;
        char numbers[32];
        size_t count = strlen(rows[i].numbers);
        ROW(&rows[i]);
        closed_waiting(&r);
        for (size_t k = 0; k <= count; k++)
            numbers[k] = rows[i].numbers[k] == '2' ? '6' : rows[i].numbers[k];
        dropped(&r, rows[i].bytes, numbers);
        rig_end(&r);
    }
}

static void every_len(void)
{
    struct rig r;
    powered(&r);
    for (unsigned len = 0; len < 256; len++) {
        check_note("LEN %02X", len);
        uint32_t expected = (len >= 1 && len <= PACKET) || len == SYNC || len == ESC ? 0 : 3;
        feed(&r, SYNC);
        NUMBER("LEN", expected, feed(&r, (uint8_t)len));
    }
    rig_end(&r);
}

static void every_byte_after_esc(void)
{
    for (unsigned byte = 0; byte < 256; byte++) {
        struct rig r;
        powered(&r);
        check_note("ESC %02X", byte);
        wire(&r, "9A 04 00 9B", "0000");
        check_note("ESC %02X", byte);
        NUMBER("after ESC", byte <= 1 ? 0 : byte == SYNC ? 7 : 4, feed(&r, (uint8_t)byte));
        rig_end(&r);
    }
}

static void every_byte_outside(void)
{
    struct rig r;
    powered(&r);
    for (unsigned byte = 0; byte < 256; byte++) {
        check_note("byte %02X", byte);
        if (byte != SYNC)
            NUMBER("a byte outside", 0, feed(&r, (uint8_t)byte));
    }
    WIRE(&r, "9A 01 01 FC FE", "00002");
    rig_end(&r);
}

static void every_checksum(void)
{
    struct rig r;
    powered(&r);
    for (unsigned sum = 0; sum < 256; sum++) {
        check_note("checksum %02X", sum);
        WIRE(&r, "9A 01 01 FC", "0000");
        check_note("checksum %02X", sum);
        if (sum == SYNC || sum == ESC) {
            NUMBER("ESC", 0, feed(&r, ESC));
            NUMBER("checksum", 5, feed(&r, sum == SYNC ? 1 : 0));
        } else {
            NUMBER("checksum", sum == 0xFE ? 2 : 5, feed(&r, (uint8_t)sum));
        }
    }
    rig_end(&r);
}

/* Every CTR with packets of every length, of which all bytes but the first are SYNC or ESC. */
static void every_ctr_and_length(void)
{
    struct rig r;
    uint8_t packet[PACKET] = {0xFD}, answer[PACKET];
    connected(&r);
    for (size_t i = 1; i < PACKET; i++)
        packet[i] = i * 5 % 7 < 3 ? SYNC : ESC;
    for (size_t len = 1; len <= PACKET; len++)
        for (unsigned ctr = 0; ctr < 256; ctr++) {
            r.master_ctr = (uint8_t)ctr;
            check_note("CTR %02X, %zu bytes", ctr, len);
            NUMBER("taken", 1, give_bytes(&r, packet, len));
            NUMBER("answered", 6, (uint32_t)slot(&r, answer));
        }
    check_note("%s", "");
    rig_end(&r);
}

/* The longest frame that can come: all behind LEN is SYNC or ESC, the checksum too. LEN never is,
 * so that the frame has a byte less than is reckoned. SYNC cuts it off at every place. */
static void longest_frame(void)
{
    struct rig r;
    uint8_t packet[PACKET], frame[FRAME];
    memset(packet, ESC, sizeof packet);
    size_t size = frame_of(SYNC, packet, sizeof packet, frame);
    NUMBER("its size", FRAME - 1, (uint32_t)size);
    connected(&r);
    for (size_t cut = 0; cut <= size; cut++) {
        check_note("cut off after byte %zu", cut);
        for (size_t i = 0; i < cut; i++)
            NUMBER("a byte of it", i + 1 == size, feed(&r, frame[i]));
        NUMBER("SYNC", cut > 1 && cut < size ? XCP_CUT_OFF : XCP_DONE, feed(&r, SYNC));
        if (cut == size)
            SENDS(&r, "FE 20"); /* 9B is no command */
        WIRE(&r, "01 01 FC FE", "0001"); /* goes on behind that SYNC */
        SENDS(&r, "FE 00");
    }
    check_note("%s", "");
    rig_end(&r);
}

void test_line(void)
{
    run_rows(powered);
    run_rows_in_session();
    run_rows_waiting();
    every_len();
    every_byte_after_esc();
    every_byte_outside();
    every_checksum();
    every_ctr_and_length();
    longest_frame();
}
