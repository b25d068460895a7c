#include "host.h"

/* SHORT_DOWNLOAD, code ED: count, a reserved byte, extension, address, and the bytes from byte 8
 * on. It writes calibration at its own address, and leaves the MTA behind its block. */

enum { HEAD = 8, PLACE = 0x40 };

/* A packet of it; the data's bytes go up from this one. */
static size_t short_download(uint8_t packet[PACKET], unsigned count, unsigned ext, uint32_t address,
                             uint8_t first)
{
    const uint8_t head[HEAD] = {0xED, (uint8_t)count, 0, (uint8_t)ext, LE32(address)};
    memcpy(packet, head, HEAD);
    for (unsigned i = 0; i < PACKET - HEAD; i++)
        packet[HEAD + i] = (uint8_t)(first + i);
    return HEAD + (count <= SHORT_DOWNLOAD_MOST ? count : SHORT_DOWNLOAD_MOST);
}

static void answers(struct rig *r, const char *answer, const uint8_t *packet, size_t len)
{
    insist("taken", XCP_TAKEN, give_bytes(r, packet, len));
    sends(r, answer);
}

/* Calibration after so many bytes of a packet were written, and no other byte. */
static void written(const struct rig *r, const uint8_t *before, const uint8_t *packet, size_t count,
                    size_t at)
{
    static uint8_t expected[LONGEST];
    memcpy(expected, before, r->cal_len);
    memcpy(expected + at, packet + HEAD, count);
    check_bytes("calibration", expected, r->cal_len, r->cal, r->cal_len);
}

/* Where the MTA is: UPLOAD reads there, or finds the memory's end. */
static void mta_at(struct rig *r, uint32_t address)
{
    if (address < r->cal_len && address < REACH)
        ask(r, answer_of(r->cal + address, 1), "F5 01");
    else
        ask(r, "FE 24", "F5 01");
}

/* What can be wrong, a bit each in the order of the checks. */
enum { SHORT = 1, LOCKED = 2, COUNT_WRONG = 4, EXTENSION = 8, MISSING = 16, MEASURED = 32,
       OUTSIDE = 64, FAULTS = 7 };
static const char *const of_fault[FAULTS] = {"FE 21", "FE 25", "FE 22", "FE 22",
                                             "FE 21", "FE 23", "FE 24"};

static const char *first_answer(unsigned faults)
{
    size_t fault = 0;
    while (!(faults >> fault & 1))
        fault++;
    return of_fault[fault];
}

/* The packet with these faults, in words. */
static const char *faulty(unsigned faults, unsigned count, unsigned ext)
{
    uint8_t packet[PACKET];
    size_t len = short_download(packet, faults & COUNT_WRONG ? count : SHORT_DOWNLOAD_MOST,
                                faults & EXTENSION ? ext : faults & MEASURED ? 1 : 0,
                                faults & OUTSIDE ? REACH : PLACE, 0x55);
    return hex_of(packet, faults & SHORT ? HEAD - 1 : faults & MISSING ? HEAD : len);
}

/* Both resources open, or lists alone; MTA and pointer are unset. */
static void begin(struct rig *r, int locked)
{
    connected(r);
    if (!locked)
        unlock(r, CALIBRATION);
    unlock(r, LISTS);
}

/* Every set of faults: the first in order answers, and nothing changes. The MTA stays too: it is
 * unset, in the same memory, in the other one. */
static void every_fault(void)
{
    static const struct {
        int line;
        const char *before;
        unsigned count, ext;
    } cases[] = {
        {__LINE__, "FC", 0, 2},
        {__LINE__, "F6 00 00 00 00 01 00 00", 57, 0xFF},
        {__LINE__, "F6 00 00 01 00 01 00 00", 0xFF, 0x80},
    };
    for (size_t i = 0; i < COUNT(cases); i++)
        for (unsigned faults = 1; faults < 1u << FAULTS; faults++) {
            struct rig r;
            ROW(&cases[i]);
            begin(&r, faults & LOCKED);
            ask(&r, i == 0 ? "FE 00" : "FF", "%s", cases[i].before);
            refused(&r, first_answer(faults), "%s", faulty(faults, cases[i].count, cases[i].ext));
            rig_end(&r);
        }
}

/* Every count with every length of the packet: bytes behind the data are ignored. */
static void every_count_and_length(void)
{
    static uint8_t before[REACH];
    struct rig r;
    HERE();
    begin(&r, 0);
    for (unsigned count = 0; count < 256; count++)
        for (size_t len = 1; len <= PACKET; len++) {
            uint8_t packet[PACKET];
            short_download(packet, count, 0, PLACE, (uint8_t)(count + len));
            int good = count >= 1 && count <= SHORT_DOWNLOAD_MOST;
            int done = good && len >= HEAD + count;
            check_note("count %u, %zu bytes", count, len);
            memcpy(before, r.cal, REACH);
            HERE();
            answers(&r, done ? "FF" : len >= HEAD && !good ? "FE 22" : "FE 21", packet, len);
            written(&r, before, packet, done ? count : 0, PLACE);
        }
    check_note("%s", "");
    rig_end(&r);
}

/* Up to the last byte of a memory of any length, and one place too far. */
static void to_the_end(struct rig *r, unsigned count)
{
    static uint8_t before[LONGEST];
    uint32_t end = (uint32_t)(r->cal_len < REACH ? r->cal_len : REACH);
    uint32_t too_far = count <= end ? end - count + 1 : 0;
    uint8_t packet[PACKET];
    size_t len = short_download(packet, count, 0, too_far, (uint8_t)count);
    check_note("calibration of %zu bytes, count %u", r->cal_len, count);
    REFUSED(r, "FE 24", "%s", hex_of(packet, len));
    if (count > end)
        return;
    memcpy(before, r->cal, r->cal_len);
    short_download(packet, count, 0, end - count, (uint8_t)(3 * count));
    HERE();
    answers(r, "FF", packet, len);
    written(r, before, packet, count, end - count);
    mta_at(r, end);
    ask(r, answer_of(packet + HEAD, count), "F4 %02X 00 00 %02X %02X 00 00", count,
        LE16(end - count));
}

static void every_memory(void)
{
    static const size_t lengths[] = {0, 1, 55, 56, 57, 4095, 4096, 4097, 5000};
    for (size_t i = 0; i < COUNT(lengths); i++) {
        struct rig r;
        rig_start(&r, lengths[i], 64, 1);
        ask(&r, CONNECTED, "FF 00");
        unlock(&r, CALIBRATION);
        for (unsigned count = 1; count <= SHORT_DOWNLOAD_MOST; count++)
            to_the_end(&r, count);
        check_note("%s", "");
        rig_end(&r);
    }
}

/* A memory that is not lent at all: no block is inside. */
static void no_memory(void)
{
    struct rig r;
    rig_start(&r, 0, 0, 1);
    uint8_t *cal = r.cal;
    r.cal = NULL;
    ASK(&r, CONNECTED, "FF 00");
    HERE();
    unlock(&r, CALIBRATION);
    ASK(&r, "FE 24", "ED 01 00 00 00 00 00 00 55");
    ASK(&r, "FE 24", "ED 38 00 00 00 00 00 00 55*56");
    ASK(&r, "FE 23", "ED 01 00 01 00 00 00 00 55");
    r.cal = cal;
    rig_end(&r);
}

/* Addresses that would be inside if they, or address plus count, were cut to 32 bits or fewer. */
static void far_addresses(void)
{
    static const uint32_t far[] = {0xFFFFFFFF, 0xFFFFFFC8, 0xFFFFFFC9, 0xFFFFFFC7, 0x80000040,
                                   0x00010040, 0x00001040, 0x00001000};
    struct rig r;
    HERE();
    begin(&r, 0);
    for (size_t i = 0; i < COUNT(far); i++) {
        uint8_t packet[PACKET];
        size_t len = short_download(packet, SHORT_DOWNLOAD_MOST, 0, far[i], 0x55);
        REFUSED(&r, "FE 24", "%s", hex_of(packet, len));
    }
    rig_end(&r);
}

/* The MTA is then behind the block, wherever it was: reading, writing and summing go on there. */
static void mta_behind(void)
{
    static const char *const before[] = {"FC", "F6 00 00 00 00 02 00 00", "F6 00 00 01 00 02 00 00",
                                         "F6 00 00 01 FF FF FF FF", "F4 3F 00 01 80 00 00 00"};
    for (size_t i = 0; i < COUNT(before); i++) {
        struct rig r;
        uint8_t answer[PACKET];
        HERE();
        begin(&r, 0);
        insist("taken", XCP_TAKEN, give(&r, "%s", before[i]));
        insist("answered", 1, slot(&r, answer) > 0);
        ASK(&r, "FF", "ED 04 00 00 80 00 00 00 11 22 33 44");
        ASK(&r, "FF", "F0 02 55 66");
        ASK(&r, "FF", "ED 02 00 00 7E 00 00 00 AA BB");
        ASK(&r, "FF 11 22 33 44 55 66", "F5 06");
        ASK(&r, "FF", "ED 01 00 00 7F 00 00 00 BC");
        ASK(&r, "FF 02 00 00 AA 00 00 00", "F3 00 00 00 04 00 00 00"); /* 11 22 33 44 */
        ASK(&r, "FF 55 66", "F5 02");
        ASK(&r, "FF AA BC 11", "F4 03 00 00 7E 00 00 00");
        rig_end(&r);
    }
}

/* It needs calibration and no more: lists may be locked. The reserved byte may be anything. */
static void calibration_alone(void)
{
    struct rig r;
    connected(&r);
    ASK(&r, "FE 25", "ED 01 00 00 40 00 00 00 55");
    HERE();
    unlock(&r, CALIBRATION);
    for (unsigned reserved = 0; reserved < 256; reserved++) {
        ASK(&r, "FF", "ED 01 %02X 00 40 00 00 00 %02X", reserved, 255 - reserved);
        NUMBER("written", 255 - reserved, r.cal[PLACE]);
    }
    ASK(&r, CONNECTED, "FF 00");
    REFUSED(&r, "FE 25", "ED 01 00 00 40 00 00 00 55"); /* a new session is locked */
    rig_end(&r);
}

/* A list that runs samples there: what waits of it stays as it was, and the next one has what was
 * written. */
static void while_a_list_runs(void)
{
    struct rig r;
    uint8_t old[4];
    HERE();
    busy(&r);
    memcpy(old, r.cal + 0x50, sizeof old);
    ASK(&r, "FF", "ED 04 00 00 50 00 00 00 9A 9B 9A 9B");
    SENDS(&r, "05 %s", hex_of(old, sizeof old));
    NUMBER("sampled", 0x100, event(&r, 1, 0x0102));
    SENDS(&r, "04 02 01 %s", hex_of(r.meas + 0x40, 4));
    SENDS(&r, "05 9A 9B 9A 9B");
    SENDS(&r, "");
    rig_end(&r);
}

void test_short_download(void)
{
    every_fault();
    every_count_and_length();
    every_memory();
    no_memory();
    far_addresses();
    mta_behind();
    calibration_alone();
    while_a_list_runs();
}
