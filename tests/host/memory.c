#include "host.h"

#include <stdio.h>

static size_t reach(size_t len)
{
    return len < REACH ? len : REACH;
}

/* The bytes that a session sees of each memory, up to the last one, for every count. */
static void read_to_the_end(struct rig *r, unsigned ext, const uint8_t *memory, size_t len)
{
    uint32_t end = (uint32_t)reach(len);
    for (uint32_t count = 1; count <= UPLOAD_MOST; count++) {
        check_note("extension %u of %zu bytes, count %u", ext, len, (unsigned)count);
        if (count <= end) {
            const char *data = answer_of(memory + end - count, count);
            ASK(r, data, "F4 %02X 00 %02X %02X %02X %02X %02X", count, ext, LE32(end - count));
            ASK(r, "FE 24", "F5 01"); /* the MTA is at the end now */
            ASK(r, "FF", "F6 00 00 %02X %02X %02X %02X %02X", ext, LE32(end - count));
            ASK(r, data, "F5 %02X", count);
            ASK(r, "FE 24", "F5 01"); /* the MTA is at the end now */
        }
        uint32_t too_far = count <= end ? end - count + 1 : 0;
        REFUSED(r, "FE 24", "F4 %02X 00 %02X %02X %02X %02X %02X", count, ext, LE32(too_far));
        ASK(r, "FF", "F6 00 00 %02X %02X %02X %02X %02X", ext, LE32(too_far));
        REFUSED(r, "FE 24", "F5 %02X", count);
    }
    check_note("%s", "");
}

/* Addresses that would wrap to an inside block if address plus size were cut to 32 bits. */
static void far_addresses(struct rig *r, unsigned ext)
{
    static const uint32_t far[] = {0xFFFFFFFF, 0xFFFFFFC2, 0xFFFFFFC1, 0xFFFFFFC0,
                                   0x80000000, 0x00010000, 4097};
    for (size_t i = 0; i < COUNT(far); i++) {
        check_note("address %08lX", (unsigned long)far[i]);
        ASK(r, "FE 24", "F4 3F 00 %02X %02X %02X %02X %02X", ext, LE32(far[i]));
        ASK(r, "FF", "F6 00 00 %02X %02X %02X %02X %02X", ext, LE32(far[i]));
        ASK(r, "FE 24", "F5 01");
        ASK(r, "FE 24", "F5 3F");
        ASK(r, "FE 24", "F3 00 00 00 00 10 00 00");
        ASK(r, "FE 24", "F3 00 00 00 01 00 00 00");
        ASK(r, ext == 0 ? "FE 24" : "FE 23", "F0 01 55");
        ASK(r, ext == 0 ? "FE 24" : "FE 23", "F0 3E 55*62");
    }
    check_note("%s", "");
}

static void sum_to_the_end(struct rig *r, unsigned ext, const uint8_t *memory, size_t len)
{
    uint32_t end = (uint32_t)reach(len), sum = 0;
    char answer[32];
    for (size_t i = 0; i < end; i++)
        sum += memory[i];
    snprintf(answer, sizeof answer, "FF 02 00 00 %02X %02X 00 00", LE16(sum));
    check_note("extension %u of %zu bytes", ext, len);
    ASK(r, "FF", "F6 00 00 %02X 00 00 00 00", ext);
    if (end > 0)
        ASK(r, answer, "F3 00 00 00 %02X %02X %02X %02X", LE32(end));
    REFUSED(r, "FE 24", "F3 00 00 00 01 00 00 00"); /* the MTA moved to the end */
    if (end < REACH) {
        ASK(r, "FF", "F6 00 00 %02X 00 00 00 00", ext);
        REFUSED(r, "FE 24", "F3 00 00 00 %02X %02X %02X %02X", LE32(end + 1));
    }
    check_note("%s", "");
}

/* Writes up to the last byte that can be addressed: these bytes change and no others. */
static void write_to_the_end(struct rig *r)
{
    static uint8_t expected[LONGEST];
    uint32_t end = (uint32_t)reach(r->cal_len);
    for (uint32_t count = 1; count <= DOWNLOAD_MOST; count++) {
        check_note("calibration of %zu bytes, count %u", r->cal_len, (unsigned)count);
        uint32_t too_far = count <= end ? end - count + 1 : 0;
        ASK(r, "FF", "F6 00 00 00 %02X %02X %02X %02X", LE32(too_far));
        REFUSED(r, "FE 24", "F0 %02X 91*62", count);
        if (count > end)
            continue;
        memcpy(expected, r->cal, r->cal_len);
        for (uint32_t i = 0; i < count; i++)
            expected[end - count + i] = (uint8_t)(13 * count + i);
        ASK(r, "FF", "F6 00 00 00 %02X %02X %02X %02X", LE32(end - count));
        ASK(r, "FF", "F0 %02X %s", count, hex_of(expected + end - count, count));
        BYTES("memory", expected, r->cal_len, r->cal, r->cal_len);
        REFUSED(r, "FE 24", "F0 01 00"); /* the MTA moved to the end */
        ASK(r, answer_of(expected + end - count, count), "F4 %02X 00 00 %02X %02X %02X %02X", count,
            LE32(end - count));
    }
    check_note("%s", "");
}

static void every_length(void)
{
    static const size_t lengths[] = {0, 1, 61, 62, 63, 64, 4095, 4096, 4097, 5000};
    for (size_t i = 0; i < COUNT(lengths); i++) {
        struct rig r;
        size_t cal_len = lengths[i], meas_len = lengths[COUNT(lengths) - 1 - i];
        rig_start(&r, cal_len, meas_len, 1);
        ask(&r, CONNECTED, "FF 00");
        read_to_the_end(&r, 0, r.cal, cal_len); /* no lock guards reading */
        read_to_the_end(&r, 1, r.meas, meas_len);
        sum_to_the_end(&r, 0, r.cal, cal_len);
        sum_to_the_end(&r, 1, r.meas, meas_len);
        unlock(&r, CALIBRATION);
        write_to_the_end(&r);
        far_addresses(&r, 0);
        far_addresses(&r, 1);
        rig_end(&r);
    }
}

/* MTA: moved by UPLOAD, SHORT_UPLOAD, DOWNLOAD, SHORT_DOWNLOAD and BUILD_CHECKSUM when done, and by
 * nothing else. */
static void mta_moves(void)
{
    struct rig r;
    unlocked(&r);
    ASK(&r, "FF", "F6 00 00 01 20 00 00 00");
    ASK(&r, answer_of(r.meas + 0x20, 3), "F5 03");
    REFUSED(&r, "FE 22", "F5 40");
    REFUSED(&r, "FE 22", "F4 40 00 01 10 00 00 00");
    REFUSED(&r, "FE 24", "F4 3F 00 01 C2 0F 00 00");
    ASK(&r, answer_of(r.meas + 0x23, 63), "F5 3F");
    ASK(&r, answer_of(r.cal + 0x10, 62), "F4 3E 00 00 10 00 00 00");
    ASK(&r, answer_of(r.cal + 0x4E, 2), "F5 02");
    ASK(&r, answer_of(r.meas + 0x29, 1), "F4 01 00 01 29 00 00 00");
    REFUSED(&r, "FE 24", "F3 00 00 00 00 10 00 00");
    NUMBER("taken", 1, give(&r, "F3 00 00 00 02 00 00 00"));
    SENDS(&r, "FF 02 00 00 %02X %02X 00 00", LE16((unsigned)r.meas[0x2A] + r.meas[0x2B]));
    REFUSED(&r, "FE 23", "F0 01 55");
    ASK(&r, answer_of(r.meas + 0x2C, 1), "F5 01");
    ASK(&r, "FF", "F6 00 00 00 FC 0F 00 00");
    REFUSED(&r, "FE 24", "F5 05");
    ASK(&r, "FF", "F0 02 01 02");
    REFUSED(&r, "FE 24", "F0 03 01 02 03");
    ASK(&r, answer_of(r.cal + 4094, 2), "F5 02");
    ASK(&r, "FF", "ED 02 00 00 20 00 00 00 03 04");
    REFUSED(&r, "FE 22", "ED 39 00 00 20 00 00 00");
    ASK(&r, answer_of(r.cal + 0x22, 2), "F5 02");
    ASK(&r, "FF", "F6 00 00 00 00 00 00 00");
    ASK(&r, CONNECTED, "FF 00");
    ASK(&r, "FE 29", "F5 01"); /* a new session has it unset */
    rig_end(&r);
}

/* SHORT_UPLOAD of so many bytes and then UPLOAD, up to the last byte; before it the MTA is unset,
 * or in the other memory. */
static void upload_both(struct rig *r, unsigned ext, uint32_t first, uint32_t second)
{
    const uint8_t *memory = ext == 0 ? r->cal : r->meas;
    uint32_t from = REACH - first - second;
    check_note("extension %u, %u and %u bytes", ext, (unsigned)first, (unsigned)second);
    ASK(r, CONNECTED, "FF 00");
    REFUSED(r, "FE 24", "F4 %02X 00 %02X %02X %02X %02X %02X", first, ext, LE32(REACH + 1 - first));
    REFUSED(r, "FE 29", "F5 %02X", second); /* still unset */
    if (first > second)
        ASK(r, "FF", "F6 00 00 %02X 40 00 00 00", 1 - ext);
    ASK(r, answer_of(memory + from, first), "F4 %02X 00 %02X %02X %02X %02X %02X", first, ext,
        LE32(from));
    NUMBER("nothing to sample", 0, event(r, 0, 7));
    ASK(r, answer_of(memory + from + first, second), "F5 %02X", second);
    REFUSED(r, "FE 24", "F5 01"); /* the MTA is at the end now */
}

static void upload_goes_on(void)
{
    static const uint8_t counts[] = {1, 2, 7, 8, 33, 62, 63};
    struct rig r;
    connected(&r);
    for (unsigned ext = 0; ext <= 1; ext++)
        for (size_t i = 0; i < COUNT(counts); i++)
            for (size_t k = 0; k < COUNT(counts); k++)
                upload_both(&r, ext, counts[i], counts[k]);
    check_note("%s", "");
    rig_end(&r);
}

/* A table of many packets: written by DOWNLOADs of the most bytes that one has, one behind another,
 * and read back by UPLOADs of the most; what is left goes in the last packet. */
static void long_table(void)
{
    enum { FROM = 0x9A, SIZE = 1000 };
    struct rig r;
    uint8_t table[SIZE];
    static uint8_t expected[REACH];
    unlocked(&r);
    for (size_t i = 0; i < SIZE; i++)
        table[i] = (uint8_t)(i % 3 == 0 ? SYNC : i % 3 == 1 ? ESC : i / 3);
    memcpy(expected, r.cal, REACH);
    memcpy(expected + FROM, table, SIZE);
    ASK(&r, "FF", "F6 00 00 00 %02X %02X 00 00", LE16(FROM));
    for (size_t at = 0, count; at < SIZE; at += count) {
        count = SIZE - at < DOWNLOAD_MOST ? SIZE - at : DOWNLOAD_MOST;
        ASK(&r, "FF", "F0 %02X %s", (unsigned)count, hex_of(table + at, count));
    }
    BYTES("calibration", expected, REACH, r.cal, REACH);
    ASK(&r, "FF", "F6 00 00 00 %02X %02X 00 00", LE16(FROM));
    for (size_t at = 0, count; at < SIZE; at += count) {
        count = SIZE - at < UPLOAD_MOST ? SIZE - at : UPLOAD_MOST;
        ASK(&r, answer_of(table + at, count), "F5 %02X", (unsigned)count);
    }
    rig_end(&r);
}

/* The longest sum, of bytes FF: modulo 65,536, upper bytes 00. */
static void longest_sum(void)
{
    struct rig r;
    connected(&r);
    memset(r.cal, 0xFF, r.cal_len);
    ASK(&r, "FF", "F6 00 00 00 00 00 00 00");
    ASK(&r, "FF 02 00 00 00 F0 00 00", "F3 00 00 00 00 10 00 00");
    ASK(&r, "FE 24", "F5 01");
    rig_end(&r);
}

/* The sum of a block, and the MTA behind it. */
static void sum_of(struct rig *r, unsigned ext, uint32_t from, uint32_t size)
{
    const uint8_t *memory = ext == 0 ? r->cal : r->meas;
    char answer[32];
    uint32_t sum = 0;
    for (uint32_t i = 0; i < size; i++)
        sum += memory[from + i];
    snprintf(answer, sizeof answer, "FF 02 00 00 %02X %02X 00 00", LE16(sum));
    check_note("extension %u, %u bytes from %u", ext, (unsigned)size, (unsigned)from);
    ASK(r, "FF", "F6 00 00 %02X %02X %02X 00 00", ext, LE16(from));
    ASK(r, answer, "F3 00 00 00 %02X %02X 00 00", LE16(size));
    if (from + size < REACH)
        ASK(r, answer_of(memory + from + size, 1), "F5 01");
    else
        ASK(r, "FE 24", "F5 01");
}

/* A block is summed in runs of 256 words, then in words, then in bytes: sizes around these seams, from
 * every place in a word, and up to the last byte; of bytes FF, the most that a run has to hold, and of
 * bytes that differ. */
static void sums_at_seams(void)
{
    static const uint32_t seams[] = {4, 16, 64, 1024, 2048, 3072, 4096};
    struct rig r;
    connected(&r);
    for (int pattern = 0; pattern < 2; pattern++) {
        for (size_t i = 0; i < REACH; i++)
            r.cal[i] = r.meas[4095 - i] = (uint8_t)(pattern == 0 ? 0xFF : i * 73 + i / 256 * 5);
        for (size_t k = 0; k < COUNT(seams); k++)
            for (uint32_t off = 0; off <= 18; off++) {
                uint32_t size = seams[k] + off - 9; /* where that is below 0 it is above 4,096 */
                if (size < 1 || size > REACH)
                    continue;
                for (uint32_t from = 0; from < 5 && from + size <= REACH; from++)
                    sum_of(&r, (from + size) % 2, from, size);
                sum_of(&r, 0, REACH - size, size);
                sum_of(&r, 1, REACH - size, size);
            }
    }
    check_note("%s", "");
    rig_end(&r);
}

/* A memory may have another length at each call: that call's length is judged. */
static void other_lengths(void)
{
    struct rig r;
    unlocked(&r);
    ASK(&r, "FF", "F6 00 00 00 64 00 00 00");
    rig_resize_cal(&r, 100);
    REFUSED(&r, "FE 24", "F5 01");
    REFUSED(&r, "FE 24", "F0 01 55");
    rig_resize_cal(&r, 101);
    ASK(&r, "FF", "F0 01 55");
    NUMBER("written", 0x55, r.cal[100]);
    REFUSED(&r, "FE 24", "F5 01");
    rig_resize_cal(&r, 101 + 62);
    REFUSED(&r, "FE 24", "F5 3F");
    rig_resize_cal(&r, 101 + 63);
    ASK(&r, "FF 77*63", "F5 3F");
    rig_resize_cal(&r, 100 + 62);
    ASK(&r, "FF", "F6 00 00 00 64 00 00 00");
    ASK(&r, "FF", "F0 3E 66*62");
    rig_resize_cal(&r, 100 + 61);
    ASK(&r, "FF", "F6 00 00 00 64 00 00 00");
    REFUSED(&r, "FE 24", "F0 3E 99*62");
    rig_resize_cal(&r, 0);
    REFUSED(&r, "FE 24", "F5 01");
    rig_resize_meas(&r, 1);
    ASK(&r, "FF", "F6 00 00 01 00 00 00 00");
    ASK(&r, answer_of(r.meas, 1), "F5 01");
    rig_resize_meas(&r, 0);
    REFUSED(&r, "FE 24", "F4 01 00 01 00 00 00 00");
    rig_end(&r);
}

/* Every write is refused while calibration is locked, whatever else is open. */
static void locked_writes(void)
{
    struct rig r;
    connected(&r);
    unlock(&r, LISTS);
    for (unsigned address = 0; address < REACH; address += 315) {
        ASK(&r, "FF", "F6 00 00 00 %02X %02X 00 00", LE16(address));
        REFUSED(&r, "FE 25", "F0 06 01 02 03 04 05 06");
        REFUSED(&r, "FE 25", "F0 3E 55*62");
        REFUSED(&r, "FE 25", "ED 38 00 00 %02X %02X 00 00 55*56", LE16(address));
    }
    rig_end(&r);
}

void test_memory(void)
{
    every_length();
    mta_moves();
    upload_goes_on();
    long_table();
    longest_sum();
    sums_at_seams();
    other_lengths();
    locked_writes();
}
