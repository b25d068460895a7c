#include "host.h"
#include "layout.h"

/* xcp_receive: the byte call repeated, up to and with the first byte whose number is not 0, for
 * every state, memory and cut into slices. */

enum { CAL = 512, MEAS = 64 };
enum { NONE_TAKEN = XCP_BAD_STATE << 16 }; /* in the upper 32 bits 0 */

/* The same by the byte call: what a slice must return. */
static uint64_t take_singly(struct rig *r, const uint8_t *bytes, size_t count)
{
    uint32_t number = 0;
    size_t at = 0;
    while (at < count && number == 0)
        number = feed(r, bytes[at++]);
    return (uint64_t)at << 32 | (uint64_t)number << 16;
}

static void same(const struct rig *expected, const struct rig *got)
{
    check_bytes("state", expected->state, XCP_STATE_SIZE, got->state, XCP_STATE_SIZE);
    check_bytes("calibration", expected->cal, expected->cal_len, got->cal, got->cal_len);
    check_bytes("measured", expected->meas, expected->meas_len, got->meas, got->meas_len);
}

static void same_result(uint64_t expected, uint64_t got)
{
    check_numbers("result", XCP_RESULT(expected), XCP_RESULT(got));
    check_numbers("bytes taken", XCP_TOOK(expected), XCP_TOOK(got));
}

/* From each situation, and behind the bytes that came before: a slice's number, and how many bytes
 * of it are taken. */
struct row {
    int line;
    void (*situation)(struct rig *);
    const char *before, *bytes;
    uint32_t number, took;
};

static const struct row rows[] = {
    /* 0: all of it, outside a message and inside */
    {__LINE__, powered, "", "07", XCP_DONE, 1},
    {__LINE__, powered, "", "00 9B 9B 01 FF", XCP_DONE, 5},
    {__LINE__, powered, "", "9A 9A 9A", XCP_DONE, 3},
    {__LINE__, powered, "", "9A 40 01 02 03 9B", XCP_DONE, 6},
    {__LINE__, powered, "9A 02 00 FF 9B", "00", XCP_DONE, 1},
    {__LINE__, connected, "", "9A 01 01 FC", XCP_DONE, 4},
    /* 1: the slice ends with the command, whatever is behind it */
    {__LINE__, powered, "", "9A 02 00 FF 00 01", XCP_TAKEN, 6},
    {__LINE__, powered, "", "07 9A 02 00 FF 00 01 9A 01 01 FC FE", XCP_TAKEN, 7},
    {__LINE__, connected, "", "9A 01 9B 01 FC 97 00", XCP_TAKEN, 6},
    {__LINE__, connected, "", "9A 01 9D FC 9B 01 9A", XCP_TAKEN, 6},
    {__LINE__, connected, "9A 01 01 FC", "FE", XCP_TAKEN, 1},
    {__LINE__, connected, "9A 01 9D FC 9B", "01 01", XCP_TAKEN, 1},
    {__LINE__, busy, "", "9A 01 01 FC FE 9A 01 01 FC FE", XCP_TAKEN, 5},
    /* 2 */
    {__LINE__, powered, "", "9A 01 01 FC FE 9A 02 00 FF 00 01", XCP_NO_SESSION, 5},
    {__LINE__, powered, "9A 01 01", "FC FE", XCP_NO_SESSION, 2},
    /* 3 */
    {__LINE__, powered, "", "9A 00", XCP_BAD_LENGTH, 2},
    {__LINE__, powered, "", "9A 41 9A 02 00 FF 00 01", XCP_BAD_LENGTH, 2},
    {__LINE__, powered, "9A", "FF", XCP_BAD_LENGTH, 1},
    {__LINE__, connected, "", "07 9A 9B 00 01", XCP_BAD_LENGTH, 4},
    /* 4 */
    {__LINE__, powered, "", "9A 9B 05 9A", XCP_BAD_ESCAPE, 3},
    {__LINE__, powered, "9A 01 9B", "9B 00", XCP_BAD_ESCAPE, 1},
    {__LINE__, connected, "", "9A 08 01 02 9B FF 00", XCP_BAD_ESCAPE, 6},
    /* 5 */
    {__LINE__, powered, "", "9A 01 01 FC FF 9A", XCP_BAD_CHECKSUM, 5},
    {__LINE__, connected, "9A 01 01 FC", "FD FE", XCP_BAD_CHECKSUM, 1},
    {__LINE__, connected, "", "9A 01 9D FC 9B 00 FC", XCP_BAD_CHECKSUM, 6},
    /* 6 */
    {__LINE__, closed_waiting, "", "9A 01 01 FC FE 9A 01", XCP_ANSWER_WAITS, 5},
    {__LINE__, closed_waiting, "9A 02 00 FF 00", "01", XCP_ANSWER_WAITS, 1},
    /* 7: the next message has begun with the last byte that was taken */
    {__LINE__, powered, "", "9A 01 9A 01 01 FC FE", XCP_CUT_OFF, 3},
    {__LINE__, connected, "9A 01 01 FC 9B", "9A 01 01 FC FE", XCP_CUT_OFF, 1},
    {__LINE__, busy, "9A 40", "01 02 03 9A", XCP_CUT_OFF, 4},
};

static void run_rows(void)
{
    for (size_t i = 0; i < COUNT(rows); i++) {
        const struct row *row = &rows[i];
        struct rig r, other;
        uint8_t before[FRAME], bytes[FRAME];
        size_t before_count = bytes_of(row->before, before, sizeof before);
        size_t count = bytes_of(row->bytes, bytes, sizeof bytes);
        ROW(row);
        check_note("%s | %s", row->before, row->bytes);
        row->situation(&r);
        row->situation(&other);
        for (size_t k = 0; k < before_count; k++) {
            feed(&r, before[k]);
            feed(&other, before[k]);
        }
        uint64_t result = feed_slice(&r, bytes, count);
        check_numbers("number", row->number, XCP_NUMBER(result));
        check_numbers("bytes taken", row->took, XCP_TOOK(result));
        same_result(take_singly(&other, bytes, count), result);
        same(&other, &r);
        rig_end(&r);
        rig_end(&other);
    }
    check_note("%s", "");
}

/* No byte: nothing changes, at an address or at NULL. */
static void empty(void)
{
    static void (*const situations[])(struct rig *) = {powered, connected, closed_waiting, busy,
                                                       shut};
    uint8_t *edge = lend(0, 0);
    for (size_t i = 0; i < COUNT(situations); i++) {
        struct rig r, other;
        check_note("situation %zu", i);
        HERE();
        situations[i](&r);
        situations[i](&other);
        for (int inside = 0; inside < 2; inside++) {
            same_result(0, xcp_receive(r.state, XCP_STATE_SIZE, r.cal, r.cal_len, r.meas,
                                       r.meas_len, edge, 0));
            same_result(0, xcp_receive(r.state, XCP_STATE_SIZE, r.cal, r.cal_len, r.meas,
                                       r.meas_len, NULL, 0));
            same_result(0, xcp_receive(r.state, XCP_STATE_SIZE, NULL, 0, NULL, 0, NULL, 0));
            same(&other, &r);
            feed(&r, SYNC), feed(&other, SYNC);
            feed(&r, 0x02), feed(&other, 0x02);
        }
        rig_end(&r);
        rig_end(&other);
    }
    check_note("%s", "");
    lend_end(edge, 0);
}

/* A state that is not consistent: 10, nothing is taken and nothing changes; so of a slice with a
 * command in it, of a single byte and of none. */
static void refused_slices(struct rig *r, uint8_t *state, size_t len)
{
    static const uint8_t connect[] = {SYNC, 0x02, 0x00, 0xFF, 0x00, 0x01};
    static const size_t counts[] = {0, 1, 2, 5, 6};
    uint8_t before[2 * XCP_STATE_SIZE], cal[CAL], meas[MEAS];
    if (len > 0)
        memcpy(before, state, len);
    memcpy(cal, r->cal, CAL);
    memcpy(meas, r->meas, MEAS);
    for (size_t i = 0; i < COUNT(counts); i++) {
        uint8_t *bytes = lend(counts[i], 0);
        memcpy(bytes, connect, counts[i]);
        same_result(NONE_TAKEN,
                    xcp_receive(state, len, r->cal, CAL, r->meas, MEAS, bytes, counts[i]));
        check_bytes("bytes", connect, counts[i], bytes, counts[i]);
        lend_end(bytes, counts[i]);
    }
    same_result(NONE_TAKEN, xcp_receive(state, len, NULL, 0, NULL, 0, NULL, 0));
    check_bytes("state", before, len, state, len);
    check_bytes("calibration", cal, CAL, r->cal, CAL);
    check_bytes("measured", meas, MEAS, r->meas, MEAS);
}

static void bad_states(void)
{
    static const size_t sizes[] = {0, 1, 4, 945, 1485, 1487, 2048, 2 * XCP_STATE_SIZE};
    struct rig r;
    rig_start(&r, CAL, MEAS, 1);
    for (size_t i = 0; i < COUNT(sizes); i++) {
        uint8_t *state = lend(sizes[i], 0);
        memcpy(state, r.state, sizes[i] < XCP_STATE_SIZE ? sizes[i] : XCP_STATE_SIZE);
        check_note("state of %zu bytes", sizes[i]);
        HERE();
        refused_slices(&r, state, sizes[i]);
        lend_end(state, sizes[i]);
    }
    for (unsigned bit = 0; bit < 32; bit++) {
        check_note("bit %u of the mark", bit);
        HERE();
        r.state[bit / 8] ^= (uint8_t)(1 << bit % 8);
        refused_slices(&r, r.state, XCP_STATE_SIZE);
        r.state[bit / 8] ^= (uint8_t)(1 << bit % 8);
    }
    check_note("%s", "");
    ASK(&r, CONNECTED, "FF 00"); /* it is as it was */
    rig_end(&r);
    same_result(NONE_TAKEN, xcp_receive(NULL, 0, NULL, 0, NULL, 0, NULL, 0));
}

/* A wire: frames of commands, with slots behind them or not, and bytes between that are no frame.
 * The keys are right after seed 1. */
struct step {
    enum { ANSWERED, ALONE, RAW } how;
    const char *bytes;
};

static const struct step steps[] = {
    {RAW, "00 9B 01 07 FF 9B"},
    {ALONE, "FC"},                           /* no session yet */
    {ANSWERED, "FF 00"},
    {RAW, "9A 9A 9A"},
    {ANSWERED, "F8 00 01"},
    {ANSWERED, "F7 04 00 7F F0 04"},
    {RAW, "9A 08 02 F6 00 00"},              /* cut off by the next one */
    {ANSWERED, "F6 00 00 00 9A 00 00 00"},
    {RAW, "9A 01 05 9B 07 FC 02"},
    {ANSWERED, "F0 06 01 02 9A 9B 05 06"},
    {RAW, "9A 02 00 FF 00 02 9A 0C 9B 9A"},  /* a wrong checksum; a SYNC behind an ESC */
    {RAW, "00 9A 41 33 9A 9B 00 9A 9B 01 9A 9B 05"},
    {ALONE, "F5 02"},
    {ALONE, "FC"},                           /* while that answer waits */
    {ANSWERED, "F6 00 00 00 9B 00 00 00"},
    {ANSWERED, "F8 00 04"},
    {ANSWERED, "F7 04 04 01 E0 08"},
    {ANSWERED, "D6"},
    {ANSWERED, "D5 9A 02 00"},
    {ANSWERED, "D4 9B 01 00 02"},
    {ANSWERED, "D3 00 01 00 00 01"},
    {ANSWERED, "D3 00 01 00 01 01"},
    {ANSWERED, "E2 00 01 00 00 00"},
    {ANSWERED, "E1 FF 04 01 10 00 00 00"},
    {ANSWERED, "E2 00 01 00 01 00"},
    {ANSWERED, "E1 FF 02 00 9A 00 00 00"},
    {ANSWERED, "E0 10 01 00 00 00 01 00"},
    {ANSWERED, "DE 01 01 00"},               /* from here on samples wait, too */
    {RAW, "9A 40 9B 9B 9A 00 9A 9A 40 00"},
    {ANSWERED, "F3 00 00 00 10 00 00 00"},
    {ANSWERED, "ED 38 9A 00 40 01 00 00 9A*28 9B*28"},
    {ANSWERED, "F0 3E 9B*31 9A*31"},
    {RAW, "9A 3F 01 9B 01 9B 00 9B 01 02"},
    {ANSWERED, "F5 3F"},
    {ANSWERED, "F0 3F 01 02"},               /* refused */
    {ANSWERED, "9B 9A 9B"},                  /* no command */
    {ANSWERED, "DD 00"},
    {ANSWERED, "FE"},
    {RAW, "9A 40 01 02 03 04"},
    {ALONE, "FD"},
};

enum { WIRE_MOST = 1200 };

/* The wire, and what the byte call makes of each byte. Slots come behind it where they are due. */
static struct {
    uint8_t bytes[WIRE_MOST], numbers[WIRE_MOST], slots[WIRE_MOST];
    struct moment {
        uint8_t state[XCP_STATE_SIZE], cal[CAL];
    } before[WIRE_MOST], after[WIRE_MOST];
    size_t count;
} whole;

static void add(const uint8_t *bytes, size_t count, int slots)
{
    insist("the wire has room", 1, whole.count + count <= WIRE_MOST);
    memcpy(whole.bytes + whole.count, bytes, count);
    whole.count += count;
    whole.slots[whole.count - 1] = (uint8_t)slots;
}

static void make_wire(void)
{
    uint8_t ctr = 0x96; /* soon 9A and 9B, which are sent as pairs */
    memset(&whole, 0, sizeof whole);
    for (size_t i = 0; i < COUNT(steps); i++) {
        uint8_t packet[PACKET], frame[FRAME];
        size_t len = bytes_of(steps[i].bytes, packet, sizeof packet);
        if (steps[i].how == RAW)
            add(packet, len, 0);
        else
            add(frame, frame_of(ctr++, packet, len, frame), steps[i].how == ANSWERED);
    }
}

static void keep_moment(struct moment *m, const struct rig *r)
{
    memcpy(m->state, r->state, XCP_STATE_SIZE);
    memcpy(m->cal, r->cal, CAL);
}

/* What comes behind so many bytes: where slots are due, the answer's is one of two; then an event.
 * Gives what that sampled. */
static uint32_t slots_at(struct rig *r, size_t count)
{
    uint8_t packet[PACKET];
    if (count == 0 || !whole.slots[count - 1])
        return 0;
    slot(r, packet);
    slot(r, packet);
    return event(r, 0, (uint16_t)count);
}

/* Byte by byte through the whole wire. */
static void record(struct rig *r)
{
    uint32_t seen = 0, sampled = 0;
    for (size_t i = 0; i < whole.count; i++) {
        keep_moment(&whole.before[i], r);
        whole.numbers[i] = (uint8_t)feed(r, whole.bytes[i]);
        keep_moment(&whole.after[i], r);
        seen |= 1u << whole.numbers[i];
        sampled += slots_at(r, i + 1);
    }
    NUMBER("the wire has every number from 0 to 7", 0xFF, seen);
    NUMBER("and its list had samples", 1, sampled > 0);
}

/* One slice of it, from where the byte call stood. */
static void slice_at(struct rig *r, size_t from, size_t to)
{
    size_t end = from;
    memcpy(r->state, whole.before[from].state, XCP_STATE_SIZE);
    memcpy(r->cal, whole.before[from].cal, CAL);
    while (end < to && whole.numbers[end++] == 0)
        ;
    uint64_t result = feed_slice(r, whole.bytes + from, to - from);
    uint32_t number = end > from ? whole.numbers[end - 1] : XCP_DONE;
    const struct moment *m = end > from ? &whole.after[end - 1] : &whole.before[from];
    insist("number", number, XCP_NUMBER(result));
    check_numbers("bytes taken", (uint32_t)(end - from), XCP_TOOK(result));
    insist("another state", 0, memcmp(m->state, r->state, XCP_STATE_SIZE) != 0);
    insist("another calibration", 0, memcmp(m->cal, r->cal, CAL) != 0);
}

/* Every cut of the wire is a chain of these: from each byte on slices of each length, up to some
 * bytes behind the next end, and all the rest. */
static void every_cut(void)
{
    enum { BEHIND = 6 };
    struct rig r;
    uint8_t meas[MEAS];
    rig_start(&r, CAL, MEAS, 1);
    memcpy(meas, r.meas, MEAS);
    make_wire();
    HERE();
    record(&r);
    for (size_t from = 0; from < whole.count; from++) {
        size_t last = from;
        while (last < whole.count && whole.numbers[last] == 0)
            last++;
        for (size_t to = from; to <= whole.count && to <= last + 1 + BEHIND; to++) {
            check_note("bytes %zu to %zu of the wire", from, to);
            slice_at(&r, from, to);
        }
        slice_at(&r, from, whole.count);
    }
    check_note("%s", "");
    BYTES("measured", meas, MEAS, r.meas, MEAS);
    rig_end(&r);
}

/* The wire through two slaves, cut at each end and in pieces of each size; the slots come where
 * they did. */
static void in_pieces(void)
{
    for (size_t piece = 1; piece <= 2 * FRAME; piece += piece < 16 ? 1 : 23) {
        struct rig r, other;
        check_note("pieces of %zu bytes", piece);
        HERE();
        rig_start(&r, CAL, MEAS, 1);
        rig_start(&other, CAL, MEAS, 1);
        for (size_t at = 0; at < whole.count;) {
            size_t left = piece - at % piece; /* as a ring that wraps cuts it */
            left = left < whole.count - at ? left : whole.count - at;
            uint64_t result = feed_slice(&r, whole.bytes + at, left);
            insist("result", 1, result == take_singly(&other, whole.bytes + at, left));
            at += XCP_TOOK(result);
            slots_at(&r, at);
            slots_at(&other, at);
        }
        same(&other, &r);
        check_bytes("calibration that was recorded", whole.after[whole.count - 1].cal, CAL, r.cal,
                    CAL);
        rig_end(&r);
        rig_end(&other);
    }
    check_note("%s", "");
}

/* From a reader of any place, count and LEN a slice leaves what the byte call leaves. */
static void from_reader(struct rig *r, struct rig *other, const uint8_t *bytes, size_t count)
{
    memcpy(other->state, r->state, READER_AT + 3);
    insist("both have one state", 0, memcmp(other->state, r->state, XCP_STATE_SIZE) != 0);
    uint64_t result = feed_slice(r, bytes, count);
    uint64_t expected = take_singly(other, bytes, count);
    insist("result", XCP_RESULT(expected), XCP_RESULT(result));
    check_numbers("bytes taken", XCP_TOOK(expected), XCP_TOOK(result));
    insist("another state", 0, memcmp(other->state, r->state, XCP_STATE_SIZE) != 0);
    insist("another calibration", 0, memcmp(other->cal, r->cal, r->cal_len) != 0);
}

/* The message so far is zeros behind LEN, so that its checksum is LEN: then it is a good message,
 * of a command that there is not. */
static void with_reader(struct rig *r, struct rig *other, const uint8_t *state, uint8_t place,
                        uint8_t came, uint8_t len)
{
    const uint8_t wires[][8] = {{len, SYNC, 0x01, 0x00, 0xFC, 0xFD},
                                {ESC, 0x01, len, ESC, 0x00, 0x00, 0x07, SYNC},
                                {0x00, 0x00, ESC, 0x05, SYNC, 0x40, SYNC, 0x41},
                                {SYNC, len, 0x01, 0x02, 0x03, ESC, 0x00, len}};
    const uint8_t *bytes = wires[(place + came + len) % COUNT(wires)];
    memcpy(r->state, state, XCP_STATE_SIZE);
    memcpy(other->state, state, XCP_STATE_SIZE);
    r->state[READER_AT] = place;
    r->state[READER_AT + 1] = came;
    r->state[READER_AT + 2] = len;
    from_reader(r, other, bytes, sizeof wires[0]);
}

static void damaged_readers(void)
{
    static const uint8_t places[] = {0, 1, 2, 3, 0xFF};
    struct rig r, other;
    uint8_t state[XCP_STATE_SIZE];
    connected(&r);
    connected(&other);
    memcpy(state, r.state, sizeof state);
    memset(state + READER_AT, 0, MESSAGE + 2);
    HERE();
    for (unsigned i = 0; i < 256 * 256; i++) {
        check_note("place %u, count %u, LEN 5", i / 256, i % 256);
        with_reader(&r, &other, state, (uint8_t)(i / 256), (uint8_t)i, 5);
    }
    for (size_t place = 0; place < COUNT(places); place++)
        for (unsigned i = 0; i < 256 * 256; i++) {
            check_note("place %u, count %u, LEN %u", places[place], i / 256, i % 256);
            with_reader(&r, &other, state, places[place], (uint8_t)(i / 256), (uint8_t)i);
        }
    check_note("%s", "");
    rig_end(&r);
    rig_end(&other);
}

/* The longest message from each count on, through to its end and behind it. */
static void damaged_counts(void)
{
    struct rig r, other;
    uint8_t state[XCP_STATE_SIZE], bytes[MESSAGE + 8];
    unlocked(&r);
    unlocked(&other);
    memcpy(state, r.state, sizeof state);
    memset(state + READER_AT, 0, MESSAGE + 2);
    HERE();
    for (unsigned i = 0; i < 2 * 256 * (PACKET + 2); i++) {
        uint8_t len = (uint8_t)(i / 512), count = (uint8_t)(i / 2);
        check_note("place %u, count %u, LEN %u", 1 + i % 2, count, len);
        memset(bytes, 0, sizeof bytes);
        if (i % 3 == 0 && len + 2u > count)
            bytes[len + 2u - count] = len; /* the checksum, if all has come */
        memcpy(r.state, state, XCP_STATE_SIZE);
        memcpy(other.state, state, XCP_STATE_SIZE);
        r.state[READER_AT] = (uint8_t)(1 + i % 2);
        r.state[READER_AT + 1] = count;
        r.state[READER_AT + 2] = len;
        from_reader(&r, &other, bytes, sizeof bytes);
    }
    check_note("%s", "");
    rig_end(&r);
    rig_end(&other);
}

static uint32_t drawn = 1;

/* Below most. */
static uint32_t draw(uint32_t most)
{
    drawn = drawn * 1664525u + 1013904223u;
    return (drawn >> 8) % most;
}

/* A frame of any command with any parameters, or noise in which SYNC and ESC are often. */
static size_t draw_wire(uint8_t bytes[2 * FRAME])
{
    static const uint8_t often[] = {SYNC, ESC, 0x00, 0x01, 0x40};
    uint8_t packet[PACKET];
    size_t count = 1 + draw(PACKET);
    for (size_t i = 0; i < count; i++)
        packet[i] = (uint8_t)(draw(3) == 0 ? draw(256) : draw(8));
    packet[0] = (uint8_t)(0xD3 + draw(0x100 - 0xD3));
    count = frame_of((uint8_t)draw(256), packet, draw(2) == 0 ? count : count % 9 + 1, bytes);
    if (draw(3) == 0)
        bytes[draw((uint32_t)count)] = (uint8_t)draw(256);
    for (uint32_t noise = draw(3) == 0 ? draw(40) : 0; noise > 0; noise--)
        bytes[count++] = draw(2) == 0 ? often[draw(COUNT(often))] : (uint8_t)draw(256);
    return count;
}

/* A state of which about every eighth byte is any other: calls need not lead there. */
static void draw_state(struct rig *r, struct rig *other, const uint8_t *busy_state)
{
    memcpy(r->state, busy_state, XCP_STATE_SIZE);
    for (size_t i = 4; i < XCP_STATE_SIZE; i++)
        if (draw(8) == 0)
            r->state[i] = (uint8_t)(draw(2) == 0 ? draw(256) : draw(4));
    memcpy(other->state, r->state, XCP_STATE_SIZE);
}

/* A wire in slices of any size to the one, byte by byte to the other. */
static void any_slices(struct rig *r, struct rig *other)
{
    uint8_t bytes[2 * FRAME], room[XCP_SLOT_ROOM];
    size_t count = draw_wire(bytes);
    for (size_t at = 0; at < count;) {
        size_t left = 1 + draw((uint32_t)(count - at));
        uint64_t result = feed_slice(r, bytes + at, left);
        uint64_t expected = take_singly(other, bytes + at, left);
        same_result(expected, result);
        insist("another state", 0, memcmp(other->state, r->state, XCP_STATE_SIZE) != 0);
        insist("another calibration", 0, memcmp(other->cal, r->cal, r->cal_len) != 0);
        at += XCP_TOOK(expected);
        for (int slots = draw(2) == 0 ? 2 : 0; slots > 0; slots--) {
            xcp_slot(r->state, XCP_STATE_SIZE, room, sizeof room);
            xcp_slot(other->state, XCP_STATE_SIZE, room, sizeof room);
        }
    }
}

static void any_states(void)
{
    struct rig r, other;
    uint8_t state[XCP_STATE_SIZE];
    drawn = 12;
    HERE();
    busy(&r);
    busy(&other);
    memcpy(state, r.state, sizeof state);
    for (unsigned i = 0; i < 4000; i++) {
        check_note("state %u", i);
        if (i % 8 == 0)
            draw_state(&r, &other, state);
        any_slices(&r, &other);
    }
    same(&other, &r);
    check_note("%s", "");
    rig_end(&r);
    rig_end(&other);
}

/* A whole exchange with no memory at all. */
static void no_memories(void)
{
    struct rig r;
    rig_start(&r, 0, 0, 1);
    uint8_t *cal = r.cal, *meas = r.meas;
    r.cal = r.meas = NULL;
    for (size_t i = 0; i < COUNT(steps); i++) {
        uint8_t packet[PACKET], frame[FRAME];
        if (steps[i].how != ANSWERED)
            continue;
        size_t size = frame_of(0, packet, bytes_of(steps[i].bytes, packet, sizeof packet), frame);
        uint64_t result = feed_slice(&r, frame, size);
        check_note("%s", steps[i].bytes);
        NUMBER("taken", XCP_TAKEN, XCP_NUMBER(result));
        NUMBER("bytes taken", (uint32_t)size, XCP_TOOK(result));
        NUMBER("answered", 1, slot(&r, packet) > 0);
    }
    check_note("%s", "");
    r.cal = cal;
    r.meas = meas;
    rig_end(&r);
}

void test_slices(void)
{
    run_rows();
    empty();
    bad_states();
    every_cut();
    in_pieces();
    damaged_readers();
    damaged_counts();
    any_states();
    no_memories();
}
