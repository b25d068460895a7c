/* A wet plug: frames cut off, bits flipped, bytes added and lost, at every place of a session.
 * After each, the next whole command is answered within two slots and memory holds only what was
 * acknowledged. Prints what failed, then 'N passed, M failed'. */
#include "rig.h"

#include <string.h>

#define COUNT(table) (sizeof(table) / sizeof(table)[0])

enum { MEMORY = 512, GOOD = 1 };

/* The session that is damaged; its keys are right after seed 1. An event comes before each frame. */
static const char *const session[] = {
    "FF 00",                   /* CONNECT */
    "F8 00 01",                /* calibration: seed, key */
    "F7 04 00 7F F0 04",
    "F6 00 00 00 9A 00 00 00", /* SET_MTA to 0x9A, which is sent as a pair */
    "F0 06 01 02 9A 9B 05 06", /* DOWNLOAD of bytes that are sent as pairs */
    "F0 03 9B 00 9A",
    "F4 07 9A 00 9C 00 00 00", /* SHORT_UPLOAD up to where DOWNLOAD left the MTA */
    "F8 00 04",                /* lists: seed, key */
    "F7 04 04 01 E0 08",
    "D6",                      /* two lists; the second has two ODTs with an entry each */
    "D5 9A 02 00",
    "D4 9B 01 00 02",
    "D3 00 01 00 00 01",
    "D3 00 01 00 01 01",
    "E2 00 01 00 00 00",
    "E1 FF 04 01 10 00 00 00",
    "E2 00 01 00 01 00",
    "E1 FF 02 00 9A 00 00 00",
    "E0 10 01 00 00 00 01 00",
    "DE 01 01 00",             /* from here on samples wait at every frame */
    "F0 02 11 22",
    "F5 02",
    "F6 00 00 00 00 01 00 00",
    "F0 01 9B",
    "F3 00 00 00 10 00 00 00",
    "ED 38 9A 00 40 01 00 00 9A*28 9B*28", /* SHORT_DOWNLOAD, most of it sent as pairs */
    "F0 3E 9B*31 9A*31",                   /* the longest DOWNLOAD and UPLOAD, behind it */
    "F5 3F",
    "FD",
    "FC",
    "DD 00",
    "FE",
};

/* One who listens to both directions: it reads the wire by the paper's rules, and knows from the
 * answers which writes were acknowledged. */
struct witness {
    int inside, begun, escaped; /* begun: a byte has come after SYNC */
    uint8_t message[MESSAGE];
    size_t count;
    int open, waits;            /* a session is open; an answer waits */
    uint8_t command[PACKET];    /* the command whose answer waits */
    size_t command_len;
    int mta_set, mta_ext;
    uint32_t mta;
    uint8_t cal[MEMORY];
};

/* All of a moment, to come back to. */
struct moment {
    struct rig rig;
    struct witness witness;
    uint8_t state[XCP_STATE_SIZE], cal[MEMORY];
};

static int hear_message_byte(struct witness *w, uint8_t byte)
{
    w->message[w->count++] = byte;
    if (w->count == 1) {
        w->inside = byte >= 1 && byte <= PACKET;
        return w->inside ? 0 : XCP_BAD_LENGTH;
    }
    if (w->count < (size_t)w->message[0] + 3)
        return 0;
    uint8_t sum = 0;
    for (size_t i = 0; i + 1 < w->count; i++)
        sum = (uint8_t)(sum + w->message[i]);
    w->inside = 0;
    return sum == byte ? GOOD : XCP_BAD_CHECKSUM;
}

/* The line's rules: 0, 3, 4, 5, 7, or GOOD for a whole message. */
static int hear(struct witness *w, uint8_t byte)
{
    if (byte == SYNC) {
        int cut = w->inside && w->begun;
        w->inside = 1;
        w->begun = w->escaped = 0;
        w->count = 0;
        return cut ? XCP_CUT_OFF : 0;
    }
    if (!w->inside)
        return 0;
    w->begun = 1;
    if (w->escaped) {
        w->escaped = 0;
        w->inside = byte <= 1;
        return w->inside ? hear_message_byte(w, byte == 1 ? SYNC : ESC) : XCP_BAD_ESCAPE;
    }
    if (byte == ESC) {
        w->escaped = 1;
        return 0;
    }
    return hear_message_byte(w, byte);
}

/* The number that this byte must have; of a command it is known then that its answer waits. */
static uint32_t number_of(struct witness *w, uint8_t byte)
{
    int heard = hear(w, byte);
    if (heard != GOOD)
        return (uint32_t)heard;
    int connect = w->message[0] >= 2 && w->message[2] == 0xFF && w->message[3] == 0;
    if (w->waits)
        return XCP_ANSWER_WAITS;
    if (!w->open && !connect)
        return XCP_NO_SESSION;
    w->waits = 1;
    w->command_len = w->message[0];
    memcpy(w->command, w->message + 2, w->command_len);
    return XCP_TAKEN;
}

static void set_mta(struct witness *w, uint32_t behind)
{
    const uint8_t *c = w->command;
    w->mta_set = 1;
    w->mta_ext = c[3];
    w->mta = c[4] | (uint32_t)c[5] << 8 | (uint32_t)c[6] << 16 | (uint32_t)c[7] << 24;
    w->mta += behind;
}

/* As many bytes of the command as it counts, at the MTA, which moves on. */
static void write_down(struct witness *w, const uint8_t *bytes)
{
    uint8_t count = w->command[1];
    int inside = w->mta_set && w->mta_ext == 0 && w->mta <= (uint32_t)(MEMORY - count);
    insist("a write goes where an MTA was set", 1, (uint32_t)inside);
    if (inside)
        memcpy(w->cal + w->mta, bytes, count);
    w->mta += count;
}

/* A write counts once its answer FF has left, at its own address or at the MTA that earlier answers
 * tell. */
static void acknowledge(struct witness *w, const uint8_t *answer, size_t len)
{
    const uint8_t *c = w->command;
    int done = answer[0] == 0xFF;
    w->waits = 0;
    if ((done && c[0] == 0xFE) || (c[0] == 0xF7 && !done && answer[1] == 0x25))
        w->open = w->mta_set = 0;
    if (!done)
        return;
    if (c[0] == 0xFF) {
        w->open = 1;
        w->mta_set = 0;
    } else if (c[0] == 0xF6 || c[0] == 0xF4) {
        set_mta(w, (uint32_t)len - 1); /* SET_MTA's answer has no byte */
    } else if (c[0] == 0xF5) {
        w->mta += (uint32_t)len - 1;
    } else if (c[0] == 0xF3) {
        w->mta += c[4] | (uint32_t)c[5] << 8;
    } else if (c[0] == 0xF0) {
        write_down(w, c + 2);
    } else if (c[0] == 0xED) {
        set_mta(w, 0);
        write_down(w, c + 8);
    }
}

/* One slot; gives 1 if it sent the answer. */
static int one_slot(struct rig *r, struct witness *w)
{
    uint8_t packet[PACKET] = {0};
    size_t len = slot(r, packet);
    if (len == 0 || packet[0] < 0xFE)
        return 0;
    insist("an answer only where a command was taken", 1, (uint32_t)w->waits);
    acknowledge(w, packet, len);
    return 1;
}

typedef void sending(struct rig *r, struct witness *w, const uint8_t *bytes, size_t count);

static void send_singly(struct rig *r, struct witness *w, const uint8_t *bytes, size_t count)
{
    for (size_t i = 0; i < count; i++)
        insist("the number of a byte", number_of(w, bytes[i]), feed(r, bytes[i]));
}

/* All in one slice, and then what is left of it, up to each byte that has a number. */
static void send_bytes(struct rig *r, struct witness *w, const uint8_t *bytes, size_t count)
{
    for (size_t at = 0, end = 0; at < count; at = end) {
        uint32_t number = 0;
        while (end < count && number == 0)
            number = number_of(w, bytes[end++]);
        uint64_t result = feed_slice(r, bytes + at, count - at);
        insist("the number of a slice", number, XCP_NUMBER(result));
        insist("the bytes that it took", (uint32_t)(end - at), XCP_TOOK(result));
    }
}

static void send_packet(struct rig *r, struct witness *w, const char *hex)
{
    uint8_t packet[PACKET], frame[FRAME];
    size_t len = bytes_of(hex, packet, sizeof packet);
    send_bytes(r, w, frame, frame_of(r->master_ctr++, packet, len, frame));
}

/* The answer that waits leaves; whatever else waits may stay. */
static void fetch(struct rig *r, struct witness *w)
{
    for (int slots = 0; slots < 2 && w->waits; slots++)
        one_slot(r, w);
}

/* A whole command, with samples waiting if a list runs: taken, and answered within two slots. */
static void answered(struct rig *r, struct witness *w, const char *hex)
{
    event(r, 0, 0x9A9B);
    send_packet(r, w, hex);
    check_numbers("the next command is taken", 1, (uint32_t)w->waits);
    int sent = one_slot(r, w) || one_slot(r, w);
    check_numbers("and answered within two slots", 1, (uint32_t)sent);
    check_bytes("memory", w->cal, MEMORY, r->cal, MEMORY);
}

/* A new session that writes and reads back. It needs a seed, which it would not get if damage had
 * counted as a wrong key. */
static void new_session(struct rig *r, struct witness *w)
{
    uint8_t packet[PACKET] = {0};
    answered(r, w, "FF 00");
    get_seed(r, CALIBRATION);
    uint32_t key = key_of(r->seed, CALIBRATION);
    insist("UNLOCK", XCP_TAKEN, give(r, "F7 04 %02X %02X %02X %02X", LE32(key)));
    slot(r, packet);
    check_numbers("a new session unlocks", 0x04FF, (uint32_t)(packet[0] | packet[1] << 8));
    answered(r, w, "F6 00 00 00 80 00 00 00");
    answered(r, w, "F0 04 9A 9B 9A 9B");
    ask(r, "FF 9A 9B 9A 9B", "F4 04 00 00 80 00 00 00");
}

static void go_back(struct rig *r, struct witness *w, const struct moment *m)
{
    *r = m->rig;
    *w = m->witness;
    memcpy(r->state, m->state, sizeof m->state);
    memcpy(r->cal, m->cal, sizeof m->cal);
}

/* These bytes in place of a frame, from this moment on: by slices and by the byte call, which leave
 * the same; then a command at once, and a session. */
static void damaged(const struct moment *m, const uint8_t *bytes, size_t count)
{
    static sending *const ways[] = {send_bytes, send_singly};
    uint8_t states[COUNT(ways)][XCP_STATE_SIZE];
    struct rig r;
    struct witness w;
    for (size_t way = 0; way < COUNT(ways); way++) {
        go_back(&r, &w, m);
        ways[way](&r, &w, bytes, count);
        memcpy(states[way], r.state, XCP_STATE_SIZE);
        fetch(&r, &w);
        check_bytes("memory", w.cal, MEMORY, r.cal, MEMORY);
        if (way == 0)
            answered(&r, &w, w.open ? "FD" : "FF 00");
        else
            new_session(&r, &w);
    }
    insist("another state by slices", 0, memcmp(states[0], states[1], XCP_STATE_SIZE) != 0);
}

/* One way to damage a frame, at every place where it can be done. */
typedef void damage(const struct moment *m, const uint8_t *frame, size_t size);

static void cut_off(const struct moment *m, const uint8_t *frame, size_t size)
{
    for (size_t at = 0; at <= size; at++) {
        check_note("cut off after byte %zu", at);
        damaged(m, frame, at);
    }
}

static void flip_bits(const struct moment *m, const uint8_t *frame, size_t size)
{
    uint8_t bytes[FRAME];
    for (size_t bit = 0; bit < 8 * size; bit++) {
        memcpy(bytes, frame, size);
        bytes[bit / 8] ^= (uint8_t)(1 << bit % 8);
        check_note("bit %zu of byte %zu flipped", bit % 8, bit / 8);
        damaged(m, bytes, size);
    }
}

static void insert_bytes(const struct moment *m, const uint8_t *frame, size_t size)
{
    static const uint8_t inserted[] = {SYNC, ESC, 0x00, 0x01, 0xFF};
    uint8_t bytes[FRAME + 1];
    for (size_t at = 0; at <= size; at++)
        for (size_t i = 0; i < COUNT(inserted); i++) {
            memcpy(bytes, frame, at);
            bytes[at] = inserted[i];
            memcpy(bytes + at + 1, frame + at, size - at);
            check_note("%02X inserted before byte %zu", inserted[i], at);
            damaged(m, bytes, size + 1);
        }
}

static void lose_bytes(const struct moment *m, const uint8_t *frame, size_t size)
{
    uint8_t bytes[FRAME];
    for (size_t at = 0; at < size; at++) {
        memcpy(bytes, frame, at);
        memcpy(bytes + at, frame + at + 1, size - at - 1);
        check_note("byte %zu lost", at);
        damaged(m, bytes, size - 1);
    }
}

/* Two wrong keys, so that one more would shut it: no damage may be that one. The second seed from
 * this start number is 1, as the session's keys want it, and the tool's CTRs begin anew. */
static void one_key_left(struct rig *r)
{
    rig_start(r, MEMORY, MEMORY, 0x53951C03);
    uint8_t ctr = r->master_ctr;
    ask(r, CONNECTED, "FF 00");
    spend_key(r, CALIBRATION);
    spend_key(r, LISTS);
    ask(r, "FF", "FE");
    r->master_ctr = ctr;
}

/* One more, whole: it was the last, so that damage had not counted and could have. */
static void shuts(struct rig *r)
{
    ASK(r, CONNECTED, "FF 00");
    spend_key(r, CALIBRATION);
    ASK(r, "FE 25", "F8 00 01");
}

/* Runs the session whole, and at each of its frames goes through every damage first. */
static void whole_session(damage *by)
{
    static const uint8_t written[] = {1, 2, 0x9A, 0x9B, 5, 6, 0x9B, 0, 0x9A, 0x11, 0x22};
    uint8_t table[56 + 62];
    struct rig r;
    struct witness w;
    struct moment m;
    uint8_t packet[PACKET], frame[FRAME];
    uint32_t sampled = 0;
    memset(&w, 0, sizeof w);
    one_key_left(&r);
    memcpy(w.cal, r.cal, MEMORY);
    for (size_t step = 0; step < COUNT(session); step++) {
        size_t len = bytes_of(session[step], packet, sizeof packet);
        size_t size = frame_of(r.master_ctr++, packet, len, frame);
        HERE();
        sampled += event(&r, 0, (uint16_t)step);
        m.rig = r;
        m.witness = w;
        memcpy(m.state, r.state, sizeof m.state);
        memcpy(m.cal, r.cal, sizeof m.cal);
        by(&m, frame, size);
        go_back(&r, &w, &m);
        check_note("step %zu, whole", step);
        send_bytes(&r, &w, frame, size);
        check_numbers("a whole frame is taken", 1, (uint32_t)w.waits);
        fetch(&r, &w);
        check_numbers("a whole frame is answered", 0, (uint32_t)w.waits);
        check_bytes("memory", w.cal, MEMORY, r.cal, MEMORY);
    }
    check_note("%s", "");
    check_numbers("and its list had samples", 1, sampled > 0);
    check_bytes("what the session wrote", written, sizeof written, r.cal + 0x9A, sizeof written);
    bytes_of("9A*28 9B*28 9B*31 9A*31", table, sizeof table);
    check_bytes("and in long packets", table, sizeof table, r.cal + 0x140, sizeof table);
    shuts(&r);
    rig_end(&r);
}

static void cuts(void) { whole_session(cut_off); }
static void flips(void) { whole_session(flip_bits); }
static void insertions(void) { whole_session(insert_bytes); }
static void losses(void) { whole_session(lose_bytes); }

int main(void)
{
    static void (*const tests[])(void) = {cuts, flips, insertions, losses};
    return check_main(tests, COUNT(tests));
}
