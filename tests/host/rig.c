#include "rig.h"

#include <stdarg.h>
#include <stdio.h>
#include <stdlib.h>
#include <string.h>

/* What out holds before a slot, and so what must stay past the frame. */
#define STALE 0xA5

/* Scattered bytes: a few of them tell the address that they were read from. */
static void fill(uint8_t *memory, size_t len, uint32_t number)
{
    for (size_t i = 0; i < len; i++) {
        number = number * 1664525u + 1013904223u;
        memory[i] = (uint8_t)(number >> 24);
    }
}

void rig_start(struct rig *r, size_t cal_len, size_t meas_len, uint32_t start_number)
{
    memset(r, 0, sizeof *r);
    r->cal_len = cal_len;
    r->meas_len = meas_len;
    r->out_len = XCP_SLOT_ROOM;
    r->state = lend(XCP_STATE_SIZE, 0x5A);
    r->cal = lend(cal_len, 0);
    r->meas = lend(meas_len, 0);
    r->out = lend(r->out_len, STALE);
    r->shelf = lend(SHELF, 0);
    r->master_ctr = 0x96; /* soon 9A and 9B, which are sent as pairs */
    fill(r->cal, cal_len, 3);
    fill(r->meas, meas_len, 0x80);
    insist("power-up", 0, xcp_power_up(r->state, XCP_STATE_SIZE, start_number));
}

void rig_end(struct rig *r)
{
    lend_end(r->state, XCP_STATE_SIZE);
    lend_end(r->cal, r->cal_len);
    lend_end(r->meas, r->meas_len);
    lend_end(r->out, r->out_len);
    lend_end(r->shelf, SHELF);
}

static uint8_t *resized(uint8_t *old, size_t old_len, size_t len)
{
    uint8_t *memory = lend(len, 0x77);
    memcpy(memory, old, old_len < len ? old_len : len);
    lend_end(old, old_len);
    return memory;
}

void rig_resize_cal(struct rig *r, size_t len)
{
    r->cal = resized(r->cal, r->cal_len, len);
    r->cal_len = len;
}

void rig_resize_meas(struct rig *r, size_t len)
{
    r->meas = resized(r->meas, r->meas_len, len);
    r->meas_len = len;
}

size_t bytes_of(const char *hex, uint8_t *bytes, size_t room)
{
    size_t count = 0;
    char *end;
    for (;;) {
        unsigned long value = strtoul(hex, &end, 16), times = 1;
        if (end == hex)
            break;
        if (*end == '*')
            times = strtoul(end + 1, &end, 10);
        for (size_t i = count; i < count + times && i < room; i++)
            bytes[i] = (uint8_t)value;
        count += times;
        hex = end;
    }
    insist("the bytes fit", 1, count <= room);
    return count <= room ? count : room;
}

const char *hex_of(const uint8_t *bytes, size_t count)
{
    static const char digits[] = "0123456789ABCDEF";
    static char text[TEXT];
    insist("no more bytes than a packet has", 1, count <= PACKET);
    text[0] = 0;
    for (size_t i = 0; i < count && i < PACKET; i++) {
        const char pair[] = {digits[bytes[i] / 16], digits[bytes[i] % 16], ' ', 0};
        memcpy(text + 3 * i, pair, sizeof pair);
    }
    return text;
}

const char *answer_of(const uint8_t *bytes, size_t count)
{
    static char text[TEXT];
    snprintf(text, sizeof text, "FF %s", hex_of(bytes, count));
    return text;
}

static size_t stuff(uint8_t byte, uint8_t *to)
{
    if (byte != SYNC && byte != ESC) {
        to[0] = byte;
        return 1;
    }
    to[0] = ESC;
    to[1] = byte == SYNC ? 1 : 0;
    return 2;
}

size_t frame_of(uint8_t ctr, const uint8_t *packet, size_t len, uint8_t *frame)
{
    size_t at = 0;
    uint8_t sum = (uint8_t)(len + ctr);
    frame[at++] = SYNC;
    at += stuff((uint8_t)len, frame + at);
    at += stuff(ctr, frame + at);
    for (size_t i = 0; i < len; i++) {
        at += stuff(packet[i], frame + at);
        sum = (uint8_t)(sum + packet[i]);
    }
    return at + stuff(sum, frame + at);
}

uint32_t feed(struct rig *r, uint8_t byte)
{
    uint32_t result = xcp_receive_byte(r->state, XCP_STATE_SIZE, r->cal, r->cal_len, r->meas,
                                       r->meas_len, byte);
    insist("added to a byte's number", 0, XCP_SIZE(result));
    return XCP_NUMBER(result);
}

uint64_t feed_slice(struct rig *r, const uint8_t *bytes, size_t count)
{
    uint8_t *at = lend_edge == EDGE_AFTER ? r->shelf + SHELF - count : r->shelf;
    memcpy(at, bytes, count);
    uint64_t result = xcp_receive(r->state, XCP_STATE_SIZE, r->cal, r->cal_len, r->meas,
                                  r->meas_len, at, count);
    insist("added to a slice's number", 0, XCP_SIZE(result));
    insist("bytes of a slice were written", 0, memcmp(at, bytes, count) != 0);
    return result;
}

uint32_t give_bytes(struct rig *r, const uint8_t *packet, size_t len)
{
    uint8_t frame[FRAME];
    size_t size = frame_of(r->master_ctr++, packet, len, frame);
    feed(r, frame[0]);
    for (size_t i = 1; i + 1 < size; i++)
        insist("a byte inside a frame", 0, feed(r, frame[i]));
    return feed(r, frame[size - 1]);
}

/* The packet that a format makes. */
#define PACKET_FROM(format, packet, len)                                             \
    uint8_t packet[PACKET];                                                          \
    char text[TEXT];                                                                 \
    va_list values;                                                                  \
    va_start(values, format);                                                        \
    insist("the text fits", 1, vsnprintf(text, sizeof text, format, values) < TEXT); \
    va_end(values);                                                                  \
    size_t len = bytes_of(text, packet, sizeof packet)

uint32_t give(struct rig *r, const char *format, ...)
{
    PACKET_FROM(format, packet, len);
    return give_bytes(r, packet, len);
}

/* Reads a whole frame; gives the packet's length, or 0 if it is no frame of this CTR. */
static size_t unframe(const uint8_t *frame, size_t size, uint8_t ctr, uint8_t packet[PACKET])
{
    uint8_t message[FRAME], sum = 0;
    size_t count = 0;
    for (size_t i = 1; i < size; i++) {
        uint8_t byte = frame[i];
        if (byte == SYNC || (byte == ESC && (++i == size || frame[i] > 1)))
            return 0;
        message[count++] = byte != ESC ? byte : frame[i] == 1 ? SYNC : ESC;
    }
    if (frame[0] != SYNC || count < 4 || message[0] != count - 3 || message[1] != ctr)
        return 0;
    for (size_t i = 0; i + 1 < count; i++)
        sum = (uint8_t)(sum + message[i]);
    if (sum != message[count - 1] || message[0] > PACKET)
        return 0;
    memcpy(packet, message + 2, message[0]);
    return message[0];
}

static uint32_t raw_slot(struct rig *r)
{
    memset(r->out, STALE, r->out_len);
    uint32_t result = xcp_slot(r->state, XCP_STATE_SIZE, r->out, r->out_len);
    insist("a slot's number", XCP_DONE, XCP_NUMBER(result));
    uint32_t size = XCP_SIZE(result), touched = 0;
    insist("a slot's size is at most that of the longest frame", 1, size <= FRAME);
    for (size_t i = size; i < r->out_len; i++)
        touched += r->out[i] != STALE;
    insist("bytes written past the frame", 0, touched);
    return size <= FRAME ? size : 0;
}

size_t slot(struct rig *r, uint8_t packet[PACKET])
{
    uint8_t before[XCP_STATE_SIZE];
    memcpy(before, r->state, sizeof before);
    uint32_t size = raw_slot(r);
    if (size == 0) {
        insist("a slot with nothing to send leaves the state", 0,
               memcmp(before, r->state, sizeof before) != 0);
        return 0;
    }
    size_t len = unframe(r->out, size, r->slave_ctr++, packet);
    insist("the frame reads back, with the next CTR", 1, len > 0);
    return len;
}

void drain(struct rig *r, uint8_t packet[PACKET])
{
    int frames = 0, most = POOL_ODTS + 1; /* a packet of each, and an answer */
    while (frames <= most && slot(r, packet) > 0)
        frames++;
    insist("nothing waits after seventeen frames", 1, frames <= most);
}

uint32_t event(struct rig *r, uint32_t number, uint16_t clock)
{
    uint32_t result = xcp_event(r->state, XCP_STATE_SIZE, r->cal, r->cal_len, r->meas, r->meas_len,
                                number, clock);
    insist("an event's number", number > 1 ? XCP_BAD_EVENT : XCP_DONE, XCP_NUMBER(result));
    return XCP_SIZE(result);
}

static void expect_packet(struct rig *r, const char *what, const uint8_t *packet, size_t len)
{
    uint8_t got[PACKET];
    size_t got_len = slot(r, got);
    check_bytes(what, packet, len, got, got_len);
}

void ask(struct rig *r, const char *answer, const char *format, ...)
{
    PACKET_FROM(format, packet, len);
    insist("a command is taken", XCP_TAKEN, give_bytes(r, packet, len));
    uint8_t expected[PACKET];
    expect_packet(r, "answer", expected, bytes_of(answer, expected, sizeof expected));
}

void sends(struct rig *r, const char *format, ...)
{
    PACKET_FROM(format, packet, len);
    expect_packet(r, "packet", packet, len);
}

void sends_frame(struct rig *r, const char *frame)
{
    uint8_t expected[FRAME];
    size_t len = bytes_of(frame, expected, sizeof expected);
    check_bytes("frame", expected, len, r->out, raw_slot(r));
    r->slave_ctr++;
}

void wire(struct rig *r, const char *hex, const char *numbers)
{
    uint8_t bytes[2 * FRAME];
    size_t count = bytes_of(hex, bytes, sizeof bytes);
    insist("one number for each byte", (uint32_t)count, (uint32_t)strlen(numbers));
    for (size_t i = 0; i < count; i++) {
        check_note("%s, byte %zu", hex, i);
        check_numbers("number", (uint32_t)(numbers[i] - '0'), feed(r, bytes[i]));
    }
    check_note("%s", "");
}

uint32_t key_of(uint32_t seed, uint8_t resource)
{
    uint32_t sum = seed + (resource == CALIBRATION ? 0x0000D05Eu : 0x0000DA00u);
    return sum << 8 | sum >> 24;
}

void get_seed(struct rig *r, uint8_t resource)
{
    uint8_t p[PACKET] = {0};
    insist("GET_SEED is taken", XCP_TAKEN, give(r, "F8 00 %02X", resource));
    insist("GET_SEED answers six bytes", 6, (uint32_t)slot(r, p));
    insist("FF 04", 0x04FF, (uint32_t)(p[0] | p[1] << 8));
    r->seed = (uint32_t)p[2] | (uint32_t)p[3] << 8 | (uint32_t)p[4] << 16 | (uint32_t)p[5] << 24;
}

void unlock(struct rig *r, uint8_t resource)
{
    uint8_t p[PACKET] = {0};
    get_seed(r, resource);
    insist("UNLOCK is taken", XCP_TAKEN,
           give(r, "F7 04 %02X %02X %02X %02X", LE32(key_of(r->seed, resource))));
    insist("UNLOCK answers two bytes", 2, (uint32_t)slot(r, p));
    insist("FF and the mask left", 0xFF, (uint32_t)(p[0] | (p[1] & resource) << 8));
}

void spend_key(struct rig *r, uint8_t resource)
{
    get_seed(r, resource);
    ask(r, "FE 25", "F7 04 %02X %02X %02X %02X", LE32(key_of(r->seed, resource) ^ 1));
    ask(r, CONNECTED, "FF 00");
}

void allocate(struct rig *r, unsigned lists, unsigned odts, unsigned count)
{
    ask(r, "FF", "D6");
    ask(r, "FF", "D5 00 %02X 00", lists);
    for (unsigned list = 0; list < lists; list++)
        ask(r, "FF", "D4 00 %02X 00 %02X", list, odts);
    for (unsigned odt = 0; odt < lists * odts; odt++)
        ask(r, "FF", "D3 00 %02X 00 %02X %02X", odt / odts, odt % odts, count);
    r->odts = odts;
}

void allocate_usual(struct rig *r)
{
    allocate(r, LIST_COUNT, ODT_COUNT, ENTRY_COUNT);
}

void entry(struct rig *r, unsigned list, unsigned odt, unsigned at, unsigned size, unsigned ext,
           uint32_t address)
{
    ask(r, "FF", "E2 00 %02X 00 %02X %02X", list, odt, at);
    ask(r, "FF", "E1 FF %02X %02X %02X %02X %02X %02X", size, ext, LE32(address));
}

void entries(struct rig *r, unsigned list, unsigned odt, unsigned size, unsigned ext,
             uint32_t address)
{
    ask(r, "FF", "E2 00 %02X 00 %02X 00", list, odt);
    for (unsigned at = 0; at < size; at += ENTRY_MOST)
        ask(r, "FF", "E1 FF %02X %02X %02X %02X %02X %02X",
            size - at < ENTRY_MOST ? size - at : ENTRY_MOST, ext, LE32(address + at));
}

void mode(struct rig *r, unsigned list, unsigned event_number)
{
    ask(r, "FF", "E0 10 %02X 00 %02X 00 01 00", list, event_number);
}

void start(struct rig *r, unsigned list)
{
    char answer[8];
    snprintf(answer, sizeof answer, "FF %02X", r->odts * list);
    ask(r, answer, "DE 01 %02X 00", list);
}
