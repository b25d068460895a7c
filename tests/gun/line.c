#include "gun.h"

#include <stdarg.h>
#include <stdio.h>
#include <string.h>

enum { AT_ONCE = 3 };      /* bytes that come, and that go, in a turn */
enum { PATIENCE = 300 };   /* turns: the longest frame takes 45 */

static uint8_t coming[4096];
static size_t comes, came;
static const uint8_t *sending; /* the host's own bytes */
static size_t size, sent;
static uint8_t heard[4096];
static size_t heard_count;
static uint8_t to_host, from_host;
static int with_interrupts;

void dma_send(const uint8_t *bytes, size_t count)
{
    insist("a frame is sent while the last one is on its way", 0, sent != size);
    insist("a frame of no bytes, or of too many, is sent", 0, count == 0 || count > XCP_SLOT_ROOM);
    sending = bytes;
    size = count;
    sent = 0;
}

int dma_is_idle(void)
{
    return sent == size;
}

size_t dma_moves(uint8_t *to, size_t most)
{
    size_t count = 0;
    while (count < most && sent < size)
        to[count++] = sending[sent++];
    return count;
}

void switch_on(void)
{
    comes = came = size = sent = heard_count = 0;
    to_host = from_host = 0;
    gun.start();
}

/* What is left of a call's stack is another's soon: here at once. */
static void overwrite_stack(void)
{
    volatile uint8_t other[1024];
    for (size_t i = 0; i < sizeof other; i++)
        other[i] = 0xEE;
}

void turn(void)
{
    for (int i = 0; i < AT_ONCE && came < comes; i++)
        gun.receive(coming[came++]);
    if (with_interrupts)
        interrupts_on();
    gun.once_around();
    if (with_interrupts)
        interrupts_off();
    overwrite_stack();
    heard_count += dma_moves(heard + heard_count, heard_count + AT_ONCE <= sizeof heard ? AT_ONCE : 0);
}

void babble(size_t count)
{
    for (size_t i = 0; i < count; i++)
        gun.receive(i % 2 == 0 ? SYNC : 0x00);
}

void turns(int count)
{
    while (count-- > 0)
        turn();
}

void line_settles(void)
{
    while (came < comes || sent < size)
        turn();
    heard_count = 0;
    from_host = 0;
}

static void say_bytes(const uint8_t *packet, size_t len)
{
    if (came == comes)
        came = comes = 0;
    comes += frame_of(to_host++, packet, len, coming + comes);
}

void say(const char *format, ...)
{
    char text[TEXT];
    uint8_t packet[PACKET];
    va_list rest;
    va_start(rest, format);
    vsnprintf(text, sizeof text, format, rest);
    va_end(rest);
    say_bytes(packet, bytes_of(text, packet, sizeof packet));
}

/* The message at the front of what was heard, its pairs undone; gives how many bytes it took on the
 * line, 0 if it is not whole yet. */
static size_t undone(uint8_t message[MESSAGE])
{
    size_t count = 0;
    for (size_t at = 1; at < heard_count; at++) {
        uint8_t byte = heard[at];
        if (byte == ESC && ++at == heard_count)
            return 0;
        message[count++] = byte == ESC ? (uint8_t)(ESC - heard[at]) : byte;
        if (count == MESSAGE || count == message[0] + 3u)
            return at + 1;
    }
    return 0;
}

/* Takes that frame, which must be right; gives the packet's length. */
static size_t take_frame(uint8_t packet[PACKET])
{
    uint8_t message[MESSAGE] = {0}, sum = 0;
    size_t taken = undone(message), len = message[0];
    if (taken == 0)
        return 0;
    for (size_t i = 0; i < len + 2 && i + 1 < MESSAGE; i++)
        sum = (uint8_t)(sum + message[i]);
    if (heard[0] != SYNC || len < 1 || len > PACKET || sum != message[len + 2]) {
        insist("a frame is right", 1, 0);
        heard_count = 0;
        return 0;
    }
    insist("a frame's CTR", from_host, message[1]);
    from_host++;
    heard_count -= taken;
    memmove(heard, heard + taken, heard_count);
    memcpy(packet, message + 2, len);
    return len;
}

size_t next_packet(uint8_t packet[PACKET])
{
    for (int i = 0; i < PATIENCE; i++) {
        size_t len = take_frame(packet);
        if (len > 0)
            return len;
        turn();
    }
    return 0;
}

/* The next answer, behind whatever samples. */
static size_t next_answer(uint8_t packet[PACKET])
{
    size_t len;
    do
        len = next_packet(packet);
    while (len > 0 && packet[0] < 0xFE);
    return len;
}

static void answers_to(const char *answer, const char *format, va_list rest)
{
    char text[TEXT];
    uint8_t packet[PACKET], expected[PACKET];
    size_t expected_len = bytes_of(answer, expected, sizeof expected);
    vsnprintf(text, sizeof text, format, rest);
    say_bytes(packet, bytes_of(text, packet, sizeof packet));
    size_t len = next_answer(packet);
    check_note("%s", text);
    check_bytes("answer", expected, expected_len, packet, len);
    check_note("%s", "");
}

void answers(const char *answer, const char *format, ...)
{
    va_list rest;
    va_start(rest, format);
    answers_to(answer, format, rest);
    va_end(rest);
}

unsigned long interrupted(const char *answer, const char *format, ...)
{
    va_list rest;
    interrupts_came = 0;
    with_interrupts = 1;
    va_start(rest, format);
    answers_to(answer, format, rest);
    va_end(rest);
    with_interrupts = 0;
    return interrupts_came;
}

uint32_t seed_for(uint8_t resource)
{
    uint8_t packet[PACKET];
    say("F8 00 %02X", resource);
    insist("a seed comes", 6, (uint32_t)next_answer(packet));
    return (uint32_t)packet[2] | (uint32_t)packet[3] << 8 | (uint32_t)packet[4] << 16 |
           (uint32_t)packet[5] << 24;
}

void connect_and_unlock(void)
{
    ANSWERS(CONNECTED, "FF 00");
    uint32_t key = key_of(seed_for(CALIBRATION), CALIBRATION);
    ANSWERS("FF 04", "F7 04 %02X %02X %02X %02X", LE32(key));
    key = key_of(seed_for(LISTS), LISTS);
    ANSWERS("FF 00", "F7 04 %02X %02X %02X %02X", LE32(key));
}
