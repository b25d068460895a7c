/* Frames for the slave, and a session in which everything happens that can take long or go deep. For programs that measure
 * calls: each has its own call(), which makes one and gives what it returned. With the call goes one number: the start, the
 * byte, the event, how many bytes of the slice; a slot needs none. */
#ifndef EVERYTHING_H
#define EVERYTHING_H

#include <stddef.h>
#include <stdint.h>

enum { SYNC = 0x9A, ESC = 0x9B };
enum { POWER_UP, BYTE, EVENT, SLOT, SLICE, CALLS };

static uint32_t call(int which, uint32_t with);

/* The code of the command that is being sent. */
static uint8_t command;
/* Whether bytes go to the slave in slices, and not each by a call; where a slice begins, and how many of its bytes the call has
 * taken. */
static int in_slices;
static const uint8_t *slice;
static uint32_t took;
/* A frame as it goes over the line: at most SYNC and 67 pairs. */
static uint8_t line[135];
static uint32_t on_line;

/* Bytes from the line; gives what the last of them returned. A slice ends early where a byte has a number to tell. */
static uint32_t give(const uint8_t *bytes, uint32_t count)
{
    uint32_t result = 0;
    took = 1;
    for (uint32_t at = 0; at < count && took > 0; at += took) {
        slice = bytes + at;
        result = in_slices ? call(SLICE, count - at) : call(BYTE, bytes[at]);
    }
    return result;
}

static void spell(uint8_t byte)
{
    int pair = byte == SYNC || byte == ESC;
    if (pair)
        line[on_line++] = ESC;
    line[on_line++] = pair ? byte == SYNC : byte;
}

/* A command, and behind its bytes so many of data, SYNC and ESC by turns, as a frame. */
static void spell_frame(size_t data, const uint8_t *bytes, size_t count)
{
    uint8_t sum = (uint8_t)(count + data);
    command = bytes[0];
    line[0] = SYNC;
    on_line = 1;
    spell(sum);
    spell(0);
    for (size_t i = 0; i < count + data; i++) {
        uint8_t byte = i < count ? bytes[i] : i % 2 ? ESC : SYNC;
        spell(byte);
        sum = (uint8_t)(sum + byte);
    }
    spell(sum);
}

/* That frame sent; gives what its last byte returned. */
static uint32_t tell(size_t data, const uint8_t *bytes, size_t count)
{
    spell_frame(data, bytes, count);
    return give(line, on_line);
}

/* A command, alone or with the slot in which its answer leaves; the same with so many bytes of data. */
#define TELL_WITH(DATA, ...) tell(DATA, (const uint8_t[]){__VA_ARGS__}, sizeof((const uint8_t[]){__VA_ARGS__}))
#define TELL(...) TELL_WITH(0, __VA_ARGS__)
#define ASK_WITH(DATA, ...) (TELL_WITH(DATA, __VA_ARGS__), call(SLOT, 0))
#define ASK(...) ASK_WITH(0, __VA_ARGS__)

/* From start 1 the seeds, and so the keys, are known; a wrong key ends the session. */
static void open_session(void)
{
    call(POWER_UP, 1);
    ASK(0xFF, 0);
    ASK(0xF8, 0, 1);
    ASK(0xF7, 4, 0x00, 0x7F, 0xF0, 0x04);
    ASK(0xF8, 0, 4);
    ASK(0xF7, 4, 0x04, 0x01, 0xE0, 0x08);
}

/* As many bytes as each command takes, and one more; the last of them missing; not inside. */
static void long_blocks(uint8_t extension)
{
    ASK(0xF6, 0, 0, extension, 0, 0, 0, 0);
    ASK_WITH(62, 0xF0, 62);
    ASK_WITH(61, 0xF0, 62);
    ASK_WITH(62, 0xF0, 63);
    ASK(0xF5, 63);
    ASK(0xF5, 64);
    ASK(0xF4, 63, 0, extension, 0, 0, 0, 0);
    ASK_WITH(56, 0xED, 56, 0, extension, 0, 0, 0, 0);
    ASK_WITH(55, 0xED, 56, 0, extension, 0, 0, 0, 0);
    ASK_WITH(56, 0xED, 57, 0, extension, 0, 0, 0, 0);
    ASK_WITH(56, 0xED, 56, 0, extension, 0xFF, 0x0F, 0, 0);
}

static void memory(void)
{
    for (uint8_t extension = 0; extension < 3; extension++) {
        ASK(0xF6, 0, 0, extension, 0, 0, 0, 0);
        ASK(0xF0, 6, SYNC, ESC, SYNC, ESC, SYNC, ESC);
        ASK(0xF0, 7, 1, 2);
        ASK(0xF5, 7);
        ASK(0xF5, 0);
        ASK(0xF4, 7, 0, extension, 0, 0, 0, 0);
        ASK(0xF4, 7, 0, extension, 0xFF, 0x0F, 0, 0);
        long_blocks(extension);
        ASK(0xF6, 0, 0, extension, 0, 0, 0, 0);
        ASK(0xF3, 0, 0, 0, 0x00, 0x10, 0, 0);
        ASK(0xF3, 0, 0, 0, 0x01, 0x10, 0, 0);
    }
}

/* Gives all lists back and takes so many, with so many ODTs each, and these with so many entries. */
static void allocate(uint8_t lists, uint8_t odts, uint8_t entries)
{
    ASK(0xD6);
    ASK(0xD5, 0, lists, 0);
    for (uint8_t list = 0; list < lists; list++)
        ASK(0xD4, 0, list, 0, odts);
    for (uint8_t list = 0; list < lists; list++)
        for (uint8_t odt = 0; odt < odts; odt++)
            ASK(0xD3, 0, list, 0, odt, entries);
}

/* A list of two ODTs with a mode: in each so many entries of 4 bytes, then one of 1 or 3, all at one address. With one of 4 its
 * ODTs have five and seven bytes, with fifteen as many as they hold. */
static void set_up(uint8_t list, uint8_t fours, uint8_t extension, uint8_t address)
{
    ASK(0xE3, 0, list, 0);
    for (uint8_t odt = 0; odt < 2; odt++) {
        ASK(0xE2, 0, list, 0, odt, 0);
        for (uint8_t entry = 0; entry < fours; entry++)
            ASK(0xE1, 0xFF, 4, extension, address, 0, 0, 0);
        ASK(0xE1, 0xFF, (uint8_t)(1 + 2 * odt), extension, address, 0, 0, 0);
    }
    ASK(0xDE, 1, list, 0);
    ASK(0xE0, 0x10, list, 0, 0, 0, 1, 0);
}

/* Slots until nothing waits, since a command that comes before its turn is dropped. */
static void drain(void)
{
    while (call(SLOT, 0) > 0)
        ;
}

/* Lists so set up, and first one that is not there. Calibration has bytes by now that are sent as pairs. */
static void lists(uint8_t fours)
{
    allocate(4, 2, (uint8_t)(fours + 1));
    for (uint8_t list = 5; list-- > 0;) {
        set_up(list, fours, list % 2, (uint8_t)(0x10 * list));
        ASK(0xDE, 2, list, 0);
    }
    ASK(0xDD, 1);
    for (uint32_t turn = 0; turn < 20; turn++) {
        call(EVENT, turn % 3);
        ASK(0xFC);
        call(SLOT, 0);
    }
    drain();
    for (uint8_t mode = 0; mode < 4; mode++) {
        ASK(0xDE, mode, 1, 0);
        ASK(0xE1, 0xFF, 1, 1, 0, 0, 0, 0);
        ASK(0xE3, 0, 1, 0);
        ASK(0xDD, mode);
    }
}

/* Lists of any shape: how many ODTs each has, and how many entries each ODT, counted through the lists. */
struct shape {
    uint8_t lists, odts[8], entries[16];
};

/* The whole pool, each time so that something takes longest or goes deepest. Of the first no slot takes as long as the one with
 * its last packet, which is full; of the last no event and no start of all lists: the ODTs lie before most lists, and so do their
 * entries, which are counted in fours with the most left over. */
static const struct shape one_long = {1, {16}, {8, 8, 8, 8, 8, 8, 8, 7, 7, 7, 7, 7, 7, 7, 7, 16}},
                          eight_short = {8, {2, 2, 2, 2, 2, 2, 2, 2}, {8, 8, 8, 8, 8, 8, 8, 8, 8, 8, 8, 8, 8, 8, 8, 8}},
                          uneven = {8, {9, 1, 1, 1, 1, 1, 1, 1}, {6, 10, 6, 10, 6, 10, 6, 10, 6, 10, 6, 10, 6, 10, 6, 10}};

/* Gives all lists back and takes these, with entries of 4 bytes, but a sixteenth of 3; all start on event 0. */
static void start_shape(const struct shape *s, uint8_t extension)
{
    const uint8_t *entries = s->entries;
    ASK(0xD6);
    ASK(0xD5, 0, s->lists, 0);
    for (uint8_t list = 0; list < s->lists; list++)
        ASK(0xD4, 0, list, 0, s->odts[list]);
    for (uint8_t list = 0; list < s->lists; list++) {
        for (uint8_t odt = 0; odt < s->odts[list]; odt++, entries++) {
            ASK(0xD3, 0, list, 0, odt, *entries);
            ASK(0xE2, 0, list, 0, odt, 0);
            for (uint8_t entry = 0; entry < *entries; entry++)
                ASK(0xE1, 0xFF, (uint8_t)(entry < 15 ? 4 : 3), extension, 0, 0, 0, 0);
        }
        ASK(0xE0, 0x10, list, 0, 0, 0, 1, 0);
        ASK(0xDE, 1, list, 0);
    }
}

/* Each list asked for what it refuses while it runs, and then selected. */
static void ask_running(uint8_t lists)
{
    for (uint8_t list = 0; list < lists; list++) {
        ASK(0xE0, 0x10, list, 0, 0, 0, 1, 0);
        ASK(0xE2, 0, list, 0, 0, 0);
        ASK(0xE1, 0xFF, 4, 0, 0, 0, 0, 0);
        ASK(0xE3, 0, list, 0);
        ASK(0xDE, 2, list, 0);
    }
}

/* They sample, send, start and stop together, and are given back while packets wait. */
static void whole_pool(const struct shape *s)
{
    start_shape(s, 0);
    ask_running(s->lists);
    call(EVENT, 0);
    drain();
    ASK(0xDD, 2);
    for (uint8_t list = 0; list < s->lists; list++)
        ASK(0xDE, 2, list, 0);
    ASK(0xDD, 1);
    call(EVENT, 0);
    ASK(0xFD);
    drain();
    call(EVENT, 0);
    ASK(0xE3, 0, 0, 0);
    call(EVENT, 0);
    TELL(0xD6);
    drain();
}

/* Entries that others have to make room for: so many for the first of sixteen ODTs, where the last list's last one has all others,
 * and these are written. The pointer is there, and has to stay. */
static uint32_t squeeze_in(uint8_t entries)
{
    ASK(0xD6);
    ASK(0xD5, 0, 8, 0);
    for (uint8_t list = 0; list < 8; list++)
        ASK(0xD4, 0, list, 0, (uint8_t)(list < 7 ? 1 : 9));
    ASK(0xD3, 0, 7, 0, 8, (uint8_t)(128 - entries));
    ASK(0xE2, 0, 7, 0, 8, 0);
    for (uint8_t other = entries; other < 128; other++)
        ASK(0xE1, 0xFF, 1, 1, other, 0, 0, 0);
    ASK(0xE2, 0, 7, 0, 8, 0);
    return TELL(0xD3, 0, 0, 0, 0, entries);
}

/* Each step to lists when it is not its turn, with a number out of range and with more than the pool has. */
static void allocations(void)
{
    for (uint8_t step = 0; step < 4; step++) {
        for (uint8_t count = 0; count < 255; count = (uint8_t)(count + 17)) {
            ASK(0xD5, 0, count, 1);
            ASK(0xD4, 0, 1, 1, count);
            ASK(0xD4, 0, 0, 0, (uint8_t)(count + 17));
            ASK(0xD3, 0, 0, 0, count, 0);
            ASK(0xD3, 0, 0, 0, 0, (uint8_t)(count + 129));
        }
        ASK(0xD6);
        if (step > 0)
            ASK(0xD5, 0, 8, 0);
        if (step > 1)
            ASK(0xD4, 0, 7, 0, 1);
    }
    for (uint8_t entries = 1; entries < 128; entries = (uint8_t)(entries + 9)) {
        squeeze_in(entries);
        drain();
    }
}

/* Every code, known or not, and every byte after a SYNC and after an ESC. */
static void codes(void)
{
    for (uint32_t value = 0; value < 256; value++) {
        if (value < 0xFE)
            ASK((uint8_t)value, 0, 0, 0, 0, 0, 0, 0);
        ASK((uint8_t)value, 1);
        give((const uint8_t[]){SYNC, (uint8_t)value, ESC, (uint8_t)value}, 4);
        open_session();
    }
    ASK(0xF8, 0, 1);
    ASK(0xF7, 4, 0, 0, 0, 0);
    ASK(0xFD);
}

/* Three wrong keys, and a fourth where it stays shut. */
static void wrong_keys(void)
{
    for (int keys = 0; keys < 4; keys++) {
        ASK(0xFF, 0);
        ASK(0xF8, 0, 1);
        ASK(0xF7, 4, 0, 0, 0, 0);
    }
    ASK(0xFD);
}

static void whole_session(void)
{
    open_session();
    memory();
    lists(1);
    lists(15);
    whole_pool(&one_long);
    whole_pool(&eight_short);
    whole_pool(&uneven);
    allocations();
    codes();
    wrong_keys();
}

/* All of it, once by bytes and once in slices. */
static void everything(void)
{
    for (in_slices = 0; in_slices < 2; in_slices++)
        whole_session();
    in_slices = 0;
}

#endif
