/* The slice call as a controller's code: all of compare/everything.h goes to two slaves, of which one takes each byte by itself
 * and the other takes them in slices, of any length and at any alignment; behind the byte that ends one, more is lent. Then both
 * go on from damaged readers. What they return and leave is the same. Prints what is not, then 'N passed, M failed'; with no C
 * library beside compare/riscv32/system.c. */
#include "../../compare/everything.h"
#include "xcp_slave.h"

#include <string.h>
#include <unistd.h>

enum { MEMORY = 4096, MOST = 300, BEHIND = 3, ALIGNMENTS = 8, READER = 12, SAID_MOST = 20 };

struct slave {
    uint8_t lent[XCP_STATE_SIZE + ALIGNMENTS], cal[MEMORY], room[XCP_SLOT_ROOM];
    uint8_t *state;
};

static struct slave singly, sliced;
static uint8_t meas[MEMORY], came[MOST]; /* came: what one has taken and the other has not been given */
static size_t count, cut = 1;
static uint32_t passed, failed, drawn = 12;

static void say(const char *text)
{
    if (write(STDOUT_FILENO, text, strlen(text)) < 0)
        _exit(2);
}

static void say_number(uint32_t number)
{
    char text[12];
    size_t at = sizeof text - 1;
    text[at] = 0;
    do
        text[--at] = (char)('0' + number % 10);
    while ((number /= 10) > 0);
    say(text + at);
}

/* Below most. */
static uint32_t draw(uint32_t most)
{
    drawn = drawn * 1664525u + 1013904223u;
    return (drawn >> 8) % most;
}

static void check(const char *what, uint32_t expected, uint32_t got)
{
    if (expected == got) {
        passed++;
        return;
    }
    if (++failed > SAID_MOST)
        return;
    say(what);
    say(": expected ");
    say_number(expected);
    say(", got ");
    say_number(got);
    say("\n");
}

static void compare(void)
{
    check("the state differs", 0, memcmp(singly.state, sliced.state, XCP_STATE_SIZE) != 0);
    check("calibration differs", 0, memcmp(singly.cal, sliced.cal, MEMORY) != 0);
}

/* All that came, as one slice whose last byte returned this. */
static void give_slice(uint32_t result)
{
    static uint8_t lent[MOST + BEHIND + ALIGNMENTS];
    uint8_t *at = lent + draw(ALIGNMENTS);
    size_t more = result == 0 ? 0 : draw(BEHIND + 1);
    memcpy(at, came, count);
    for (size_t i = 0; i < more; i++)
        at[count + i] = (uint8_t)(draw(2) == 0 ? SYNC : draw(256));
    uint64_t got = xcp_receive(sliced.state, XCP_STATE_SIZE, sliced.cal, MEMORY, meas, MEMORY, at, count + more);
    check("a slice's result", result, XCP_RESULT(got));
    check("bytes that it took", (uint32_t)count, XCP_TOOK(got));
    compare();
    count = 0;
    cut = 1 + draw(draw(4) == 0 ? MOST : 8);
}

static uint32_t make(struct slave *s, int which, uint32_t with)
{
    if (which == POWER_UP)
        return xcp_power_up(s->state, XCP_STATE_SIZE, with);
    if (which == EVENT)
        return xcp_event(s->state, XCP_STATE_SIZE, s->cal, MEMORY, meas, MEMORY, with, 0x9A9B);
    return xcp_slot(s->state, XCP_STATE_SIZE, s->room, sizeof s->room);
}

static uint32_t take(uint8_t byte)
{
    uint32_t result = xcp_receive_byte(singly.state, XCP_STATE_SIZE, singly.cal, MEMORY, meas, MEMORY, byte);
    came[count++] = byte;
    if (result != 0 || count == cut)
        give_slice(result);
    return result;
}

static uint32_t call(int which, uint32_t with)
{
    if (which == BYTE)
        return take((uint8_t)with);
    if (count > 0)
        give_slice(0);
    uint32_t result = make(&singly, which, with);
    check("what another call returns", result, make(&sliced, which, with));
    check("a frame differs", 0, memcmp(singly.room, sliced.room, sizeof singly.room) != 0);
    return result;
}

/* Any place, count and LEN of the reader, and bytes of which many are SYNC, ESC or what ends a pair. */
static void damaged_readers(void)
{
    static const uint8_t often[] = {SYNC, ESC, 0x00, 0x01, 0x02};
    for (int i = 0; i < 20000; i++) {
        sliced.state[READER] = singly.state[READER] = (uint8_t)draw(draw(2) == 0 ? 3 : 256);
        sliced.state[READER + 1] = singly.state[READER + 1] = (uint8_t)draw(draw(2) == 0 ? 8 : 256);
        sliced.state[READER + 2] = singly.state[READER + 2] = (uint8_t)draw(draw(2) == 0 ? 8 : 256);
        for (uint32_t bytes = draw(12); bytes > 0; bytes--)
            take(draw(2) == 0 ? often[draw(sizeof often)] : (uint8_t)draw(256));
        if (count > 0)
            give_slice(0);
        if (i % 16 == 0)
            call(SLOT, 0);
    }
}

/* A state that is not consistent: none is taken, and nothing changes. */
static void bad_state(void)
{
    sliced.state[3] ^= 1;
    singly.state[3] ^= 1;
    uint64_t got = xcp_receive(sliced.state, XCP_STATE_SIZE, sliced.cal, MEMORY, meas, MEMORY, came, MOST);
    check("number 10 of a slice", XCP_BAD_STATE << 16, XCP_RESULT(got));
    check("bytes taken with number 10", 0, XCP_TOOK(got));
    got = xcp_receive(sliced.state, XCP_STATE_SIZE - 1, NULL, 0, NULL, 0, NULL, 0);
    check("number 10 of no byte", 1, got == XCP_BAD_STATE << 16);
    compare();
}

int main(void)
{
    singly.state = singly.lent + 1;
    sliced.state = sliced.lent + 6;
    memset(meas, SYNC, sizeof meas);
    everything();
    open_session();
    damaged_readers();
    check("no bytes", 1, xcp_receive(sliced.state, XCP_STATE_SIZE, sliced.cal, MEMORY, meas, MEMORY, NULL, 0) == 0);
    compare();
    bad_state();
    say_number(passed);
    say(" passed, ");
    say_number(failed);
    say(" failed\n");
    return failed > 0;
}
