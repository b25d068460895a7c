/* The deepest stack of each call, by painting: a call is made on a stack of its own that is full of
 * one byte, and afterwards the deepest byte that changed tells how far the call went. Prints a line
 * for each call: its name and the bytes, return address included and arguments not, in whole words
 * of 8. What a call reserves and never writes is not seen. */
#define _XOPEN_SOURCE 700
#include "everything.h"
#include "xcp_slave.h"

#include <stdio.h>
#include <stdlib.h>
#include <string.h>
#include <ucontext.h>

enum { PAINT = 0xC7, STACK = 64 * 1024 };

typedef uint32_t power_up_call(uint8_t *, uint64_t, uint32_t);
typedef uint32_t byte_call(uint8_t *, uint64_t, uint8_t *, uint64_t, const uint8_t *, uint64_t, uint8_t);
typedef uint32_t event_call(uint8_t *, uint64_t, const uint8_t *, uint64_t, const uint8_t *, uint64_t,
                            uint32_t, uint16_t);
typedef uint32_t slot_call(uint8_t *, uint64_t, uint8_t *, uint64_t);
typedef uint64_t slice_call(uint8_t *, uint64_t, uint8_t *, uint64_t, const uint8_t *, uint64_t, const uint8_t *,
                            uint64_t);

static const char *const names[CALLS] = {"xcp_power_up", "xcp_receive_byte", "xcp_event", "xcp_slot", "xcp_receive"};
static _Alignas(16) uint8_t stack[STACK];
static uint8_t state[XCP_STATE_SIZE], cal[4096], meas[4096], room[XCP_SLOT_ROOM];
static ucontext_t here, there;
static size_t deepest[CALLS];

/* The call to make, its argument, and what it returned. */
static int kind;
static uint32_t argument, result;

/* Either the slave's functions or those that only note where they stand. */
static power_up_call *volatile power_up;
static byte_call *volatile receive_byte;
static event_call *volatile event;
static slot_call *volatile slot;
static slice_call *volatile receive;
static uint8_t *top; /* just above the return address */

/* The frame's address is that of the saved frame pointer, and the return address stands above. */
#define NOTE() (top = (uint8_t *)__builtin_frame_address(0) + 16, 0u)

static uint32_t note_power_up(uint8_t *s, uint64_t n, uint32_t a)
{
    return (void)s, (void)n, (void)a, NOTE();
}

static uint32_t note_byte(uint8_t *s, uint64_t n, uint8_t *c, uint64_t cn, const uint8_t *m, uint64_t mn, uint8_t a)
{
    return (void)s, (void)n, (void)c, (void)cn, (void)m, (void)mn, (void)a, NOTE();
}

static uint32_t note_event(uint8_t *s, uint64_t n, const uint8_t *c, uint64_t cn, const uint8_t *m, uint64_t mn,
                           uint32_t a, uint16_t t)
{
    return (void)s, (void)n, (void)c, (void)cn, (void)m, (void)mn, (void)a, (void)t, NOTE();
}

static uint32_t note_slot(uint8_t *s, uint64_t n, uint8_t *o, uint64_t on)
{
    return (void)s, (void)n, (void)o, (void)on, NOTE();
}

static uint64_t note_slice(uint8_t *s, uint64_t n, uint8_t *c, uint64_t cn, const uint8_t *m, uint64_t mn,
                           const uint8_t *b, uint64_t bn)
{
    return (void)s, (void)n, (void)c, (void)cn, (void)m, (void)mn, (void)b, (void)bn, NOTE();
}

static uint32_t receive_slice(uint32_t count)
{
    uint64_t r = receive(state, sizeof state, cal, sizeof cal, meas, sizeof meas, slice, count);
    took = XCP_TOOK(r);
    return XCP_RESULT(r);
}

static void on_painted_stack(void)
{
    if (kind == POWER_UP)
        result = power_up(state, sizeof state, argument);
    else if (kind == BYTE)
        result = receive_byte(state, sizeof state, cal, sizeof cal, meas, sizeof meas, (uint8_t)argument);
    else if (kind == EVENT)
        result = event(state, sizeof state, cal, sizeof cal, meas, sizeof meas, argument, 0x9A9B);
    else if (kind == SLICE)
        result = receive_slice(argument);
    else
        result = slot(state, sizeof state, room, sizeof room);
}

/* Makes the call there, and comes back when it returns. */
static void go(void)
{
    getcontext(&there);
    there.uc_stack.ss_sp = stack;
    there.uc_stack.ss_size = sizeof stack;
    there.uc_link = &here;
    makecontext(&there, on_painted_stack, 0);
    swapcontext(&here, &there);
}

static uint32_t call(int which, uint32_t with)
{
    kind = which;
    argument = with;
    power_up = note_power_up, receive_byte = note_byte, event = note_event, slot = note_slot, receive = note_slice;
    go();
    memset(stack, PAINT, (size_t)(top - stack));
    power_up = xcp_power_up, receive_byte = xcp_receive_byte, event = xcp_event, slot = xcp_slot, receive = xcp_receive;
    go();
    size_t untouched = 0;
    while (stack[untouched] == PAINT)
        untouched++;
    size_t depth = (size_t)(top - stack) - untouched;
    if (untouched == 0 || depth > sizeof stack) {
        fprintf(stderr, "stack: %s left its stack\n", names[which]);
        exit(1);
    }
    if (depth > deepest[which])
        deepest[which] = depth;
    return result;
}

int main(void)
{
    memset(meas, SYNC, sizeof meas);
    everything();
    for (int which = 0; which < CALLS; which++)
        printf("%s %zu\n", names[which], (deepest[which] + 7) / 8 * 8);
    return 0;
}
