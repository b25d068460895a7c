/* What each call costs on a Cortex-M: instructions, exactly, and stack. Prints a line for each: what, instructions, bytes of
 * stack, with a bar between.
 *
 * For the emulated board, run so that an instruction takes 1,024 ns (-icount shift=10): the board's timer makes a step every
 * 40 ns, 25.6 for an instruction, and no instruction is lost in rounding. Counted is from a call's first instruction to its
 * return, both included; what it takes to call and to read the timer is measured at empty functions and taken off.
 * Stack is measured by painting, below the stack pointer at the call: arguments stand above it, and what a call reserves and
 * never writes is not seen.
 *
 * What a line tells of is done once more before it is printed, from the state that it found, by the slave's twin: the same code
 * at addresses of its own (tools/cost), of which the emulator can log every step. tools/cycles reckons cycles from these. */
#include "../everything.h"
#include "mps2.h"
#include "semihost.h"
#include "xcp_slave.h"

enum { CHECKSUM = 0xF3, DEEP = 1024, PAINT = 0xC7C7C7C7 };
/* The state stands 3 bytes behind a word's address, where most calls take longest; it is copied 8 words at a time. */
enum { BEHIND = 3, WORDS = (BEHIND + XCP_STATE_SIZE + 31) / 32 * 8 };

typedef uint32_t power_up_call(uint8_t *, uint64_t, uint32_t);
typedef uint32_t byte_call(uint8_t *, uint64_t, uint8_t *, uint64_t, const uint8_t *, uint64_t, uint8_t);
typedef uint32_t event_call(uint8_t *, uint64_t, const uint8_t *, uint64_t, const uint8_t *, uint64_t, uint32_t, uint16_t);
typedef uint32_t slot_call(uint8_t *, uint64_t, uint8_t *, uint64_t);
typedef uint64_t slice_call(uint8_t *, uint64_t, uint8_t *, uint64_t, const uint8_t *, uint64_t, const uint8_t *, uint64_t);

static const char *const names[CALLS] = {"xcp_power_up", "xcp_receive_byte", "xcp_event", "xcp_slot", "xcp_receive"};
static uint32_t words[WORDS];
static uint8_t *const state = (uint8_t *)words + BEHIND, cal[4096], meas[4096], room[XCP_SLOT_ROOM];
/* So many bytes of each memory are lent to an event. */
static uint32_t lent = sizeof meas;

/* Of the last call, and what of the count is not the call's own. */
static uint32_t counted, depth, around[CALLS];
/* That call, with the state that it found. */
static struct made { int which; uint32_t with, lent, state[WORDS]; } last;
/* Of all calls since it was made 0. */
static struct cost { uint32_t instructions, stack; } sum;
/* Of all calls; and of the bytes that end a command other than BUILD_CHECKSUM, and of slots, the dearest one: the command's
 * code, the frame's size. */
static uint32_t deepest[CALLS];
static struct dearest { uint32_t instructions, stack, which; struct made made; } dearest_command, dearest_slot;

static void say(const char *text)
{
    semihost(SYS_WRITE0, text);
}

static void end(int status)
{
    uint32_t block[2] = {APPLICATION_EXIT, (uint32_t)status};
    for (;;)
        semihost(SYS_EXIT_EXTENDED, block);
}

static void say_number(uint32_t number, uint32_t base)
{
    char text[12];
    int at = sizeof text - 1;
    text[at] = 0;
    do {
        text[--at] = "0123456789ABCDEF"[number % base];
        number /= base;
    } while (number > 0);
    say(text + at);
}

static void fail(const char *why)
{
    say("cost: ");
    say(why);
    say("\n");
    end(1);
}

/* A fault ends the program, and not only the measurement. */
void stopped(void);
void stopped(void)
{
    fail("a fault");
}

/* One instruction, by every call's name; and the twin's. */
power_up_call empty_power_up, twin_xcp_power_up;
byte_call empty_byte, twin_xcp_receive_byte;
event_call empty_event, twin_xcp_event;
slot_call empty_slot, twin_xcp_slot;
slice_call empty_slice, twin_xcp_receive;
__asm__(".text\n.syntax unified\n.thumb\n.global empty_power_up, empty_byte, empty_event, empty_slot, empty_slice\n"
        ".thumb_func\nempty_power_up:\n.thumb_func\nempty_byte:\n.thumb_func\nempty_event:\n.thumb_func\nempty_slot:\n"
        ".thumb_func\nempty_slice:\nbx lr\n");

static const struct slave {
    power_up_call *power_up;
    byte_call *receive_byte;
    event_call *event;
    slot_call *slot;
    slice_call *receive;
} empty = {empty_power_up, empty_byte, empty_event, empty_slot, empty_slice},
  real = {xcp_power_up, xcp_receive_byte, xcp_event, xcp_slot, xcp_receive},
  twin = {twin_xcp_power_up, twin_xcp_receive_byte, twin_xcp_event, twin_xcp_slot, twin_xcp_receive};
/* The one that is called now. */
static const struct slave *volatile slave;

/* A state, in few instructions, since it is done at every call. */
static void copy(uint32_t *to, const uint32_t *from)
{
    for (int left = WORDS; left > 0; left -= 8)
        __asm__ volatile("ldmia %0!, {r3-r6, r8-r11}\nstmia %1!, {r3-r6, r8-r11}"
                         : "+r"(from), "+r"(to)
                         :
                         : "r3", "r4", "r5", "r6", "r8", "r9", "r10", "r11", "memory");
}

/* Steps of the timer as whole instructions: 1,024 ns are 25.6 steps of 40 ns. */
static uint32_t instructions(uint32_t steps)
{
    return (steps * 5 + 64) / 128;
}

/* Four words at a time and in few instructions, since both are done at every call. They stand in the function whose stack it is:
 * one of their own would lie where they paint. */
#define IN_PLACE static inline __attribute__((always_inline))

IN_PLACE void paint(uint32_t *from, const uint32_t *to)
{
    __asm__ volatile("mov r3, %2\nmov r4, %2\nmov r5, %2\nmov r6, %2\n1: stmia %0!, {r3-r6}\ncmp %0, %1\nbcc 1b"
                     : "+r"(from)
                     : "r"(to), "r"(PAINT)
                     : "r3", "r4", "r5", "r6", "cc", "memory");
}

/* Where the paint ends. */
IN_PLACE const uint32_t *painted(const uint32_t *from, const uint32_t *to)
{
    __asm__ volatile("1: ldmia %0!, {r3-r6}\ncmp r3, %2\nittt eq\ncmpeq r4, %2\ncmpeq r5, %2\ncmpeq r6, %2\nbne 2f\n"
                     "cmp %0, %1\nbcc 1b\n2:"
                     : "+r"(from)
                     : "r"(to), "r"(PAINT)
                     : "r3", "r4", "r5", "r6", "cc", "memory");
    for (from -= 4; from < to && *from == PAINT;)
        from++;
    return from;
}

/* Paints the stack below the function that it stands in, and makes the call. That function's frame does not move, so the
 * stack pointer is the same at the call. */
#define MEASURED(CALL)                                               \
    uint32_t *sp, result, before, after;                             \
    __asm__ volatile("mov %0, sp" : "=r"(sp));                       \
    paint(sp - DEEP / 4, sp);                                        \
    before = TIMER_VALUE;                                            \
    result = CALL;                                                   \
    after = TIMER_VALUE;                                             \
    depth = (uint32_t)(sp - painted(sp - DEEP / 4, sp)) * 4;         \
    counted = instructions(before - after);                          \
    return result

#define APART static __attribute__((noinline)) uint32_t

APART do_power_up(uint32_t a)
{
    MEASURED(slave->power_up(state, XCP_STATE_SIZE, a));
}

APART do_byte(uint32_t a)
{
    MEASURED(slave->receive_byte(state, XCP_STATE_SIZE, cal, sizeof cal, meas, sizeof meas, (uint8_t)a));
}

APART do_event(uint32_t a)
{
    MEASURED(slave->event(state, XCP_STATE_SIZE, cal, lent, meas, lent, a, 0x9A9B));
}

APART do_slot(uint32_t a)
{
    (void)a;
    MEASURED(slave->slot(state, XCP_STATE_SIZE, room, sizeof room));
}

static inline uint32_t taken(uint64_t result)
{
    took = XCP_TOOK(result);
    return XCP_RESULT(result);
}

APART do_slice(uint32_t a)
{
    MEASURED(taken(slave->receive(state, XCP_STATE_SIZE, cal, sizeof cal, meas, sizeof meas, slice, a)));
}

static uint32_t (*const doing[CALLS])(uint32_t) = {do_power_up, do_byte, do_event, do_slot, do_slice};

static void note(struct dearest *d, uint32_t which)
{
    if (counted > d->instructions) {
        d->instructions = counted;
        d->stack = depth;
        d->which = which;
        d->made.which = last.which;
        d->made.with = last.with;
        d->made.lent = last.lent;
        copy(d->made.state, last.state);
    }
}

static uint32_t call(int which, uint32_t with)
{
    last.which = which;
    last.with = with;
    last.lent = lent;
    copy(last.state, words);
    uint32_t result = doing[which](with);
    counted -= around[which];
    sum.instructions += counted;
    if (depth >= DEEP)
        fail("a call went deeper than was painted");
    if (depth > sum.stack)
        sum.stack = depth;
    if (depth > deepest[which])
        deepest[which] = depth;
    if (which == BYTE && XCP_NUMBER(result) == XCP_TAKEN && command != CHECKSUM)
        note(&dearest_command, command);
    if (which == SLOT)
        note(&dearest_slot, XCP_SIZE(result));
    return result;
}

static void as_before(uint32_t instructions, uint32_t before)
{
    if (instructions != before)
        fail("the same calls, made again from the same state, took another number of instructions");
}

/* A call once more, for the log. */
static void again(const struct made *m, uint32_t instructions)
{
    uint32_t others = lent;
    copy(words, m->state);
    lent = m->lent;
    slave = &twin;
    doing[m->which](m->with);
    slave = &real;
    lent = others;
    as_before(counted - around[m->which], instructions);
}

static void did_not(const char *what)
{
    say(what);
    say(": ");
    fail("the call did not do what was to be measured");
}

/* Bytes given to the slave, and once more for the log: what all these calls take. The last has to return this number. */
static struct cost given(const char *what, const uint8_t *bytes, uint32_t count, uint32_t number)
{
    static uint32_t found[WORDS];
    struct cost costs[2];
    copy(found, words);
    for (int logged = 0; logged < 2; logged++) {
        copy(words, found);
        slave = logged ? &twin : &real;
        sum.instructions = sum.stack = 0;
        if (XCP_NUMBER(give(bytes, count)) != number || took == 0)
            did_not(what);
        costs[logged] = sum;
    }
    slave = &real;
    as_before(costs[1].instructions, costs[0].instructions);
    return costs[0];
}

/* The end of a line: bytes of stack. */
static void say_stack(uint32_t stack)
{
    say("|");
    say_number(stack, 10);
    say("\n");
}

/* A line of the table; the last call must have returned this number with this value, or something else was measured. */
static void show(const char *what, uint32_t result, uint32_t number, uint32_t value)
{
    uint32_t instructions = counted, stack = depth;
    if (XCP_NUMBER(result) != number || XCP_SIZE(result) != value)
        did_not(what);
    again(&last, instructions);
    say(what);
    say("|");
    say_number(instructions, 10);
    say_stack(stack);
}

/* A line of the dearest of some calls, with the number of that one. */
static void show_dearest(const char *what, const struct dearest *d, uint32_t base, const char *unit)
{
    again(&d->made, d->instructions);
    say(what);
    say("|");
    say_number(d->instructions, 10);
    say(" (");
    say_number(d->which, base);
    say(unit);
    say(")");
    say_stack(d->stack);
}

/* The frame of a slot that was just made: its packet begins so, behind SYNC, LEN and CTR, of which CTR may be a pair. */
static void began(uint8_t first)
{
    if (room[room[2] == ESC ? 4 : 3] != first)
        fail("a slot sent another packet than was to be measured");
}

/* Four lists of two ODTs, all running on event 0, each at its own address. */
static void start_lists(uint8_t fours, uint8_t extension, uint8_t apart)
{
    allocate(4, 2, (uint8_t)(fours + 1));
    for (uint8_t list = 0; list < 4; list++) {
        set_up(list, fours, extension, (uint8_t)(apart * list));
        ASK(0xDE, 1, list, 0);
    }
}

/* A list of so many ODTs, each with so many entries of 4 bytes, started on event 0. */
static void set_up_fours(uint8_t list, uint8_t odts, uint8_t entries, uint8_t extension)
{
    for (uint8_t odt = 0; odt < odts; odt++) {
        ASK(0xE2, 0, list, 0, odt, 0);
        for (uint8_t entry = 0; entry < entries; entry++)
            ASK(0xE1, 0xFF, 4, extension, 0, 0, 0, 0);
    }
    ASK(0xE0, 0x10, list, 0, 0, 0, 1, 0);
    ASK(0xDE, 1, list, 0);
}

/* So many lists, all running on event 0, each with so many ODTs of so many entries of 4 bytes. */
static void start_fours(uint8_t lists, uint8_t odts, uint8_t entries, uint8_t extension)
{
    allocate(lists, odts, entries);
    for (uint8_t list = 0; list < lists; list++)
        set_up_fours(list, odts, entries, extension);
}

/* What one more of these takes in a slice: few of them, then many, inside a message or outside. The line has both counts. */
static void show_one_more(const char *what, int inside, const uint8_t *these, uint32_t size)
{
    enum { FEW = 8, MANY = 48 };
    uint8_t bytes[2 * MANY];
    for (uint32_t i = 0; i < MANY * size; i++)
        bytes[i] = these[i % size];
    call(POWER_UP, 1);
    if (inside)
        give((const uint8_t[]){SYNC, 64, 0}, 3);
    in_slices = 1;
    struct cost few = given(what, bytes, FEW * size, XCP_DONE), many = given(what, bytes, MANY * size, XCP_DONE);
    in_slices = 0;
    say(what);
    say("|");
    say_number(few.instructions, 10);
    say(" ");
    say_number(many.instructions, 10);
    say(" / ");
    say_number(MANY - FEW, 10);
    say_stack(many.stack);
}

static void bytes(void)
{
    const uint8_t byte[] = {0x55}, pair[] = {ESC, 1};
    show("power-up", call(POWER_UP, 1), XCP_DONE, 0);
    show("a byte outside a message", call(BYTE, 0x55), XCP_DONE, 0);
    give((const uint8_t[]){SYNC, 8, 0}, 3);
    show("a byte inside a message", call(BYTE, 0x11), XCP_DONE, 0);
    struct cost of_pair = given("a pair", pair, sizeof pair, XCP_DONE);
    say("an ESC pair inside a message|");
    say_number(of_pair.instructions, 10);
    say_stack(of_pair.stack);
    show_one_more("a byte more outside a message, in a slice", 0, byte, sizeof byte);
    show_one_more("a byte more inside a message, in a slice", 1, byte, sizeof byte);
    show_one_more("an ESC pair more inside a message, in a slice", 1, pair, sizeof pair);
}

/* A frame of this packet, each byte by a call and then all as a slice; its answer must begin so. */
static void show_frame(const char *what, const uint8_t *packet, size_t count, uint8_t first)
{
    for (in_slices = 0; in_slices < 2; in_slices++) {
        ASK(0xF6, 0, 0, 0, 0, 0, 0, 0);
        spell_frame(0, packet, count);
        struct cost whole = given(what, line, on_line, XCP_TAKEN);
        say("a frame of ");
        say(what);
        say(", ");
        say_number(on_line, 10);
        say(in_slices ? " bytes in one slice|" : " bytes, each by a call|");
        say_number(whole.instructions, 10);
        say_stack(whole.stack);
        call(SLOT, 0);
        began(first);
    }
    in_slices = 0;
}

static void frames(void)
{
    static uint8_t packet[64] = {0xFC};
    open_session();
    show_frame("SYNCH", packet, 1, 0xFE);
    packet[0] = 0xF0, packet[1] = 6;
    show_frame("DOWNLOAD of 6", packet, 8, 0xFF);
    packet[1] = 62;
    show_frame("DOWNLOAD of 62", packet, 64, 0xFF);
    for (size_t i = 2; i < sizeof packet; i++)
        packet[i] = SYNC;
    show_frame("DOWNLOAD of 62 that are all pairs", packet, 64, 0xFF);
}

/* A command whose last byte has just returned this: a line of it, and its answer must begin so. */
static void ended(const char *what, uint32_t result, uint8_t first)
{
    show(what, result, XCP_TAKEN, 0);
    call(SLOT, 0);
    began(first);
}

static void commands(void)
{
    open_session();
    ended("the last byte of SYNCH", TELL(0xFC), 0xFE);
    ASK(0xF6, 0, 0, 1, 0, 0, 0, 0);
    ended("the last byte of UPLOAD, 7 bytes", TELL(0xF5, 7), 0xFF);
    ended("the last byte of UPLOAD, 63 bytes", TELL(0xF5, 63), 0xFF);
    ASK(0xF6, 0, 0, 0, 0, 0, 0, 0);
    ended("the last byte of DOWNLOAD, 6 bytes", TELL(0xF0, 6, 1, 2, 3, 4, 5, 6), 0xFF);
    ended("the last byte of DOWNLOAD, 62 bytes", TELL_WITH(62, 0xF0, 62), 0xFF);
    ended("the last byte of SHORT_DOWNLOAD, 56 bytes", TELL_WITH(56, 0xED, 56, 0, 0, 0, 0, 0, 0), 0xFF);
    ASK(0xF6, 0, 0, 1, 0, 0, 0, 0);
    ended("the last byte of BUILD_CHECKSUM, 4,096 bytes", TELL(CHECKSUM, 0, 0, 0, 0x00, 0x10, 0, 0), 0xFF);
    ended("the last byte of CONNECT in a session", TELL(0xFF, 0), 0xFF);
    ASK(0xF8, 0, 1);
    ended("the last byte of UNLOCK, a wrong key", TELL(0xF7, 4, 0, 0, 0, 0), 0xFE);
}

/* What it takes to allocate, each at its most: lists, ODTs, entries, and entries that all others have to make room for. The
 * lists that are freed run, and all their packets wait. */
static void steps_to_lists(void)
{
    static struct dearest squeezed;
    open_session();
    start_fours(8, 2, 8, 1);
    call(EVENT, 0);
    ended("the last byte of FREE_DAQ, eight lists that run", TELL(0xD6), 0xFF);
    ended("the last byte of ALLOC_DAQ, 8 lists", TELL(0xD5, 0, 8, 0), 0xFF);
    ended("the last byte of ALLOC_ODT, 16 ODTs", TELL(0xD4, 0, 0, 0, 16), 0xFF);
    ended("the last byte of ALLOC_ODT_ENTRY, 8 entries", TELL(0xD3, 0, 0, 0, 15, 8), 0xFF);
    ended("the last byte of ALLOC_ODT_ENTRY, 120 entries before 8", TELL(0xD3, 0, 0, 0, 0, 120), 0xFF);
    for (uint8_t entries = 1; entries < 128; entries++) {
        if (XCP_NUMBER(squeeze_in(entries)) != XCP_TAKEN)
            fail("an ALLOC_ODT_ENTRY was not taken");
        note(&squeezed, entries);
        call(SLOT, 0);
        began(0xFF);
    }
    show_dearest("the last byte of the dearest ALLOC_ODT_ENTRY", &squeezed, 10, " entries before the rest");
}

/* What a sum takes follows from its size, but not in step with it: what is left behind whole runs has loops of its own. So every
 * size is tried. */
static void checksums(void)
{
    static struct dearest dearest_sum;
    open_session();
    for (uint32_t n = 1; n <= sizeof meas; n++) {
        ASK(0xF6, 0, 0, 1, 0, 0, 0, 0);
        if (XCP_NUMBER(TELL(CHECKSUM, 0, 0, 0, (uint8_t)n, (uint8_t)(n >> 8), 0, 0)) != XCP_TAKEN)
            fail("a BUILD_CHECKSUM was not taken");
        note(&dearest_sum, n);
        if (XCP_SIZE(call(SLOT, 0)) < 12) /* a sum has eight bytes in its packet, a refusal two */
            fail("a BUILD_CHECKSUM was refused");
    }
    show_dearest("the last byte of the dearest BUILD_CHECKSUM", &dearest_sum, 10, " bytes");
}

/* Events of lists that run, with memories of each length that an entry can tell apart. */
static void lent_each(struct dearest *sampling, uint32_t lists)
{
    for (uint32_t n = 0; n <= 5; n++) {
        lent = n < 5 ? n : sizeof meas;
        if (call(EVENT, 0) != lists << 8)
            fail("an event did not sample all lists");
        note(sampling, lent);
        drain();
    }
}

/* What an event takes follows from what its entries find: in either memory, all their bytes or some or none. The pool's 128
 * entries are in all lists at once, in four full ones or in others of the most ODTs, of which those before other lists count
 * most. */
static void events(void)
{
    static struct dearest sampling;
    open_session();
    for (uint8_t extension = 0; extension < 2; extension++) {
        start_lists(15, extension, 0);
        lent_each(&sampling, 4);
        start_fours(1, 16, 8, extension);
        lent_each(&sampling, 1);
        start_fours(8, 2, 8, extension);
        lent_each(&sampling, 8);
        start_shape(&uneven, extension);
        lent_each(&sampling, 8);
    }
    show_dearest("the dearest event", &sampling, 10, " bytes lent");
}

static void slots(void)
{
    open_session();
    TELL(0xF4, 7, 0, 1, 0, 0, 0, 0);
    show("a slot with an answer of 8 bytes", call(SLOT, 0), XCP_DONE, 12);
    began(0xFF);
    TELL(0xF4, 63, 0, 1, 0, 0, 0, 0);
    show("a slot with an answer of 64 bytes", call(SLOT, 0), XCP_DONE, 68);
    began(0xFF);
    show("an idle slot", call(SLOT, 0), XCP_DONE, 0);
    start_lists(1, 1, 0x10);
    show("an event of four lists of 5 and 7 bytes", call(EVENT, 0), XCP_DONE, 4 << 8);
    show("a slot with a sample of 8 bytes", call(SLOT, 0), XCP_DONE, 14); /* its clock is sent as two pairs */
    began(0x00);
    drain();
    show("an idle slot while four lists run", call(SLOT, 0), XCP_DONE, 0);
    start_lists(15, 1, 0x10);
    show("an event of four full lists", call(EVENT, 0), XCP_DONE, 4 << 8);
    show("a slot with a sample of 64 bytes", call(SLOT, 0), XCP_DONE, 70); /* its clock is sent as two pairs */
    began(0x00);
    drain();
}

/* One long list with all the pool has, as a weighing gun wants it; eight short ones, as a trough reader does. */
static void sizes(void)
{
    open_session();
    start_fours(1, 16, 8, 1);
    show("an event of one list of 16 ODTs, 512 bytes", call(EVENT, 0), XCP_DONE, 1 << 8);
    call(SLOT, 0);
    show("a slot with the second packet of that list, 33 bytes", call(SLOT, 0), XCP_DONE, 37);
    began(0x01);
    for (int packet = 2; packet < 15; packet++)
        call(SLOT, 0);
    show("a slot with the last packet of that list, 33 bytes", call(SLOT, 0), XCP_DONE, 37);
    began(0x0F);
    start_fours(8, 1, 1, 1);
    show("an event of eight lists of 4 bytes", call(EVENT, 0), XCP_DONE, 8 << 8);
    show("a slot with a packet of these, 7 bytes", call(SLOT, 0), XCP_DONE, 13); /* its clock is sent as two pairs */
    began(0x00);
    drain();
    show("an idle slot while eight lists run", call(SLOT, 0), XCP_DONE, 0);
    start_fours(8, 2, 8, 1);
    show("an event of eight lists of 2 ODTs, 512 bytes", call(EVENT, 0), XCP_DONE, 8 << 8);
}

static __attribute__((noinline)) uint32_t timed_loop(uint32_t turns)
{
    uint32_t before = TIMER_VALUE;
    __asm__ volatile(".syntax unified\n1: subs %0, #1\nbne 1b" : "+l"(turns) : : "cc", "memory");
    return instructions(before - TIMER_VALUE);
}

/* The clock has to count every instruction: a loop of two of them, 8,000 turns more than before. */
static void begin(void)
{
    TIMER_RELOAD = 0xFFFFFFFF;
    TIMER_VALUE = 0xFFFFFFFF;
    TIMER_CONTROL = TIMER_ON;
    uint32_t few = timed_loop(1000);
    if (timed_loop(9000) - few != 16000)
        fail("the clock does not count instructions: run with -icount shift=10");
    slave = &empty;
    for (int which = 0; which < CALLS; which++) {
        doing[which](0);
        around[which] = counted - 1; /* that one instruction is a call's own */
    }
    slave = &real;
}

int main(void)
{
    begin();
    for (size_t i = 0; i < sizeof meas; i++)
        meas[i] = (uint8_t)i;
    bytes();
    frames();
    commands();
    steps_to_lists();
    checksums();
    slots();
    sizes();
    events();
    everything();
    show_dearest("the dearest slot", &dearest_slot, 10, " bytes sent");
    show_dearest("the last byte of the dearest other command", &dearest_command, 16, "");
    for (int which = 0; which < CALLS; which++) {
        say("deepest of ");
        say(names[which]);
        say("|");
        say_stack(deepest[which]);
    }
    end(0);
    return 0;
}
