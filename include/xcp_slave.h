/* The C interface of the XCP slave, libslave.a: C99 or later, and C++, on every processor that the
 * archive is made for.
 *
 * The slave keeps no memory of its own and calls nothing. Each call is lent what it works on, for
 * that call only: the state, the two memories, received bytes, the room for a frame. Another
 * address at the next call is fine (a copy of a state is a slave too), and so are a memory of
 * another length, any alignment, and NULL with length 0. (Code for a Cortex-M4 uses words at odd
 * addresses; where these are trapped, build with UNALIGNED=no.)
 *
 * What a host owes, because no call can test it:
 *  - Every pointer and length name real memory, and no two slices of one call overlap: received
 *    bytes lie neither in the state nor in a memory.
 *  - No call begins while another on the same state runs. An interrupt may make calls only if it is
 *    masked around every other one; let it fill a ring buffer instead, which the main loop drains.
 *  - While a call runs, nothing else (an interrupt, DMA, a second core) writes what it was lent,
 *    nor reads what it may write: the state, the room, and cal in xcp_receive and
 *    xcp_receive_byte. Of a ring that is being filled lend only what has come, and let nothing be
 *    written over it before the call returns. What an interrupt reads of cal it reads from a copy
 *    that the main loop makes between calls, or it is masked around each call.
 * All else may be anything: every call has a defined outcome, and each refusal its number (below).
 *
 * Seed and key are a guard against mistakes. They are no security: who listens can compute the key.
 *
 * The longest call is xcp_event where it samples the whole pool, 512 bytes in 128 entries: on a
 * Cortex-M4 (-Os) it takes up to 7,448 instructions (lists of a few bytes, a sixth of that). The
 * last byte of BUILD_CHECKSUM, which reads 4,096 bytes of memory, takes up to 5,001; no other call
 * takes more than that. xcp_receive takes the time of all its bytes, of which only the last can end
 * a command: how many they are is the host's choice. Let the ring buffer hold what can arrive in
 * that time. Bytes lost there are damage on the line like any other: the message is dropped, as far
 * as one checksum byte can tell.
 *
 * The main loop in short; examples/host.c has it whole, and docs/PORTING.md says why:
 *
 *   for what has come until now, a run      r = xcp_receive(state, ..., bytes, how many);
 *   of the ring, two where it wraps:        XCP_TOOK(r) of them are done with, the rest comes next
 *   if a weight is ready:                   put it into the measured values; xcp_event(state, ...)
 *   if the last frame has left:             size = XCP_SIZE(xcp_slot(state, ..., room, ...));
 *                                           if it is not 0, send so many bytes of room
 *   if one of these gave number 10:         xcp_power_up(state, ..., a fresh number), and give the
 *                                           slave the bytes that it did not take again; else feed
 *                                           the watchdog
 *
 * The room is the line's until the last byte has left: with DMA it is not lent again before, and
 * does not lie on the stack.
 *
 * Number 10 at run time says that something else has written over the state: no byte from the line
 * brings it about, and no call but xcp_power_up mends it. The price of that call: the session is
 * gone, the tool connects anew, and wrong keys are counted from 0 again, three more tries. A host
 * that comes to it in round after round has a fault elsewhere: it does not feed the watchdog then.
 */
#ifndef XCP_SLAVE_H
#define XCP_SLAVE_H

#include <stdint.h>

#ifdef __cplusplus
extern "C" {
#endif

/* Of this header and the archives made with it; CHANGELOG.md says what each version changed. */
#define XCP_SLAVE_VERSION "1.5.0"

/* The state's one size: a shorter or longer buffer is refused. */
#define XCP_STATE_SIZE 1486

/* The room that a slot needs, whatever waits: one SYNC, and each of the 67 bytes of the longest
 * message as a pair. */
#define XCP_SLOT_ROOM 135

/* What a call returns is its number and, when it is done, a value beside it. */
#define XCP_NUMBER(r) ((uint32_t)(r) >> 16)           /* of any call, xcp_receive's 64 bits too */
#define XCP_SIZE(r) ((uint32_t)(r) & 0xFFFFu)         /* a slot: bytes of the frame, 0 for none */
#define XCP_SAMPLED(r) (((uint32_t)(r) >> 8) & 0xFFu) /* an event: lists that sampled, up to 8 */
#define XCP_MISSED(r) ((uint32_t)(r) & 0xFFu)         /* an event: lists that missed it, up to 8 */
#define XCP_RESULT(r) ((uint32_t)(r))                 /* xcp_receive: as the byte call's result */
#define XCP_TOOK(r) ((uint32_t)((uint64_t)(r) >> 32)) /* xcp_receive: how many bytes it took */

/* The numbers. Only 1 takes a command; 2 to 7 drop a message; 8 to 10 change nothing at all. What
 * is said of a byte xcp_receive says of the last one that it took. */
enum xcp_number {
    XCP_DONE = 0,         /* a byte: nothing to report; an event, slot or power-up: done */
    XCP_TAKEN = 1,        /* a byte: a command was taken, its answer (FF or FE) waits for a slot */
    XCP_NO_SESSION = 2,   /* a byte: a good message, but no session and no good CONNECT: silence */
    XCP_BAD_LENGTH = 3,   /* a byte: LEN is 0 or above 64 */
    XCP_BAD_ESCAPE = 4,   /* a byte: ESC was followed by neither 00, 01 nor SYNC */
    XCP_BAD_CHECKSUM = 5, /* a byte: the checksum differs */
    XCP_ANSWER_WAITS = 6, /* a byte: a good message, but an answer waits: dropped unread */
    XCP_CUT_OFF = 7,      /* a byte: this SYNC cut off a message; it has begun the next one */
    XCP_BAD_EVENT = 8,    /* an event: its number is above 1 */
    XCP_NO_ROOM = 9,      /* a slot: lent fewer than XCP_SLOT_ROOM bytes */
    XCP_BAD_STATE = 10    /* any call: the state has the wrong size, was never powered up or is
                             damaged: power up again */
};

/* A length has 64 bits on every processor; a narrower size_t widens by itself at the call. */

/* Makes the state anew, whatever it held: no session, nothing waits, the slave's CTR is 0. Seeds
 * follow from start; a start of 0 becomes a default. Refuses with 10 by the size alone. After three
 * wrong keys no seed is given until this call is made: until then even a tool that has the right
 * key finds it shut. Every call gives three more tries: beside number 10, the watchdog and the
 * power switch let nothing lead to it, least of all what a tool sends. */
uint32_t xcp_power_up(uint8_t *state, uint64_t state_len, uint32_t start);

/* Takes one byte from the wire. At most the first 4,096 bytes of each memory can be addressed:
 * cal is read and, once it is unlocked, written; meas is only read. Returns 0 to 7, or 10. */
uint32_t xcp_receive_byte(uint8_t *state, uint64_t state_len, uint8_t *cal, uint64_t cal_len,
                          const uint8_t *meas, uint64_t meas_len, uint8_t byte);

/* Takes bytes from the wire up to and with the first whose number is not 0, or all of them: the
 * call above repeated, in its result and in all that it leaves. Returns that number and how many
 * bytes it took, 4,294,967,295 at most; the host goes on behind them. Number 10 takes none. An
 * empty slice, NULL with length 0 too, changes nothing: 0, or 10. */
uint64_t xcp_receive(uint8_t *state, uint64_t state_len, uint8_t *cal, uint64_t cal_len,
                     const uint8_t *meas, uint64_t meas_len, const uint8_t *bytes,
                     uint64_t bytes_len);

/* Event 0 or 1: each running list of that event takes its sample within this call, or misses it
 * while packets of its last one are unsent. How many lists there are, and what they have, is the
 * tool's: up to 8 lists, with 16 packets and 128 entries in all. Returns 0 with both counts, 8, or
 * 10. */
uint32_t xcp_event(uint8_t *state, uint64_t state_len, const uint8_t *cal, uint64_t cal_len,
                   const uint8_t *meas, uint64_t meas_len, uint32_t event, uint16_t clock);

/* Writes the next frame to send, if one waits, at the front of out; the rest of out stays. That
 * frame counts as sent. Returns 0 with the frame's size, 9, or 10. */
uint32_t xcp_slot(uint8_t *state, uint64_t state_len, uint8_t *out, uint64_t out_len);

/* XCP_STATE_SIZE as the archive has it, for a check at start-up. */
uint32_t xcp_state_size(void);

#ifdef __cplusplus
}
#endif

#endif
