/* A slave on the bench: lent buffers at an edge, frames made and read here, answers compared. */
#ifndef RIG_H
#define RIG_H

#include "check.h"
#include "lend.h"
#include "sizes.h"
#include "xcp_slave.h"

enum { SYNC = 0x9A, ESC = 0x9B, CALIBRATION = 0x01, LISTS = 0x04 };
enum { TEXT = 4 * PACKET }; /* a packet in words, with room to spare */
enum { LONGEST = 8192 };    /* no test lends a longer memory */
enum { SHELF = 4096 };      /* nor as many bytes to receive */

struct rig {
    uint8_t *state, *cal, *meas, *out;
    uint8_t *shelf; /* where a slice of bytes stands while it is lent, at its edge */
    size_t cal_len, meas_len, out_len;
    uint8_t master_ctr; /* of the next frame to the slave; it is not judged */
    uint8_t slave_ctr;  /* that the slave's next frame must carry */
    uint32_t seed;      /* the last one that the slave gave */
    unsigned odts;      /* that each list was last allocated with */
};

/* The four bytes of a number, for the formats below. */
#define LE16(n) (unsigned)((n) & 0xFF), (unsigned)((n) >> 8 & 0xFF)
#define LE32(n) LE16(n), LE16((n) >> 16)

/* Lends the buffers, with patterns in the memories, and powers up. */
void rig_start(struct rig *r, size_t cal_len, size_t meas_len, uint32_t start);
void rig_end(struct rig *r);

/* Lends another memory of this length; what both hold of the old one stays. */
void rig_resize_cal(struct rig *r, size_t len);
void rig_resize_meas(struct rig *r, size_t len);

/* Reads "FF 00 1A*62" into bytes, of which the last is there 62 times; gives their count. */
size_t bytes_of(const char *hex, uint8_t *bytes, size_t room);

/* These bytes as "01 02 03 ", and behind an FF, as the answer that has them; until the next one. */
const char *hex_of(const uint8_t *bytes, size_t count);
const char *answer_of(const uint8_t *bytes, size_t count);

/* Makes the frame of a packet; gives its size. */
size_t frame_of(uint8_t ctr, const uint8_t *packet, size_t len, uint8_t *frame);

/* One byte to the slave; gives the number, and checks that nothing is added to it. */
uint32_t feed(struct rig *r, uint8_t byte);

/* Bytes to the slave as one slice; gives what the call returns, and checks that nothing is added to
 * its number. */
uint64_t feed_slice(struct rig *r, const uint8_t *bytes, size_t count);

/* A packet as a whole frame; its last byte's number. Earlier bytes after SYNC must give 0. */
uint32_t give_bytes(struct rig *r, const uint8_t *packet, size_t len);
uint32_t give(struct rig *r, const char *format, ...);

/* One slot; gives the packet's length, 0 for none. Frame, CTR and the rest of out are checked. */
size_t slot(struct rig *r, uint8_t packet[PACKET]);

/* Slots until nothing waits: no more than frames can wait. The last packet is left in packet. */
void drain(struct rig *r, uint8_t packet[PACKET]);

/* An event; gives 256 times the sampled lists plus the missed. */
uint32_t event(struct rig *r, uint32_t number, uint16_t clock);

/* A command that must be taken, and whose answer must be in the next slot. */
void ask(struct rig *r, const char *answer, const char *format, ...);
#define ASK(r, ...) (HERE(), ask(r, __VA_ARGS__))

/* A slot that must send this packet, or nothing for "". */
void sends(struct rig *r, const char *format, ...);
#define SENDS(r, ...) (HERE(), sends(r, __VA_ARGS__))

/* A slot whose frame must be this, byte for byte. */
void sends_frame(struct rig *r, const char *frame);
#define SENDS_FRAME(r, frame) (HERE(), sends_frame(r, frame))

/* Wire bytes, and one digit for the number that each must return. */
void wire(struct rig *r, const char *bytes, const char *numbers);
#define WIRE(r, bytes, numbers) (HERE(), wire(r, bytes, numbers))

/* What CONNECT is answered. */
#define CONNECTED "FF 05 00 40 40 00 01 01"

uint32_t key_of(uint32_t seed, uint8_t resource);
void get_seed(struct rig *r, uint8_t resource);
void unlock(struct rig *r, uint8_t resource);

/* One of the three keys that may be wrong: a seed, and its key with one wrong bit. That ends the
 * session, and CONNECT begins another. */
void spend_key(struct rig *r, uint8_t resource);

/* FREE_DAQ, and then so many lists, with so many ODTs each, with so many entries each; or as many
 * as most tests have. All must be done. */
void allocate(struct rig *r, unsigned lists, unsigned odts, unsigned count);
void allocate_usual(struct rig *r);

/* An entry through SET_DAQ_PTR and WRITE_DAQ; a list's mode; a start. All must be done. */
void entry(struct rig *r, unsigned list, unsigned odt, unsigned at, unsigned size, unsigned ext,
           uint32_t address);
/* Entries of an ODT from 0 on, for so many bytes from this address on: of 4 each, the last of the
 * rest. */
void entries(struct rig *r, unsigned list, unsigned odt, unsigned size, unsigned ext,
             uint32_t address);
void mode(struct rig *r, unsigned list, unsigned event_number);
void start(struct rig *r, unsigned list);

#endif
