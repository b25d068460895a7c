#include "probe.h"
#include "layout.h"

#include <stdarg.h>
#include <stdio.h>
#include <string.h>

static void write_down(struct seen *seen, const uint8_t *bytes, size_t len)
{
    int fits = seen->len + len + 1 <= sizeof seen->bytes;
    insist("room to write down", 1, (uint32_t)fits);
    if (!fits)
        return;
    seen->bytes[seen->len++] = (uint8_t)len;
    memcpy(seen->bytes + seen->len, bytes, len);
    seen->len += len;
}

/* Slots until nothing waits. Answers and list packets are both written down. */
static void drain_into(struct rig *r, struct seen *seen)
{
    uint8_t packet[PACKET];
    size_t len;
    for (int slots = 0; slots <= POOL_ODTS && (len = slot(r, packet)) > 0; slots++)
        write_down(seen, packet, len);
}

static void both_events(struct rig *r, struct seen *seen)
{
    for (unsigned number = 0; number < 2; number++) {
        uint32_t counts = event(r, number, (uint16_t)(0x1100 + number));
        uint8_t noted[] = {(uint8_t)(counts >> 8), (uint8_t)counts};
        write_down(seen, noted, sizeof noted);
        drain_into(r, seen);
    }
}

static void one_command(struct rig *r, struct seen *seen, const char *command)
{
    uint8_t number = (uint8_t)give(r, "%s", command);
    write_down(seen, &number, 1);
    drain_into(r, seen);
}

/* The same command to each list of the pool, with its number in place of LL. */
static void each_list(struct rig *r, struct seen *seen, const char *command)
{
    char text[TEXT];
    for (unsigned list = 0; list < POOL_LISTS; list++) {
        const char *at = strstr(command, "LL");
        snprintf(text, sizeof text, "%.*s%02X%s", (int)(at - command), command, list, at + 2);
        one_command(r, seen, text);
    }
}

/* Commands of one exchange, each with its number and what then leaves. "EV" stands for an event of
 * each number; "KEY" for an UNLOCK with the key of the last seed for that resource; "STEPS" for as
 * many WRITE_DAQs as an ODT has entries, of which some find the pointer unset behind the last. */
static void step(struct rig *r, struct seen *seen, const char *command)
{
    if (strstr(command, "LL") != NULL) {
        each_list(r, seen, command);
    } else if (strcmp(command, "EV") == 0) {
        both_events(r, seen);
    } else if (strcmp(command, "STEPS") == 0) {
        for (int at = 0; at < ENTRY_COUNT; at++)
            one_command(r, seen, "E1 FF 00 00 00 00 00 00");
    } else if (strncmp(command, "KEY", 3) == 0) {
        uint32_t key = key_of(r->seed, command[3] == '1' ? CALIBRATION : LISTS);
        char text[TEXT];
        snprintf(text, sizeof text, "F7 04 %02X %02X %02X %02X", LE32(key));
        one_command(r, seen, text);
    } else {
        one_command(r, seen, command);
    }
}

/* Exchanges that show one thing each: status and MTA; how many lists there are, and whether others
 * can be allocated; which can still get ODTs, and which ODTs entries; what the pointer points at,
 * and all entries; how far it is to its ODT's last entry; the modes; the lists as they run; the
 * selections, started and stopped; which lists can start; the seed; the generator; how many wrong
 * keys it takes until no seed is given. */
static const char *const exchanges[][10] = {
    {"FD", "F5 07", "F5 01", NULL},
    {"F0 01 EE", "F4 07 00 00 00 00 00 00", NULL},
    {"DA", "DE 02 LL 00", "D5 00 01 00", "DA", NULL},
    {"D4 00 LL 00 01", NULL},
    {"DD 00", "D3 00 LL 00 00 01", "D3 00 LL 00 01 01", NULL},
    {"E1 FF 01 01 05 00 00 00", "DD 00", "E0 10 LL 00 00 00 01 00", "DE 01 LL 00", "EV", NULL},
    {"DD 00", "STEPS", NULL},
    {"DD 00", "E2 00 00 00 00 00", "E1 FF 01 01 05 00 00 00", "E2 00 01 00 00 00",
     "E1 FF 01 01 05 00 00 00", "DE 01 LL 00", "EV", NULL},
    {"EV", "FD", NULL},
    {"DD 01", "FD", "EV", NULL},
    {"DD 02", "FD", "EV", NULL},
    {"DE 01 LL 00", "EV", NULL},
    {"KEY1", "FD", NULL},
    {"KEY4", "FD", NULL},
    {"F8 00 01", NULL},
    {"F8 00 04", NULL},
    {"FF 00", "F8 00 01", "F7 04 00 00 00 00", "FF 00", "F8 00 01", "F7 04 00 00 00 00", "FF 00",
     "F8 00 01", NULL},
};

static void run(struct rig *r, struct seen *seen, const char *const *commands)
{
    static uint8_t cal[LONGEST];
    struct rig kept = *r;
    uint8_t state[XCP_STATE_SIZE];
    memcpy(state, r->state, sizeof state);
    memcpy(cal, r->cal, r->cal_len);
    while (*commands != NULL)
        step(r, seen, *commands++);
    *r = kept;
    memcpy(r->state, state, sizeof state);
    memcpy(r->cal, cal, r->cal_len);
}

void probe(struct rig *r, struct seen *seen)
{
    check_quietly();
    for (size_t i = 0; i < sizeof exchanges / sizeof exchanges[0]; i++) {
        struct rig kept = *r;
        uint8_t state[XCP_STATE_SIZE];
        memcpy(state, r->state, sizeof state);
        drain_into(r, seen);
        run(r, seen, exchanges[i]);
        *r = kept;
        memcpy(r->state, state, sizeof state);
    }
    check_loudly();
}

/* Both memories and the state as they are, for a comparison later. */
struct kept {
    uint8_t cal[LONGEST], meas[LONGEST], state[XCP_STATE_SIZE];
};

static void keep(const struct rig *r, struct kept *k)
{
    memcpy(k->cal, r->cal, r->cal_len);
    memcpy(k->meas, r->meas, r->meas_len);
    memcpy(k->state, r->state, XCP_STATE_SIZE);
}

static void compare(const struct rig *r, const struct kept *k)
{
    check_bytes("calibration memory after a refusal", k->cal, r->cal_len, r->cal, r->cal_len);
    check_bytes("measured memory after a refusal", k->meas, r->meas_len, r->meas, r->meas_len);
    check_bytes("generator and wrong keys after a refusal", k->state, WRONG_KEYS_AT + 1, r->state,
                WRONG_KEYS_AT + 1);
    check_bytes("the session's bytes after a refusal", k->state + SESSION_AT,
                XCP_STATE_SIZE - SESSION_AT, r->state + SESSION_AT, XCP_STATE_SIZE - SESSION_AT);
}

void refused(struct rig *r, const char *answer, const char *format, ...)
{
    static struct seen before, after;
    static struct kept kept;
    char packet[TEXT];
    va_list values;
    va_start(values, format);
    insist("the text fits", 1, vsnprintf(packet, sizeof packet, format, values) < TEXT);
    va_end(values);
    before.len = after.len = 0;
    keep(r, &kept);
    probe(r, &before);
    check_note("%s", packet);
    ask(r, answer, "%s", packet);
    probe(r, &after);
    check_bytes("what shows after a refusal", before.bytes, before.len, after.bytes, after.len);
    compare(r, &kept);
    check_note("%s", "");
}

void dropped(struct rig *r, const char *bytes, const char *numbers)
{
    static struct seen before, after;
    static struct kept kept;
    before.len = after.len = 0;
    keep(r, &kept);
    probe(r, &before);
    wire(r, bytes, numbers);
    check_note("%s", bytes);
    probe(r, &after);
    check_bytes("what shows after a drop", before.bytes, before.len, after.bytes, after.len);
    compare(r, &kept);
    check_note("%s", "");
}
