#include "host.h"
#include "layout.h"

/* Three wrong keys since power-up, and it stays shut: no seed is given until the next power-up. */

/* UNLOCK with a key that no seed of these tests has. */
#define NO_KEY "F7 04 00 00 00 00"

static const uint8_t resources[] = {CALIBRATION, LISTS};

/* Commands of what the keys open. */
static const char *const locked[] = {
    "F0 01 00", "ED 01 00 00 13 00 00 00 00", "E3 00 00 00", "E2 00 00 00 00 00",
    "E1 FF 00 00 00 00 00 00", "E0 10 00 00 00 00 01 00", "DE 00 00 00", "DD 00", "DA", "D9",
    "D6", "D5 00 01 00", "D4 00 00 00 01", "D3 00 00 00 00 01",
};

/* In a new session no seed is to be had, so nothing can be unlocked; and reading goes on. */
static void stays_shut(struct rig *r)
{
    ASK(r, "FF 00 05 00 00 00", "FD");
    for (size_t i = 0; i < COUNT(resources); i++)
        ASK(r, "FE 25", "F8 00 %02X", resources[i]);
    ASK(r, "FE 21", "F8 00");
    ASK(r, "FE 29", NO_KEY);
    ASK(r, "FE 21", "F7");
    NUMBER("reads", 1, give(r, "F4 02 00 00 10 00 00 00"));
    SENDS(r, "FF %02X %02X", r->cal[0x10], r->cal[0x11]);
    NUMBER("reads on", 1, give(r, "F5 01"));
    SENDS(r, "FF %02X", r->cal[0x12]);
    uint8_t kept = r->cal[0x13]; /* the MTA is here: only the lock stands before a write */
    for (size_t i = 0; i < COUNT(locked); i++)
        ASK(r, "FE 25", "%s", locked[i]);
    NUMBER("nothing was written", kept, r->cal[0x13]);
    ASK(r, "FF 00 05 00 00 00", "FD");
}

/* Right keys, and seeds that nobody used. */
static void right_keys(struct rig *r)
{
    HERE();
    unlock(r, CALIBRATION);
    unlock(r, LISTS);
    ASK(r, "FE 29", "F7 04 %02X %02X %02X %02X", LE32(key_of(r->seed, LISTS))); /* used up */
    ASK(r, "FF 00", "F8 00 01");
    ASK(r, CONNECTED, "FF 00"); /* inside the session */
    HERE();
    get_seed(r, LISTS);
    get_seed(r, CALIBRATION);
    ASK(r, "FF", "FE");
    NUMBER("no session, no key", 2, give(r, NO_KEY));
    ASK(r, CONNECTED, "FF 00");
}

/* Refused with a seed out and without one; and of 25 there are others than a wrong key's. */
static void refusals(struct rig *r)
{
    ASK(r, "FE 29", NO_KEY);
    HERE();
    get_seed(r, CALIBRATION);
    ASK(r, "FE 21", "F7");
    ASK(r, "FE 22", "F7 03 00 00 00");
    ASK(r, "FE 22", "F7 05 00 00 00 00 00");
    ASK(r, "FE 21", "F7 04 00 00 00");
    ASK(r, "FE 21", "F8 00");
    ASK(r, "FE 29", "F8 01 01");
    ASK(r, "FE 22", "F8 00 05");
    ASK(r, "FE 22", "FF 01");
    for (size_t i = 0; i < COUNT(locked); i++)
        ASK(r, "FE 25", "%s", locked[i]);
}

/* Wrong keys that the slave never reads: each frame is damaged, or an answer waits. */
static void unread(struct rig *r)
{
    HERE();
    get_seed(r, LISTS);
    WIRE(r, "9A 06 00 F7 04 00 00 00 00 02", "0000000005");
    WIRE(r, "9A 06 00 F7 04 00 00 00 00 9A", "0000000007");
    WIRE(r, "06 00 F7 9B 02 00 00 00 00 01", "0000400000");
    WIRE(r, "9A 41 00 F7 04 00 00 00 00 3C", "0300000000");
    NUMBER("a command is taken", 1, give(r, "FC"));
    NUMBER("a wrong key behind it is not", 6, give(r, NO_KEY));
    SENDS(r, "FE 00");
    ASK(r, "FF 01", "F7 04 %02X %02X %02X %02X", LE32(key_of(r->seed, LISTS)));
    ASK(r, CONNECTED, "FF 00");
}

/* Calls that are refused, a power-up of every wrong size among them; and an event, an idle slot. */
static void other_calls(struct rig *r)
{
    uint8_t *longer = lend(XCP_STATE_SIZE + 1, 0);
    memcpy(longer, r->state, XCP_STATE_SIZE);
    NUMBER("too long", 655360, xcp_power_up(longer, XCP_STATE_SIZE + 1, 1));
    memcpy(r->state, longer, XCP_STATE_SIZE);
    lend_end(longer, XCP_STATE_SIZE + 1);
    for (size_t size = 0; size < XCP_STATE_SIZE; size++)
        NUMBER("too short", 655360, xcp_power_up(r->state, size, 1));
    NUMBER("no room", 589824, xcp_slot(r->state, XCP_STATE_SIZE, r->out, XCP_SLOT_ROOM - 1));
    NUMBER("no such event", 0, event(r, 2, 1));
    NUMBER("no list runs", 0, event(r, 0, 1));
    SENDS(r, "");
}

/* All that is no wrong key: it neither counts nor clears the count. */
static void no_wrong_key(struct rig *r)
{
    right_keys(r);
    refusals(r);
    unread(r);
    other_calls(r);
}

/* Three wrong keys, each for either resource, with all of that between: it gives seeds and takes
 * right keys after two of them, and not after three. */
static void third_key_shuts(void)
{
    for (unsigned which = 0; which < 8; which++) {
        struct rig r;
        connected(&r);
        for (unsigned key = 0; key < 3; key++) {
            check_note("keys %u, key %u", which, key);
            no_wrong_key(&r);
            spend_key(&r, resources[which >> key & 1]);
        }
        stays_shut(&r);
        check_note("%s", "");
        rig_end(&r);
    }
}

/* Every mode and resource; and so often that a count of tries would have come round. */
static void every_get_seed(void)
{
    static const char *const formats[] = {"F8 %02X 01", "F8 %02X 04", "F8 %02X 00", "F8 00 %02X",
                                          "F8 01 %02X", "F8 02 %02X", "F8 FF %02X"};
    struct rig r;
    shut(&r);
    for (unsigned value = 0; value < 256; value++) {
        for (size_t i = 0; i < COUNT(formats); i++)
            ASK(&r, "FE 25", formats[i], value);
        ASK(&r, "FE 29", NO_KEY);
    }
    stays_shut(&r);
    rig_end(&r);
}

/* Neither sessions nor damage nor refused calls open it. */
static void nothing_else_opens(void)
{
    struct rig r;
    shut(&r);
    ASK(&r, CONNECTED, "FF 00");
    stays_shut(&r);
    ASK(&r, "FF", "FE");
    NUMBER("no session", 2, give(&r, "F8 00 01"));
    ASK(&r, CONNECTED, "FF 00");
    stays_shut(&r);
    WIRE(&r, "9A 03 00 F8 00 01 FD", "0000005");
    WIRE(&r, "9A 03 00 F8 00 9A", "000007");
    other_calls(&r);
    stays_shut(&r);
    rig_end(&r);
}

/* A power-up that is made does, however many were wrong: then it takes three again. */
static void power_up_opens(void)
{
    for (unsigned spent = 0; spent <= 3; spent++) {
        struct rig r;
        check_note("after %u wrong keys", spent);
        connected(&r);
        for (unsigned key = 0; key < spent; key++)
            spend_key(&r, LISTS);
        NUMBER("power-up", 0, xcp_power_up(r.state, XCP_STATE_SIZE, 1));
        r.slave_ctr = 0;
        ASK(&r, CONNECTED, "FF 00");
        for (unsigned key = 0; key < 3; key++) {
            right_keys(&r);
            spend_key(&r, CALIBRATION);
        }
        stays_shut(&r);
        check_note("%s", "");
        rig_end(&r);
    }
}

/* A seed is out, and the count's byte holds this. */
static void seeded_at(struct rig *r, uint8_t resource, unsigned count)
{
    connected(r);
    get_seed(r, resource);
    r->state[WRONG_KEYS_AT] = (uint8_t)count;
}

static void below_three(uint8_t resource, unsigned count)
{
    struct rig r;
    seeded_at(&r, resource, count);
    ASK(&r, resource == CALIBRATION ? "FF 04" : "FF 01", "F7 04 %02X %02X %02X %02X",
        LE32(key_of(r.seed, resource)));
    NUMBER("a right key leaves the count", count, r.state[WRONG_KEYS_AT]);
    rig_end(&r);
    seeded_at(&r, resource, count);
    HERE();
    get_seed(&r, resource);
    NUMBER("another seed leaves the count", count, r.state[WRONG_KEYS_AT]);
    ASK(&r, "FE 25", NO_KEY);
    NUMBER("a wrong key counts", count + 1, r.state[WRONG_KEYS_AT]);
    rig_end(&r);
}

/* Refused so, and of the state only the reader's place and the answer change. */
static void only_answers(struct rig *r, const char *answer, const char *format, uint32_t number)
{
    uint8_t before[XCP_STATE_SIZE];
    memcpy(before, r->state, sizeof before);
    insist("taken", 1, give(r, format, LE32(number)));
    check_bytes("state up to the reader", before, READER_AT, r->state, READER_AT);
    check_bytes("the session", before + SESSION_AT, XCP_STATE_SIZE - SESSION_AT,
                r->state + SESSION_AT, XCP_STATE_SIZE - SESSION_AT);
    sends(r, answer);
}

static void from_three_on(uint8_t resource, unsigned count)
{
    static const char unlock_with[] = "F7 04 %02X %02X %02X %02X";
    struct rig r;
    uint32_t key;
    HERE();
    seeded_at(&r, resource, count);
    key = key_of(r.seed, resource);
    only_answers(&r, "FE 25", "F8 00 %02X", resource);
    only_answers(&r, "FE 29", unlock_with, key);
    only_answers(&r, "FE 29", unlock_with, key ^ 1);
    stays_shut(&r);
    rig_end(&r);
}

/* Whatever the count's byte holds, with a seed out: no call leads to more than 3, or to a seed at
 * 3, but a state may say so. */
static void every_count(void)
{
    for (unsigned count = 0; count < 256; count++)
        for (size_t i = 0; i < COUNT(resources); i++) {
            check_note("count %u, resource %02X", count, resources[i]);
            if (count < 3)
                below_three(resources[i], count);
            else
                from_three_on(resources[i], count);
        }
    check_note("%s", "");
}

void test_shut(void)
{
    third_key_shuts();
    every_get_seed();
    nothing_else_opens();
    power_up_opens();
    every_count();
}
