#include "host.h"

/* One session from end to end, as a setting tool runs it. */
static void whole_session(void)
{
    struct rig r;
    powered(&r);
    ASK(&r, CONNECTED, "FF 00");
    ASK(&r, "FF 00 05 00 00 00", "FD");
    ASK(&r, "FF 04 21 20 04 00", "F8 00 01");
    ASK(&r, "FF 04", "F7 04 00 7F F0 04");
    ASK(&r, "FF 00 04 00 00 00", "FD");
    ASK(&r, "FF 04 01 06 08 04", "F8 00 04");
    ASK(&r, "FF 00", "F7 04 %02X %02X %02X %02X", LE32(key_of(0x04080601, LISTS)));
    ASK(&r, "FF 00 00 00 00 00", "FD");
    ASK(&r, "FF", "F6 00 00 00 10 00 00 00");
    ASK(&r, "FF", "F0 06 11 22 33 44 55 9A");
    ASK(&r, "FF", "F0 02 9B 77");
    BYTES("memory", (const uint8_t *)"\x11\x22\x33\x44\x55\x9A\x9B\x77", 8, r.cal + 16, 8);
    ASK(&r, "FF", "ED 38 00 00 18 00 00 00 9A*28 9B*28"); /* right behind them */
    ASK(&r, "FF", "F6 00 00 00 10 00 00 00");
    ASK(&r, "FF 11 22 33 44 55 9A 9B 77 9A*28 9B*27", "F5 3F");
    ASK(&r, "FF 9B", "F5 01");
    ASK(&r, "FF 33 44 55 9A", "F4 04 00 00 12 00 00 00");
    ASK(&r, "FF", "F6 00 00 00 10 00 00 00");
    ASK(&r, "FF 02 00 00 AB 02 00 00", "F3 00 00 00 08 00 00 00");
    ASK(&r, "FE 00", "FC");
    ASK(&r, "FF", "FE");
    NUMBER("after the end", 2, give(&r, "FD"));
    SENDS(&r, "");
    rig_end(&r);
}

/* Whole messages with no session: all but a good CONNECT are met with silence. */
static void silence(void)
{
    struct rig r;
    powered(&r);
    for (unsigned code = 0; code < 256; code++)
        for (size_t len = 1; len <= PACKET; len++) {
            uint8_t packet[PACKET] = {(uint8_t)code, 1, 1};
            check_note("code %02X, %zu bytes", code, len);
            NUMBER("no session", 2, give_bytes(&r, packet, len));
        }
    check_note("%s", "");
    for (unsigned connect_mode = 1; connect_mode < 256; connect_mode++)
        NUMBER("CONNECT of another mode", 2, give(&r, "FF %02X", connect_mode));
    NUMBER("CONNECT too short", 2, give(&r, "FF"));
    SENDS(&r, "");
    ASK(&r, CONNECTED, "FF 00 01*62"); /* more bytes are ignored */
    rig_end(&r);
}

static void answer_waits(void)
{
    struct rig r;
    connected(&r);
    NUMBER("taken", 1, give(&r, "FD"));
    NUMBER("SYNCH has no right of way", 6, give(&r, "FC"));
    NUMBER("nor has CONNECT", 6, give(&r, "FF 00"));
    NUMBER("nor an unknown code", 6, give(&r, "00"));
    DROPPED(&r, "9A 01 01 FC FF", "00005"); /* 5 before 6 */
    DROPPED(&r, "9A 01 01 FE 00", "00006"); /* DISCONNECT is not done */
    SENDS(&r, "FF 00 05 00 00 00");
    SENDS(&r, "");
    NUMBER("DISCONNECT", 1, give(&r, "FE"));
    DROPPED(&r, "9A 02 00 FF 00 01", "000006"); /* 6 before 2, and CONNECT too */
    DROPPED(&r, "9A 01 01 FC FE", "00006");
    SENDS(&r, "FF"); /* leaves after the end */
    NUMBER("then silence", 2, give(&r, "FC"));
    ASK(&r, CONNECTED, "FF 00");
    rig_end(&r);
}

static void wrong_key(void)
{
    struct rig r;
    connected(&r);
    unlock(&r, LISTS);
    get_seed(&r, CALIBRATION);
    NUMBER("the other resource's key", 1, give(&r, "F7 04 %02X %02X %02X %02X",
                                               LE32(key_of(r.seed, LISTS))));
    NUMBER("CONNECT has to wait for its answer", 6, give(&r, "FF 00"));
    SENDS(&r, "FE 25");
    NUMBER("the session has ended", 2, give(&r, "FD"));
    NUMBER("and only CONNECT opens one", 2, give(&r, "F7 04 00 00 00 00"));
    ASK(&r, CONNECTED, "FF 00");
    ASK(&r, "FF 00 05 00 00 00", "FD"); /* lists are locked again */
    ASK(&r, "FE 29", "F7 04 00 00 00 00"); /* and no seed is out */
    rig_end(&r);
}

/* A seed is out, lists are open and allocated, MTA and pointer are set. */
static void key_wanted(struct rig *r)
{
    connected(r);
    unlock(r, LISTS);
    get_seed(r, CALIBRATION);
    ask(r, "FF", "F6 00 00 01 60 00 00 00");
    allocate_usual(r);
    ask(r, "FF", "E2 00 01 00 01 02");
}

/* What ends or renews a session; a wrong key also counts. */
static const struct {
    int line;
    void (*situation)(struct rig *);
    const char *command;
    int counts;
} endings[] = {
    {__LINE__, busy, "FF 00", 0},
    {__LINE__, key_wanted, "FF 00", 0},
    {__LINE__, busy, "FE", 0},
    {__LINE__, key_wanted, "FE", 0},
    {__LINE__, key_wanted, "F7 04 00 00 00 00", 1},
};

/* What a session shows as it is, and with both resources open: a lock hides what it guards. Then
 * with lists, of which nothing that was there before may be left. */
static void probe_open(struct rig *r, struct seen *seen)
{
    seen->len = 0;
    probe(r, seen);
    unlock(r, CALIBRATION);
    unlock(r, LISTS);
    probe(r, seen);
    allocate_usual(r);
    probe(r, seen);
}

/* What a new session shows after two seeds, as many as each situation above has had; one of them
 * had a wrong key, if so many count. */
static void probe_fresh(struct seen *fresh, int counted)
{
    struct rig r;
    connected(&r);
    if (counted)
        spend_key(&r, LISTS);
    else
        get_seed(&r, LISTS);
    get_seed(&r, LISTS);
    ASK(&r, "FF", "FE");
    ASK(&r, CONNECTED, "FF 00");
    probe_open(&r, fresh);
    rig_end(&r);
}

/* After each of them nothing waits, nothing samples, and a session is as new. */
static void ends(void)
{
    static struct seen fresh[2], after;
    probe_fresh(&fresh[0], 0);
    probe_fresh(&fresh[1], 1);
    for (size_t i = 0; i < COUNT(endings); i++) {
        struct rig r;
        uint8_t packet[PACKET] = {0};
        ROW(&endings[i]);
        endings[i].situation(&r);
        check_numbers("taken", 1, give(&r, "%s", endings[i].command));
        check_numbers("its answer leaves at once", 1, slot(&r, packet) > 0 && packet[0] >= 0xFE);
        check_numbers("and no sample after it", 0, (uint32_t)slot(&r, packet));
        check_numbers("an event finds nothing", 0, event(&r, 0, 7) + event(&r, 1, 7));
        if (strcmp(endings[i].command, "FF 00") != 0)
            ask(&r, CONNECTED, "FF 00");
        probe_open(&r, &after);
        const struct seen *expected = &fresh[endings[i].counts];
        check_bytes("a fresh session", expected->bytes, expected->len, after.bytes, after.len);
        rig_end(&r);
    }
}

static void refused_connect(void)
{
    struct rig r;
    busy(&r);
    REFUSED(&r, "FE 21", "FF");
    rig_end(&r);
    for (unsigned connect_mode = 1; connect_mode < 256; connect_mode += 127) {
        busy(&r);
        REFUSED(&r, "FE 22", "FF %02X", connect_mode);
        rig_end(&r);
    }
}

static void seeds(void)
{
    static const uint32_t of_1[] = {0x00042021, 0x04080601, 0x9DCCA8C5, 0x1255994F, 0x8EF917D1};
    static const uint32_t of_0[] = {0xE124B63A, 0x8B9A74AB, 0x64E1B3AC};
    struct rig r;
    connected(&r);
    for (size_t i = 0; i < COUNT(of_1); i++) {
        HERE();
        get_seed(&r, i % 2 ? LISTS : CALIBRATION);
        NUMBER("seed", of_1[i], r.seed);
        if (i == 1)
            ASK(&r, CONNECTED, "FF 00"); /* the generator runs on */
        if (i == 2) {
            ASK(&r, "FF", "FE");
            ASK(&r, CONNECTED, "FF 00");
        }
        if (i == 3) {
            ASK(&r, "FE 25", "F7 04 00 00 00 00");
            ASK(&r, CONNECTED, "FF 00");
        }
    }
    rig_end(&r);
    rig_start(&r, 16, 16, 0);
    ASK(&r, CONNECTED, "FF 00");
    for (size_t i = 0; i < COUNT(of_0); i++) {
        HERE();
        get_seed(&r, LISTS);
        NUMBER("seed of start 0", of_0[i], r.seed);
    }
    rig_end(&r);
}

/* A key opens its own seed's resource, and nothing else. */
static void keys(void)
{
    static const uint8_t resources[] = {CALIBRATION, LISTS};
    for (size_t i = 0; i < 2; i++) {
        struct rig r;
        uint8_t one = resources[i], other = resources[1 - i];
        connected(&r);
        get_seed(&r, other);
        get_seed(&r, one); /* replaces the other's */
        ASK(&r, i == 0 ? "FF 04" : "FF 01", "F7 04 %02X %02X %02X %02X 12 34",
            LE32(key_of(r.seed, one)));
        ASK(&r, i == 0 ? "FF 00 04 00 00 00" : "FF 00 01 00 00 00", "FD");
        ASK(&r, "FE 29", "F7 04 %02X %02X %02X %02X", LE32(key_of(r.seed, one))); /* used up */
        ASK(&r, i == 0 ? "FE 25" : "FF 11 00 00 02 00 00 00", "DA");
        ASK(&r, i == 0 ? "FE 29" : "FE 25", "F0 01 00");
        get_seed(&r, other);
        ASK(&r, "FF 00", "F8 00 %02X", one); /* open already: the other's seed stays good */
        ASK(&r, "FF 00", "F7 04 %02X %02X %02X %02X", LE32(key_of(r.seed, other)));
        ASK(&r, "FF 00", "F8 00 %02X", other);
        rig_end(&r);
    }
}

/* The key's addition is modulo 2^32: this start number's first seed is FFFFFFFF. */
static void keys_wrap(void)
{
    static const struct {
        int line;
        uint8_t resource;
        const char *unlock, *answer;
    } cases[] = {
        {__LINE__, CALIBRATION, "F7 04 00 5D D0 00", "FF 04"},
        {__LINE__, LISTS, "F7 04 00 FF D9 00", "FF 01"},
    };
    for (size_t i = 0; i < COUNT(cases); i++) {
        struct rig r;
        ROW(&cases[i]);
        rig_start(&r, 16, 16, 0x5E6CFCE7);
        ask(&r, CONNECTED, "FF 00");
        get_seed(&r, cases[i].resource);
        check_numbers("seed", 0xFFFFFFFF, r.seed);
        ask(&r, cases[i].answer, "%s", cases[i].unlock);
        rig_end(&r);
    }
}

/* A key that was right for a seed since replaced, or for the other resource, is wrong. */
static void stale_keys(void)
{
    static const struct {
        int line;
        uint8_t first, second, key_for;
        int use_first;
    } cases[] = {
        {__LINE__, CALIBRATION, CALIBRATION, CALIBRATION, 1},
        {__LINE__, CALIBRATION, LISTS, CALIBRATION, 1},
        {__LINE__, CALIBRATION, LISTS, CALIBRATION, 0},
        {__LINE__, LISTS, CALIBRATION, LISTS, 0},
        {__LINE__, LISTS, LISTS, LISTS, 1},
    };
    for (size_t i = 0; i < COUNT(cases); i++) {
        struct rig r;
        ROW(&cases[i]);
        connected(&r);
        get_seed(&r, cases[i].first);
        uint32_t first = r.seed;
        get_seed(&r, cases[i].second);
        uint32_t seed = cases[i].use_first ? first : r.seed;
        ask(&r, "FE 25", "F7 04 %02X %02X %02X %02X", LE32(key_of(seed, cases[i].key_for)));
        check_numbers("the session has ended", 2, give(&r, "FD"));
        rig_end(&r);
    }
}

/* Every single wrong bit in a right key is a wrong key. */
static void key_bits(void)
{
    for (unsigned bit = 0; bit < 32; bit++) {
        struct rig r;
        connected(&r);
        get_seed(&r, CALIBRATION);
        check_note("bit %u", bit);
        ASK(&r, "FE 25", "F7 04 %02X %02X %02X %02X",
            LE32(key_of(r.seed, CALIBRATION) ^ (uint32_t)1 << bit));
        NUMBER("ended", 2, give(&r, "FC"));
        check_note("%s", "");
        rig_end(&r);
    }
}

/* A second power-up drops what waits; the slave's CTR is 0 again, and the seeds begin anew. */
static void power_up_again(void)
{
    struct rig r;
    busy(&r);
    NUMBER("taken", 1, give(&r, "FD"));
    NUMBER("power-up", 0, xcp_power_up(r.state, XCP_STATE_SIZE, 1));
    r.slave_ctr = 0;
    SENDS(&r, "");
    NUMBER("no session", 2, give(&r, "FD"));
    ASK(&r, CONNECTED, "FF 00");
    ASK(&r, "FF 04 21 20 04 00", "F8 00 04");
    rig_end(&r);
}

/* CTR runs from 255 to 0 and on through sessions: slot() checks it at every frame. */
static void long_run(void)
{
    struct rig r;
    powered(&r);
    for (int i = 0; i < 300; i++) {
        ASK(&r, CONNECTED, "FF 00");
        ASK(&r, "FF", "FE");
    }
    rig_end(&r);
}

void test_session(void)
{
    whole_session();
    silence();
    answer_waits();
    wrong_key();
    ends();
    refused_connect();
    seeds();
    keys();
    keys_wrap();
    stale_keys();
    key_bits();
    power_up_again();
    long_run();
}
