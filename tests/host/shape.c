#include "shape.h"

#include <stdio.h>
#include <string.h>

unsigned first_odt(const struct shape *s, unsigned list)
{
    unsigned sum = 0;
    for (unsigned before = 0; before < list && before < s->lists; before++)
        sum += s->odts[before];
    return sum;
}

unsigned all_odts(const struct shape *s)
{
    return first_odt(s, s->lists);
}

unsigned all_entries(const struct shape *s)
{
    unsigned sum = 0;
    for (unsigned odt = 0; odt < all_odts(s); odt++)
        sum += s->entries[odt];
    return sum;
}

unsigned list_of(const struct shape *s, unsigned odt)
{
    unsigned list = 0;
    while (odt >= first_odt(s, list + 1))
        list++;
    return list;
}

void take_shape(struct rig *r, const struct shape *s)
{
    ask(r, "FF", "D6");
    if (s->lists > 0)
        ask(r, "FF", "D5 00 %02X 00", s->lists);
    for (unsigned list = 0; list < s->lists; list++)
        if (s->odts[list] > 0)
            ask(r, "FF", "D4 00 %02X 00 %02X", list, s->odts[list]);
    for (unsigned odt = 0; odt < all_odts(s); odt++) {
        unsigned list = list_of(s, odt);
        if (s->entries[odt] > 0)
            ask(r, "FF", "D3 00 %02X 00 %02X %02X", list, odt - first_odt(s, list),
                s->entries[odt]);
    }
}

/* The last entry of an ODT can be pointed at, and none behind it. */
static void has_entries(struct rig *r, unsigned list, unsigned odt, unsigned count)
{
    if (count > 0)
        ask(r, "FF", "E2 00 %02X 00 %02X %02X", list, odt, count - 1);
    ask(r, "FE 22", "E2 00 %02X 00 %02X %02X", list, odt, count);
}

static void has_lists(struct rig *r, const struct shape *s)
{
    char answer[32];
    snprintf(answer, sizeof answer, "FF 11 %02X 00 02 00 00 00", s->lists);
    ask(r, answer, "DA");
    for (unsigned list = 0; list < s->lists; list++) {
        unsigned first = first_odt(s, list);
        snprintf(answer, sizeof answer, "FF %02X", first);
        ask(r, answer, "DE 02 %02X 00", list);
        for (unsigned odt = 0; odt < s->odts[list]; odt++)
            has_entries(r, list, odt, s->entries[first + odt]);
        has_entries(r, list, s->odts[list], 0);
    }
    for (unsigned list = s->lists; list <= POOL_LISTS; list++)
        ask(r, "FE 22", "DE 02 %02X 00", list);
}

void has_shape(struct rig *r, const struct shape *s)
{
    struct rig kept = *r;
    uint8_t state[XCP_STATE_SIZE], packet[PACKET];
    memcpy(state, r->state, sizeof state);
    drain(r, packet); /* so that each answer is next */
    has_lists(r, s);
    *r = kept;
    memcpy(r->state, state, sizeof state);
}
