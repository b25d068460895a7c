/* Where docs/STATE.md has what in the state, for the tests that read or write its bytes. */
#ifndef LAYOUT_H
#define LAYOUT_H

#include "sizes.h"

enum {
    WRONG_KEYS_AT = 8,
    ROUND_AT = 10,        /* the list with which the next round begins */
    LAST_FRAME_AT = 11,   /* a flag: it was an answer */
    READER_AT = 12,       /* the reader's place, how many bytes have come, and these, LEN first */
    ANSWER_AT = 81,       /* the answer's length, then the answer */
    SESSION_AT = 146,     /* the session, from here to the end */
    OPEN_AT = SESSION_AT, /* a flag */
    LISTS_LOCK_AT = 148,  /* a flag: open */
    SEED_AT = 149,        /* the resource of the seed that is out */
    POINTER_AT = 155,     /* 16 times its list and its ODT, and one more; then its entry */
    PHASE_AT = 157,       /* 0 before FREE_DAQ, then one more than there are lists */
    ODTS_AT = 158,        /* of each list one byte: how many ODTs it has */
    ENTRIES_OF_AT = 166,  /* of each ODT one byte: how many entries it has */
    LISTS_AT = 182,       /* of each list three bytes: mode, selected, started */
    ENTRIES_AT = 206,     /* of each entry two: size, extension, upper address; lower address */
    SAMPLES_AT = 462,     /* of each ODT the length of its packet without number, then the bytes */
    ALL_ODTS = LIST_COUNT * ODT_COUNT
};

#define LIST_AT(list) (LISTS_AT + 3 * (list))
#define ODTS_OF(list) (ODTS_AT + (list))
#define ENTRIES_OF(odt) (ENTRIES_OF_AT + (odt))
#define ENTRY_AT(entry) (ENTRIES_AT + 2 * (entry)) /* counted over all ODTs: they have no gaps */
#define SAMPLE_AT(odt) (SAMPLES_AT + PACKET * (odt))

#endif
