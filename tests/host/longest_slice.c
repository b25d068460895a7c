#define _DEFAULT_SOURCE
#include "host.h"

#include <stdio.h>
#include <stdlib.h>
#include <sys/mman.h>

/* A slice longer than 4,294,967,295 bytes is taken up to so many. Most of them are zeros, which are
 * nothing outside a message, and one page that is there once, however often it is read. */

enum { EDGES = 65536 }; /* whole pages, of whatever size */
static const uint64_t most = 0xFFFFFFFFu, behind = EDGES + 1;

static uint64_t give_slice(struct rig *r, const uint8_t *bytes, uint64_t count)
{
    return xcp_receive(r->state, XCP_STATE_SIZE, r->cal, r->cal_len, r->meas, r->meas_len, bytes,
                       count);
}

/* An end far before that: the length is not cut to 32 bits. */
static void ends_early(struct rig *r, uint8_t *bytes)
{
    static const uint64_t lengths[] = {0xFFFFFFFF, 0x100000000, 0x100000001, 0x100000006};
    bytes[6] = SYNC; /* and a LEN of 0 */
    for (size_t i = 0; i < COUNT(lengths); i++) {
        uint64_t result = give_slice(r, bytes, lengths[i]);
        NUMBER("number where a LEN of 0 comes early", XCP_BAD_LENGTH, XCP_NUMBER(result));
        NUMBER("bytes taken", 8, XCP_TOOK(result));
    }
    bytes[6] = 0;
}

/* What is behind that many bytes is not taken: there stands a whole message. */
static void ends_late(struct rig *r, uint8_t *bytes)
{
    static const uint8_t synch[] = {SYNC, 0x01, 0x01, 0xFC, 0xFE};
    uint8_t before[XCP_STATE_SIZE];
    memcpy(before, r->state, sizeof before);
    memcpy(bytes + most, synch, sizeof synch);
    uint64_t result = give_slice(r, bytes, most + behind);
    NUMBER("number of the longest slice", XCP_DONE, XCP_NUMBER(result));
    NUMBER("bytes taken of it", 0xFFFFFFFF, XCP_TOOK(result));
    BYTES("state", before, sizeof before, r->state, XCP_STATE_SIZE);
    result = give_slice(r, bytes + most, behind);
    NUMBER("number of what is behind", XCP_NO_SESSION, XCP_NUMBER(result));
    NUMBER("bytes taken of that", sizeof synch, XCP_TOOK(result));
}

static uint8_t *passed_over(const char *why)
{
    printf("%s: no slice of 4 GB is given: %s\n", __FILE__, why);
    return NULL;
}

/* So many bytes, of which the first and the last can be written; NULL where that cannot be. */
static uint8_t *map(void)
{
    const int both = PROT_READ | PROT_WRITE, flags = MAP_PRIVATE | MAP_ANONYMOUS | MAP_NORESERVE;
    const size_t size = (size_t)(most + behind), last = (size_t)(most + 1 - EDGES);
    if (size != most + behind)
        return passed_over("addresses of 32 bits have no room for it");
    if (getenv("XCP_EMULATED") != NULL)
        return passed_over("under an emulator it would take minutes");
    uint8_t *bytes = mmap(NULL, size, PROT_READ, flags, -1, 0);
    if (bytes == MAP_FAILED)
        return passed_over("it cannot be mapped");
    if (mprotect(bytes, EDGES, both) == 0 && mprotect(bytes + last, size - last, both) == 0)
        return bytes;
    munmap(bytes, size);
    return passed_over("its ends cannot be written");
}

/* Once, and not for each edge: it takes seconds. */
void test_longest_slice(void)
{
    struct rig r;
    if (lend_edge == EDGE_BEFORE)
        return;
    uint8_t *bytes = map();
    if (bytes == NULL)
        return;
    powered(&r);
    ends_early(&r, bytes);
    ends_late(&r, bytes);
    rig_end(&r);
    munmap(bytes, (size_t)(most + behind));
}
