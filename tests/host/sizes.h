/* The sizes that loops go by, each said here alone. Tables of packets have theirs in hex, as the
 * paper says them, so that a wrong one here is found. */
#ifndef SIZES_H
#define SIZES_H

enum {
    PACKET = 64,                      /* the longest one, of a command, an answer or a sample */
    MESSAGE = PACKET + 3,             /* LEN, CTR, packet, checksum */
    FRAME = 1 + 2 * MESSAGE,          /* SYNC, and each byte of the message as a pair */
    REACH = 4096,                     /* bytes of a memory that can be addressed */
    UPLOAD_MOST = PACKET - 1,         /* behind FF */
    DOWNLOAD_MOST = PACKET - 2,       /* behind code and count */
    SHORT_DOWNLOAD_MOST = PACKET - 8, /* behind code, count, reserved byte, extension, address */
    POOL_LISTS = 8,                   /* what there is for all lists together */
    POOL_ODTS = 16,
    POOL_ENTRIES = 128,
    LIST_COUNT = 4,                   /* what most tests allocate of it */
    ODT_COUNT = 2,                    /* of a list */
    ENTRY_COUNT = 16,                 /* of an ODT */
    ENTRY_MOST = 4,                   /* bytes of an entry */
    FIRST_MOST = PACKET - 3,          /* bytes of a list's first ODT, behind number and clock */
    LATER_MOST = PACKET - 1           /* of a later one, behind number */
};

#endif
