#define _DEFAULT_SOURCE
#include "lend.h"
#include "check.h"

#include <stdio.h>
#include <stdlib.h>
#include <string.h>
#include <sys/mman.h>
#include <unistd.h>

/* What stands beside a buffer on its open side; a write there would show. */
#define BESIDE 0xC3

enum edge lend_edge = EDGE_AFTER;

static size_t page(void)
{
    return (size_t)sysconf(_SC_PAGESIZE);
}

/* The mapped pages of a buffer; one page without any access stands on each side of them. */
static size_t pages_of(size_t size)
{
    return size == 0 ? page() : (size + page() - 1) / page() * page();
}

static uint8_t *first_page(uint8_t *buffer, size_t size)
{
    return lend_edge == EDGE_AFTER ? buffer + size - pages_of(size) : buffer;
}

uint8_t *lend(size_t size, uint8_t fill)
{
    size_t room = pages_of(size);
    uint8_t *all = mmap(NULL, room + 2 * page(), PROT_NONE, MAP_PRIVATE | MAP_ANONYMOUS, -1, 0);
    if (all == MAP_FAILED || mprotect(all + page(), room, PROT_READ | PROT_WRITE) != 0) {
        perror("lend");
        exit(1);
    }
    uint8_t *first = all + page();
    uint8_t *buffer = lend_edge == EDGE_AFTER ? first + room - size : first;
    memset(first, BESIDE, room);
    memset(buffer, fill, size);
    return buffer;
}

void lend_end(uint8_t *buffer, size_t size)
{
    uint8_t *first = first_page(buffer, size), *end = first + pages_of(size);
    uint32_t touched = 0;
    for (uint8_t *p = first; p < end; p++)
        if ((p < buffer || p >= buffer + size) && *p != BESIDE)
            touched++;
    insist("bytes written beside a lent buffer", 0, touched);
    munmap(first - page(), (size_t)(end - first) + 2 * page());
}
