/* The memory functions that tools/memory.c gives an archive for a controller, at every alignment: each is compared with a loop
 * over bytes, what stands around the bytes included. Prints what failed, then 'N passed, M failed'. */
#include <stdint.h>
#include <stdio.h>

/* As tests/controller.test has them made. */
void *own_copy(void *to, const void *from, size_t count);
void *own_move(void *to, const void *from, size_t count);
void *own_fill(void *to, int value, size_t count);
void own_fill_with(void *to, size_t count, int value);
void own_clear(void *to, size_t count);

enum { SIZE = 96, MOST = 40, PLACES = 8, MIDDLE = 32, VALUE = 0x1A5 /* only its low byte counts */ };

static uint32_t room[SIZE / 4], model[SIZE / 4];
static uint8_t *const bytes = (uint8_t *)room, *const expected = (uint8_t *)model;
static unsigned long passed, failed;

static void begin(void)
{
    for (int i = 0; i < SIZE; i++)
        bytes[i] = expected[i] = (uint8_t)(i * 37 + 11);
}

static void check(const char *what, int to, int from, int count, int good)
{
    for (int i = 0; i < SIZE; i++)
        good = good && bytes[i] == expected[i];
    if (good) {
        passed++;
        return;
    }
    failed++;
    printf("%s of %d bytes to place %d, from %d: wrong\n", what, count, to, from);
}

static void fills(int to, int count)
{
    void *at = bytes + to;
    begin();
    for (int i = 0; i < count; i++)
        expected[to + i] = (uint8_t)VALUE;
    check("a fill", to, 0, count, own_fill(at, VALUE, (size_t)count) == at);
    begin();
    for (int i = 0; i < count; i++)
        expected[to + i] = (uint8_t)VALUE;
    own_fill_with(at, (size_t)count, VALUE);
    check("a fill, as Arm calls it,", to, 0, count, 1);
    begin();
    for (int i = 0; i < count; i++)
        expected[to + i] = 0;
    own_clear(at, (size_t)count);
    check("a clearing", to, 0, count, 1);
}

static void copies(int to, int from, int count)
{
    void *at = bytes + to;
    begin();
    for (int i = 0; i < count; i++)
        expected[to + i] = (uint8_t)((from + i) * 37 + 11);
    check("a copy", to, from, count, own_copy(at, bytes + from, (size_t)count) == at);
}

/* The places may overlap either way. */
static void moves(int to, int from, int count)
{
    void *at = bytes + to;
    begin();
    for (int i = 0; i < count; i++)
        expected[to + i] = (uint8_t)((from + i) * 37 + 11);
    check("a move", to, from, count, own_move(at, bytes + from, (size_t)count) == at);
}

int main(void)
{
    for (int count = 0; count <= MOST; count++)
        for (int to = 0; to < PLACES; to++) {
            fills(to, count);
            for (int from = 0; from < PLACES; from++)
                copies(to, from + 48, count);
            for (int from = 0; from <= 2 * PLACES; from++)
                moves(MIDDLE + to, MIDDLE - PLACES + from, count);
        }
    printf("%lu passed, %lu failed\n", passed, failed);
    return failed > 0;
}
