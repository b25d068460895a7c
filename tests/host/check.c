#define _POSIX_C_SOURCE 200809L
#include "check.h"
#include "lend.h"

#include <signal.h>
#include <stdarg.h>
#include <stdio.h>
#include <string.h>
#include <unistd.h>

static unsigned long passed, failed, passed_before;
static const char *place_file = "?";
static int place_line;
static char note[80];

void check_at(const char *file, int line)
{
    place_file = file;
    place_line = line;
}

void check_note(const char *format, ...)
{
    va_list values;
    va_start(values, format);
    vsnprintf(note, sizeof note, format, values);
    va_end(values);
}

static const char *edge_name(void)
{
    return lend_edge == EDGE_AFTER ? "buffers end at the edge" : "buffers begin at the edge";
}

static void print_place(const char *what)
{
    printf("%s:%d: %s%s%s (%s): ", place_file, place_line, what, note[0] ? ", " : "", note,
           edge_name());
}

void check_numbers(const char *what, uint32_t expected, uint32_t got)
{
    if (expected == got) {
        passed++;
        return;
    }
    failed++;
    print_place(what);
    printf("expected %lu, got %lu\n", (unsigned long)expected, (unsigned long)got);
}

void insist(const char *what, uint32_t expected, uint32_t got)
{
    if (expected != got)
        check_numbers(what, expected, got);
}

static void print_bytes(const char *name, const uint8_t *bytes, size_t len, size_t from)
{
    printf("%s", name);
    for (size_t i = from; i < len && i < from + 16; i++)
        printf(" %02X", bytes[i]);
    printf(" (%zu bytes)", len);
}

void check_bytes(const char *what, const uint8_t *expected, size_t expected_len,
                 const uint8_t *got, size_t got_len)
{
    size_t same = 0;
    while (same < expected_len && same < got_len && expected[same] == got[same])
        same++;
    if (same == expected_len && same == got_len) {
        passed++;
        return;
    }
    failed++;
    print_place(what);
    printf("from byte %zu on: ", same);
    print_bytes("expected", expected, expected_len, same);
    print_bytes(", got", got, got_len, same);
    printf("\n");
}

void check_quietly(void)
{
    passed_before = passed;
}

void check_loudly(void)
{
    passed = passed_before;
}

/* A touch past a lent buffer ends the program: no check after it would mean anything. */
static void outside(int number)
{
    (void)number;
    failed++;
    print_place("a call touched what was not lent");
    printf("crash\n%lu passed, %lu failed\n", passed, failed);
    fflush(stdout);
    _exit(1);
}

static void catch_crashes(void)
{
    struct sigaction action;
    memset(&action, 0, sizeof action);
    action.sa_handler = outside;
    sigaction(SIGSEGV, &action, NULL);
    sigaction(SIGBUS, &action, NULL);
    sigaction(SIGILL, &action, NULL);
    sigaction(SIGABRT, &action, NULL);
}

static int counted(void)
{
    printf("%lu passed, %lu failed\n", passed, failed);
    return failed == 0 ? 0 : 1;
}

static void run_all(void (*const tests[])(void), size_t count)
{
    for (size_t i = 0; i < count; i++) {
        check_note("%s", "");
        tests[i]();
    }
}

int check_once(void (*const tests[])(void), size_t count)
{
    catch_crashes();
    run_all(tests, count);
    return counted();
}

int check_main(void (*const tests[])(void), size_t count)
{
    catch_crashes();
    for (int edge = 0; edge < 2; edge++) {
        lend_edge = edge == 0 ? EDGE_AFTER : EDGE_BEFORE;
        run_all(tests, count);
    }
    return counted();
}
