/* Counts checks. One that holds prints nothing; one that fails prints where, and both values. */
#ifndef CHECK_H
#define CHECK_H

#include <stddef.h>
#include <stdint.h>

/* The place that failures name: the line of the test, or of the table's row, not of a helper. */
void check_at(const char *file, int line);
#define HERE() check_at(__FILE__, __LINE__)
#define ROW(row) check_at(__FILE__, (row)->line)

/* A note for failures, such as the value that a loop has reached; "" for none. */
void check_note(const char *format, ...);

void check_numbers(const char *what, uint32_t expected, uint32_t got);
void check_bytes(const char *what, const uint8_t *expected, size_t expected_len,
                 const uint8_t *got, size_t got_len);

/* What must hold at every call, in every test: counted only where it does not. */
void insist(const char *what, uint32_t expected, uint32_t got);

#define NUMBER(what, expected, got) (HERE(), check_numbers(what, expected, got))
#define BYTES(what, expected, expected_len, got, got_len) \
    (HERE(), check_bytes(what, expected, expected_len, got, got_len))

/* Between these two, checks that hold are not counted: what a probe repeats is no new check. */
void check_quietly(void);
void check_loudly(void);

/* Runs the tests once for each edge of lend.h, prints 'N passed, M failed', gives main's result. */
int check_main(void (*const tests[])(void), size_t count);

/* The same of tests that lend nothing of lend.h: once. */
int check_once(void (*const tests[])(void), size_t count);

#endif
