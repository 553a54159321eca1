/* Tests are begun and ended one after another; a fault between the two makes the test fail. */
#ifndef REPORT_H
#define REPORT_H

#if defined(__GNUC__)
#define LIKE_PRINTF __attribute__((format(printf, 1, 2)))
#else
#define LIKE_PRINTF
#endif

void test_begin(const char *name);

/* Notes what is wrong, on one line. Only the first few faults of a test are printed. */
void test_fault(const char *format, ...) LIKE_PRINTF;

/* Whether the test that was begun has a fault so far. */
int test_has_fault(void);

/* Prints how the test went. The figures, if any, say what was counted or measured. */
void test_end(void);
void test_end_with(const char *format, ...) LIKE_PRINTF;

/* Prints the last line; the exit status of the program. */
int test_close(void);

#endif
