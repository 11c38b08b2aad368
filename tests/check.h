/* What the test programs share: they count checks, and end at the first that fails with a line that says which. */
#ifndef CHECK_H
#define CHECK_H

#include <signal.h>
#include <stdarg.h>
#include <stdbool.h>
#include <stdio.h>
#include <stdlib.h>
#include <string.h>
#include <unistd.h>
#include <xmmintrin.h>

#define COUNT(array) (sizeof(array) / sizeof((array)[0]))

static size_t checks;
static char doing[300];

/* What is checked next. */
__attribute__((format(printf, 1, 2))) static void now(const char *format, ...)
{
    va_list words;
    va_start(words, format);
    vsnprintf(doing, sizeof doing, format, words);
    va_end(words);
}

__attribute__((format(printf, 2, 3))) static void check(bool holds, const char *otherwise, ...)
{
    va_list words;
    checks++;
    if (holds) return;
    va_start(words, otherwise);
    printf("FAILED: %s: ", doing);
    vprintf(otherwise, words);
    printf("\n");
    exit(1);
}

/* What a test needs of the machine. It is no check. */
static void need(bool given, const char *what)
{
    if (given) return;
    printf("FAILED: %s: the machine does not give %s\n", doing, what);
    exit(1);
}

/* A guard page was touched. */
static void touched(int signal)
{
    static const char head[] = "FAILED: ", tail[] = ": touched memory that it was not lent\n";
    bool said = write(1, head, sizeof head - 1) > 0 && write(1, doing, strlen(doing)) > 0;
    said = write(1, tail, sizeof tail - 1) > 0 && said;
    (void)signal;
    _exit(said ? 1 : 2);
}

/* From now on a touched guard page is a failure like any other; on a used-up stack, where a signal stack is set. */
static void watch(void)
{
    struct sigaction action;
    memset(&action, 0, sizeof action);
    action.sa_handler = touched;
    action.sa_flags = SA_ONSTACK;
    need(sigaction(SIGSEGV, &action, NULL) == 0, "a signal");
}

/* Sets the processor's flush-to-zero and denormals-are-zero, or clears both. */
static inline void flush(bool on)
{
    const unsigned both = 0x8040;
    _mm_setcsr(on ? _mm_getcsr() | both : _mm_getcsr() & ~both);
}

#endif
