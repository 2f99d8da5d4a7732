/* The count of calls and of differences: see differences.h. */

#include "differences.h"

#include <stdarg.h>
#include <stdio.h>
#include <stdlib.h>

/* A comparison of fewer calls has left something out, and does not end well. */
enum { FEWEST_CALLS = 1650000, MOST_DIFFERENCES = 20 };

static const char *current = "";
static unsigned long calls = 0, differences = 0;

void begin_subject(const char *subject)
{
    current = subject;
}

void count_call(void)
{
    calls++;
}

void begin_difference(void)
{
    differences++;
    printf("difference %lu, call %lu, %s\n", differences, calls, current);
}

static void print_line(const char *format, va_list values)
{
    printf("  ");
    vprintf(format, values);
    printf("\n");
}

void detail(const char *format, ...)
{
    va_list values;
    va_start(values, format);
    print_line(format, values);
    va_end(values);
}

void end_difference(void)
{
    if (differences >= MOST_DIFFERENCES)
        exit(close_comparison());
}

void hold(int holds, const char *format, ...)
{
    if (holds)
        return;
    begin_difference();
    va_list values;
    va_start(values, format);
    print_line(format, values);
    va_end(values);
    end_difference();
}

int close_comparison(void)
{
    printf("face: %lu calls compared, %lu differences\n", calls, differences);
    return differences == 0 && calls >= FEWEST_CALLS ? 0 : 1;
}
