#include "failure.h"

#include <stdarg.h>
#include <stdbool.h>
#include <stdio.h>
#include <stdlib.h>

#include "notation.h"

const char *program = "";

void fail(const char *subject, const char *reason)
{
    fprintf(stderr, "%s: %s: %s\n", program, subject, reason);
    exit(EXIT_FAILURE);
}

void end_with_help(const char *usage, const char *help)
{
    bool was_printed = printf("%s%s", usage, help) >= 0 && fflush(stdout) == 0;
    exit(was_printed ? EXIT_SUCCESS : EXIT_FAILURE);
}

void end_with_usage(const char *usage)
{
    fputs(usage, stderr);
    exit(2);
}

void reason_format(char reason[REASON_SIZE], const char *format, ...)
{
    va_list values;
    va_start(values, format);
    int length = vsnprintf(reason, REASON_SIZE, format, values);
    va_end(values);
    if (length < 0)
        reason[0] = '\0';
    else if (length >= REASON_SIZE)
        /* The byte that gave its place to the end is unknown; one byte less is surely followed by a known one. */
        reason[whole_characters(reason, REASON_SIZE - 2)] = '\0';
    for (unsigned char *byte = (unsigned char *)reason; *byte != '\0'; byte++) {
        if (*byte < ' ' || *byte == 0x7f) {
            *byte = ' ';
        } else if (byte[0] == 0xc2 && byte[1] >= 0x80 && byte[1] < 0xa0) {
            byte[0] = byte[1] = ' ';
        }
    }
}
