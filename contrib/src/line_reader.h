/* Gives the lines of an input one by one. */
#ifndef LINE_READER_H
#define LINE_READER_H

#include <stdbool.h>
#include <stddef.h>

#include "notation.h"

struct line_reader {
    int descriptor;
    size_t start;
    /* No line feed stands before this place. */
    size_t searched;
    size_t end;
    bool is_over;
    /* A line that is just too long, and what is read behind it. */
    char bytes[LINE_LIMIT + 65536];
};

enum line_found { LINE_FOUND, LINES_OVER, LINE_NOT_READ, LINE_NOT_READY };

/*
 * Finds the next line, without its line feed; its bytes may be changed until the next call. Of a line that is longer
 * than LINE_LIMIT at least a byte more than that is given. LINE_NOT_READY: it would wait, unless `waits`.
 * LINE_NOT_READ comes with errno.
 */
enum line_found line_next(struct line_reader *reader, bool waits, char **line, size_t *length);

#endif
