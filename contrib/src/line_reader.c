#include "line_reader.h"

#include <string.h>

#include "input.h"

enum line_found line_next(struct line_reader *reader, bool waits, char **line, size_t *length)
{
    for (;;) {
        *line = reader->bytes + reader->start;
        char *feed = memchr(reader->bytes + reader->searched, '\n', reader->end - reader->searched);
        if (feed != NULL) {
            *length = (size_t)(feed - *line);
            reader->start = reader->searched = (size_t)(feed + 1 - reader->bytes);
            return LINE_FOUND;
        }
        reader->searched = reader->end;
        *length = reader->end - reader->start;
        if (reader->is_over || *length > LINE_LIMIT) {
            reader->start = reader->end;
            return *length > 0 ? LINE_FOUND : LINES_OVER;
        }
        if (!waits && !input_is_ready(reader->descriptor, 0))
            return LINE_NOT_READY;
        memmove(reader->bytes, *line, *length);
        reader->start = 0;
        reader->searched = reader->end = *length;
        ssize_t more =
            input_read(reader->descriptor, reader->bytes + reader->end, sizeof reader->bytes - reader->end);
        if (more < 0)
            return LINE_NOT_READ;
        reader->end += (size_t)more;
        reader->is_over = more == 0;
    }
}
