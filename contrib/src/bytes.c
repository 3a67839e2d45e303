#include "bytes.h"

#include <stdint.h>
#include <stdlib.h>
#include <string.h>

enum { LEAST_ROOM = 256 };

bool bytes_add(struct bytes *bytes, const void *more, size_t length)
{
    if (length > SIZE_MAX / 2 - bytes->length)
        return false;
    size_t needed = bytes->length + length;
    if (needed > bytes->room) {
        size_t room = bytes->room < LEAST_ROOM ? LEAST_ROOM : bytes->room;
        while (room < needed)
            room *= 2;
        char *at = realloc(bytes->at, room);
        if (at == NULL)
            return false;
        bytes->at = at;
        bytes->room = room;
    }
    if (length > 0)
        memcpy(bytes->at + bytes->length, more, length);
    bytes->length = needed;
    return true;
}
