/* Bytes that grow. */
#ifndef BYTES_H
#define BYTES_H

#include <stdbool.h>
#include <stddef.h>

struct bytes {
    char *at;
    size_t length;
    size_t room;
};

/* Adds bytes at the end. False where there is no memory; nothing is changed then. */
bool bytes_add(struct bytes *bytes, const void *more, size_t length);

#endif
