/* Writes to descriptors through a buffer. Where a write fails, the program says so and ends. */
#ifndef OUTPUT_H
#define OUTPUT_H

#include <stddef.h>
#include <string.h>

struct output {
    int descriptor;
    const char *name;
    size_t held;
    char buffer[65536];
};

/* Begins to write to a descriptor; the name is for messages and stays. */
void output_start(struct output *output, int descriptor, const char *name);

/* Writes what the buffer holds. */
void output_flush(struct output *output);

/* Takes bytes that fill the buffer, and writes it whenever it is full. */
void output_put_many(struct output *output, const char *bytes, size_t length);

/* Takes bytes. Most are few, so it stands here. */
static inline void output_put(struct output *output, const char *bytes, size_t length)
{
    if (length < sizeof output->buffer - output->held) {
        memcpy(output->buffer + output->held, bytes, length);
        output->held += length;
    } else {
        output_put_many(output, bytes, length);
    }
}

static inline void output_byte(struct output *output, char byte)
{
    output->buffer[output->held++] = byte;
    if (output->held == sizeof output->buffer)
        output_flush(output);
}

/* Writes what the buffer holds and closes the descriptor, which may be where a file system tells of a failed write. */
void output_close(struct output *output);

#endif
