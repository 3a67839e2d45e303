#include "output.h"

#include <errno.h>
#include <poll.h>
#include <string.h>
#include <unistd.h>

#include "failure.h"

void output_start(struct output *output, int descriptor, const char *name)
{
    output->descriptor = descriptor;
    output->name = name;
    output->held = 0;
}

static void wait_for(const struct output *output)
{
    struct pollfd asked = {.fd = output->descriptor, .events = POLLOUT};
    if (poll(&asked, 1, -1) < 0 && errno != EINTR)
        fail(output->name, strerror(errno));
}

void output_flush(struct output *output)
{
    size_t written = 0;
    while (written < output->held) {
        ssize_t length = write(output->descriptor, output->buffer + written, output->held - written);
        if (length >= 0)
            written += (size_t)length;
        else if (errno == EAGAIN || errno == EWOULDBLOCK)
            wait_for(output);
        else if (errno != EINTR)
            fail(output->name, strerror(errno));
    }
    output->held = 0;
}

void output_put_many(struct output *output, const char *bytes, size_t length)
{
    while (length > 0) {
        size_t room = sizeof output->buffer - output->held;
        size_t part = length < room ? length : room;
        memcpy(output->buffer + output->held, bytes, part);
        output->held += part;
        bytes += part;
        length -= part;
        if (output->held == sizeof output->buffer)
            output_flush(output);
    }
}

void output_close(struct output *output)
{
    output_flush(output);
    /* After an interrupted close the descriptor is gone, so it isn't closed again. */
    if (close(output->descriptor) < 0 && errno != EINTR)
        fail(output->name, strerror(errno));
}
