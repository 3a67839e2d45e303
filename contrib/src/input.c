#include "input.h"

#include <errno.h>
#include <fcntl.h>
#include <poll.h>
#include <string.h>
#include <unistd.h>

#include "failure.h"

int input_open(const char *name)
{
    int descriptor = open(name, O_RDONLY | O_CLOEXEC);
    if (descriptor < 0)
        fail(name, strerror(errno));
    return descriptor;
}

ssize_t input_read(int descriptor, char *bytes, size_t room)
{
    for (;;) {
        ssize_t length = read(descriptor, bytes, room);
        if (length >= 0)
            return length;
        if (errno == EAGAIN || errno == EWOULDBLOCK)
            input_is_ready(descriptor, -1);
        else if (errno != EINTR)
            return -1;
    }
}

bool input_is_ready(int descriptor, int milliseconds)
{
    struct pollfd asked = {.fd = descriptor, .events = POLLIN};
    int ready;
    do
        ready = poll(&asked, 1, milliseconds);
    while (ready < 0 && errno == EINTR);
    /* Where it can't be asked, the read will tell. */
    return ready != 0;
}
