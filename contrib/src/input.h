/* Reads from descriptors. */
#ifndef INPUT_H
#define INPUT_H

#include <stdbool.h>
#include <stddef.h>
#include <sys/types.h>

/* Opens a file to read; where it can't, says so and ends the program. */
int input_open(const char *name);

/* Reads at most `room` bytes and waits for at least one. 0 at the end; -1 with errno where the read failed. */
ssize_t input_read(int descriptor, char *bytes, size_t room);

/* Whether there is something to read, or the end, within so many milliseconds. */
bool input_is_ready(int descriptor, int milliseconds);

#endif
