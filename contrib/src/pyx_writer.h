/* Writes lines of the notation, and where they come from. */
#ifndef PYX_WRITER_H
#define PYX_WRITER_H

#include <stdbool.h>
#include <stddef.h>

#include "output.h"

struct pyx_writer {
    struct output *lines;
    /* Gets a number for each line, the line of the document that it comes from. NULL where no one asked. */
    struct output *places;
    /* The bytes of the text line that is open, its letter counted; 0 where none is. */
    size_t text_length;
    bool text_ends_in_return;
};

/* Takes a part of a text. What no other line parts is one text, whatever lines it is cut into. */
void pyx_text(struct pyx_writer *writer, unsigned long place, const char *text, size_t length);

/*
 * Writes a line: its letter, a name (or none, ""), what stands between (or nothing), a value that gets its escapes.
 * False where the line would be too long; nothing is written then.
 */
bool pyx_line(struct pyx_writer *writer, unsigned long place, char letter, const char *name, const char *between,
              const char *value);

/* Writes a line that the notation refuses, with the reason, so that no reader takes what stands before for a whole. */
void pyx_refusal(struct pyx_writer *writer, unsigned long place, const char *reason);

/* Writes what is held back; a text line stays open. */
void pyx_flush(struct pyx_writer *writer);

/* Ends the last line and closes the outputs. */
void pyx_close(struct pyx_writer *writer);

#endif
