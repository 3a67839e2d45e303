/*
 * The bytes of an XML document, in an encoding that expat reads. Expat has UTF-8, UTF-16, ISO-8859-1 and US-ASCII; all
 * others go through the C library's iconv.
 */
#ifndef DOCUMENT_H
#define DOCUMENT_H

#include <iconv.h>
#include <stdbool.h>
#include <stddef.h>
#include <sys/types.h>

/* The bytes that document_read asks for at least, so that a whole character fits whatever the encoding. */
enum { DOCUMENT_LEAST_ROOM = 1024 };

struct document {
    int descriptor;
    /* What expat is to be told of the encoding; NULL where the document itself says it. */
    const char *told;
    /* The encoding that iconv reads; empty where the bytes are given as they are. */
    char encoding[64];
    iconv_t converter;
    /* The bytes that were read and aren't given yet. */
    char raw[65536];
    size_t start;
    size_t end;
    bool is_over;
    /* All bytes that were given. */
    size_t given;
    /* What is wrong with the encoding at byte `broken_at` of what is given, where a byte stands that expat refuses. */
    const char *broken;
    size_t broken_at;
};

enum document_opened { DOCUMENT_OPENED, DOCUMENT_UNREADABLE, DOCUMENT_UNKNOWN_ENCODING };

/*
 * Reads until the encoding is known, at most 65,536 bytes. DOCUMENT_UNREADABLE comes with errno,
 * DOCUMENT_UNKNOWN_ENCODING with the name in `encoding`.
 */
enum document_opened document_open(struct document *document, int descriptor);

/* Whether document_read would give something, or the end, within so many milliseconds. */
bool document_is_ready(const struct document *document, int milliseconds);

/* Gives at most `room` bytes, at least one. 0 at the end; -1 with errno where a read failed. */
ssize_t document_read(struct document *document, char *bytes, size_t room);

#endif
