/* What docs/FORMATS.md says of lines and names. */
#ifndef NOTATION_H
#define NOTATION_H

#include <stdbool.h>
#include <stddef.h>

/* The bytes that a line may have before its line feed. */
#define LINE_LIMIT ((size_t)1048576)

/*
 * The bytes that a tag with all its attributes, another single piece of markup or a document type may have in XML.
 * The programs keep such a piece until it is whole, so this is what bounds their memory.
 */
#define MARKUP_LIMIT ((size_t)16777216)

/* A name without a colon. */
bool is_ncname(const char *bytes, size_t length);

/* One NCName, or two that a colon joins. */
bool is_name(const char *bytes, size_t length);

bool is_utf8(const char *bytes, size_t length);

/* The greatest length up to `length` at which no character of these UTF-8 bytes is cut; bytes[length] is there. */
size_t whole_characters(const char *bytes, size_t length);

/* The letter of the escape that stands for a character in values, texts and data; 0 where it stands for itself. */
static inline char escape_letter(char character)
{
    switch (character) {
    case '\n':
        return 'n';
    case '\t':
        return 't';
    case '\\':
        return '\\';
    default:
        return 0;
    }
}

/* Puts the characters in the place of their escapes and gives the new length. */
size_t unescape(char *bytes, size_t length);

#endif
