#include "notation.h"

#include <stdint.h>
#include <string.h>

static bool begins_ncname(unsigned char byte)
{
    return (byte >= 'a' && byte <= 'z') || (byte >= 'A' && byte <= 'Z') || byte == '_' || byte >= 0x80;
}

static bool goes_on_ncname(unsigned char byte)
{
    return begins_ncname(byte) || (byte >= '0' && byte <= '9') || byte == '-' || byte == '.';
}

/* The length of the longest NCName at the front; 0 where there is none. */
static size_t ncname_length(const char *bytes, size_t length)
{
    if (length == 0 || !begins_ncname((unsigned char)bytes[0]))
        return 0;
    size_t at = 1;
    while (at < length && goes_on_ncname((unsigned char)bytes[at]))
        at++;
    return at;
}

bool is_ncname(const char *bytes, size_t length)
{
    return length > 0 && ncname_length(bytes, length) == length;
}

bool is_name(const char *bytes, size_t length)
{
    size_t first = ncname_length(bytes, length);
    if (first == 0 || first == length)
        return first != 0;
    return bytes[first] == ':' && is_ncname(bytes + first + 1, length - first - 1);
}

/* The length of the character at the front, of which at least one byte is there; 0 where there is none. */
static size_t character_length(const unsigned char *bytes, size_t length)
{
    unsigned char lead = bytes[0], least = 0x80, most = 0xbf;
    if (lead < 0x80)
        return 1;
    if (lead < 0xc2 || lead > 0xf4)
        return 0;
    size_t whole = lead < 0xe0 ? 2 : lead < 0xf0 ? 3 : 4;
    if (length < whole)
        return 0;
    /* No longer form than needed, no surrogate, nothing beyond U+10FFFF. */
    if (lead == 0xe0)
        least = 0xa0;
    else if (lead == 0xed)
        most = 0x9f;
    else if (lead == 0xf0)
        least = 0x90;
    else if (lead == 0xf4)
        most = 0x8f;
    if (bytes[1] < least || bytes[1] > most)
        return 0;
    for (size_t at = 2; at < whole; at++)
        if ((bytes[at] & 0xc0) != 0x80)
            return 0;
    return whole;
}

bool is_utf8(const char *bytes, size_t length)
{
    const unsigned char *at = (const unsigned char *)bytes;
    while (length > 0) {
        uint64_t eight;
        if (length >= sizeof eight) {
            memcpy(&eight, at, sizeof eight);
            if ((eight & UINT64_C(0x8080808080808080)) == 0) {
                at += sizeof eight;
                length -= sizeof eight;
                continue;
            }
        }
        size_t whole = character_length(at, length);
        if (whole == 0)
            return false;
        at += whole;
        length -= whole;
    }
    return true;
}

size_t whole_characters(const char *bytes, size_t length)
{
    while (length > 0 && ((unsigned char)bytes[length] & 0xc0) == 0x80)
        length--;
    return length;
}

/* The character that an escape with this letter stands for; 0 where it is none. */
static char escaped_character(char letter)
{
    switch (letter) {
    case 'n':
        return '\n';
    case 't':
        return '\t';
    case '\\':
        return '\\';
    default:
        return 0;
    }
}

size_t unescape(char *bytes, size_t length)
{
    char *backslash = memchr(bytes, '\\', length);
    if (backslash == NULL)
        return length;
    size_t kept = (size_t)(backslash - bytes);
    for (size_t at = kept; at < length; at++) {
        char character = at + 1 < length && bytes[at] == '\\' ? escaped_character(bytes[at + 1]) : 0;
        if (character != 0)
            at++;
        else
            character = bytes[at];
        bytes[kept++] = character;
    }
    return kept;
}
