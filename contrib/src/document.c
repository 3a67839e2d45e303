#include "document.h"

#include <errno.h>
#include <stdio.h>
#include <string.h>
#include <strings.h>

#include "input.h"
#include "parser.h"

/* No character of an XML document begins with this byte in UTF-8, nor goes on with it. */
#define REFUSED_BYTE '\xff'

/* Reads more behind what wasn't given yet. False where the read failed. */
static bool read_more(struct document *document)
{
    memmove(document->raw, document->raw + document->start, document->end - document->start);
    document->end -= document->start;
    document->start = 0;
    ssize_t length =
        input_read(document->descriptor, document->raw + document->end, sizeof document->raw - document->end);
    if (length < 0)
        return false;
    document->end += (size_t)length;
    document->is_over = length == 0;
    return true;
}

static bool begins_with(const struct document *document, const char *bytes, size_t length)
{
    return document->end >= length && memcmp(document->raw, bytes, length) == 0;
}

/* A parser that stops at the first thing in a document, and what this thing says of the encoding. */
struct declaration {
    XML_Parser parser;
    bool is_known;
    char encoding[sizeof((struct document *)0)->encoding];
};

static void declaration_found(void *data, const char *version, const char *encoding, int standalone)
{
    struct declaration *declaration = data;
    (void)version;
    (void)standalone;
    if (encoding != NULL)
        snprintf(declaration->encoding, sizeof declaration->encoding, "%s", encoding);
    declaration->is_known = true;
    XML_StopParser(declaration->parser, XML_FALSE);
}

static void other_found(void *data, const char *bytes, int length)
{
    struct declaration *declaration = data;
    (void)bytes;
    (void)length;
    declaration->is_known = true;
    XML_StopParser(declaration->parser, XML_FALSE);
}

static void declaration_feed(struct declaration *declaration, const char *bytes, size_t length)
{
    /* What is wrong is told when the document itself is parsed. */
    if (XML_Parse(declaration->parser, bytes, (int)length, XML_FALSE) != XML_STATUS_OK)
        declaration->is_known = true;
}

/* Feeds bytes of an encoding that has one byte a character. */
static void declaration_feed_converted(struct declaration *declaration, char *bytes, size_t length,
                                       const char *encoding)
{
    iconv_t converter = iconv_open("UTF-8", encoding);
    if (converter == (iconv_t)-1) {
        declaration->is_known = true;
        return;
    }
    while (length > 0 && !declaration->is_known) {
        char text[4096], *to = text;
        size_t room = sizeof text;
        if (iconv(converter, &bytes, &length, &to, &room) == (size_t)-1 && errno != E2BIG)
            declaration->is_known = true;
        else
            declaration_feed(declaration, text, (size_t)(to - text));
    }
    iconv_close(converter);
}

/*
 * Reads until it is known which encoding the document declares, if it does. `read_as` names an encoding by which its
 * declaration can be read, where it isn't written as in ASCII.
 */
static enum document_opened find_declared(struct document *document, const char *read_as)
{
    struct declaration declaration = {.parser = parser_create(NULL)};
    if (declaration.parser == NULL) {
        errno = ENOMEM;
        return DOCUMENT_UNREADABLE;
    }
    XML_SetUserData(declaration.parser, &declaration);
    XML_SetXmlDeclHandler(declaration.parser, declaration_found);
    XML_SetDefaultHandler(declaration.parser, other_found);
    size_t fed = 0;
    enum document_opened opened = DOCUMENT_OPENED;
    for (;;) {
        if (read_as == NULL)
            declaration_feed(&declaration, document->raw + fed, document->end - fed);
        else
            declaration_feed_converted(&declaration, document->raw + fed, document->end - fed, read_as);
        fed = document->end;
        if (declaration.is_known || document->is_over || document->end == sizeof document->raw)
            break;
        if (!read_more(document)) {
            opened = DOCUMENT_UNREADABLE;
            break;
        }
    }
    memcpy(document->encoding, declaration.encoding, sizeof document->encoding);
    XML_ParserFree(declaration.parser);
    return opened;
}

/* The encodings that expat reads without help, UTF-16 in either order. */
static bool expat_reads(const char *encoding)
{
    static const char *const names[] = {"UTF-8", "UTF-16", "UTF-16BE", "UTF-16LE", "ISO-8859-1", "US-ASCII"};
    for (size_t at = 0; at < sizeof names / sizeof *names; at++)
        if (strcasecmp(names[at], encoding) == 0)
            return true;
    return false;
}

/* Has iconv read the encoding that is noted. */
static enum document_opened convert(struct document *document)
{
    document->told = "UTF-8";
    document->converter = iconv_open("UTF-8", document->encoding);
    return document->converter == (iconv_t)-1 ? DOCUMENT_UNKNOWN_ENCODING : DOCUMENT_OPENED;
}

enum document_opened document_open(struct document *document, int descriptor)
{
    *document = (struct document){.descriptor = descriptor};
    while (document->end < 4 && !document->is_over)
        if (!read_more(document))
            return DOCUMENT_UNREADABLE;
    /* What the first bytes say goes before what the document declares (XML 1.0, appendix F). */
    bool big = begins_with(document, "\0\0\xfe\xff", 4) || begins_with(document, "\0\0\0<", 4);
    bool little = begins_with(document, "\xff\xfe\0\0", 4) || begins_with(document, "<\0\0\0", 4);
    if (big || little) {
        snprintf(document->encoding, sizeof document->encoding, "%s", big ? "UTF-32BE" : "UTF-32LE");
        return convert(document);
    }
    if (begins_with(document, "\xef\xbb\xbf", 3)) {
        document->told = "UTF-8";
        return DOCUMENT_OPENED;
    }
    bool is_wide = begins_with(document, "\xfe\xff", 2) || begins_with(document, "\xff\xfe", 2) ||
                   begins_with(document, "\0<", 2) || begins_with(document, "<\0", 2);
    if (is_wide)
        return DOCUMENT_OPENED;
    /* In EBCDIC `<?xm`. All of its code pages agree in the characters of a declaration. */
    const char *read_as = begins_with(document, "\x4c\x6f\xa7\x94", 4) ? "IBM037" : NULL;
    enum document_opened opened = find_declared(document, read_as);
    if (opened != DOCUMENT_OPENED)
        return opened;
    if (read_as == NULL && (document->encoding[0] == '\0' || expat_reads(document->encoding))) {
        document->encoding[0] = '\0';
        return DOCUMENT_OPENED;
    }
    return convert(document);
}

bool document_is_ready(const struct document *document, int milliseconds)
{
    /* In an encoding that is converted what is left may be a part of a character, for which a read must wait. */
    bool is_held = document->encoding[0] == '\0' && document->start < document->end;
    return is_held || document->is_over || input_is_ready(document->descriptor, milliseconds);
}

/* Gives the byte that expat refuses, and notes why. */
static size_t give_refused(struct document *document, char *bytes, const char *why)
{
    document->broken = why;
    document->broken_at = document->given;
    document->start = document->end;
    document->is_over = true;
    *bytes = REFUSED_BYTE;
    return 1;
}

/* Converts what was read, as much as fits. 0 where that is less than a character. */
static size_t give_converted(struct document *document, char *bytes, size_t room)
{
    char *from = document->raw + document->start, *to = bytes;
    size_t left = document->end - document->start;
    size_t converted = iconv(document->converter, &from, &left, &to, &room);
    document->start = document->end - left;
    if (to == bytes && converted == (size_t)-1 && errno == EILSEQ)
        return give_refused(document, bytes, "bytes that are no character");
    return (size_t)(to - bytes);
}

/* Gives what iconv holds back until the end, if anything. */
static size_t give_last(struct document *document, char *bytes, size_t room)
{
    char *to = bytes;
    if (document->start < document->end)
        return give_refused(document, bytes, "the end within a character");
    if (document->broken == NULL)
        iconv(document->converter, NULL, NULL, &to, &room);
    return (size_t)(to - bytes);
}

/* Gives what was read as it is. */
static size_t give_raw(struct document *document, char *bytes, size_t room)
{
    size_t length = document->end - document->start;
    if (length > room)
        length = room;
    memcpy(bytes, document->raw + document->start, length);
    document->start += length;
    return length;
}

ssize_t document_read(struct document *document, char *bytes, size_t room)
{
    bool converts = document->encoding[0] != '\0';
    for (;;) {
        size_t length = 0;
        if (document->start < document->end)
            length = converts ? give_converted(document, bytes, room) : give_raw(document, bytes, room);
        if (length == 0 && document->is_over && converts)
            length = give_last(document, bytes, room);
        if (length > 0 || document->is_over) {
            document->given += length;
            return (ssize_t)length;
        }
        if (!read_more(document))
            return -1;
    }
}
