/* Writes lines after PYX as an XML document while they are read. */
#include <errno.h>
#include <getopt.h>
#include <stdbool.h>
#include <stdint.h>
#include <stdio.h>
#include <stdlib.h>
#include <string.h>
#include <strings.h>
#include <unistd.h>

#include "bytes.h"
#include "failure.h"
#include "input.h"
#include "line_reader.h"
#include "notation.h"
#include "output.h"
#include "parser.h"

static const char usage[] = "usage: pyx2xml [--help] [--declare] [LINES]\n";

static const char help[] =
    "\n"
    "Reads lines after PYX (a file, or standard input), as docs/FORMATS.md has them,\n"
    "and writes the XML document that they tell to standard output, in UTF-8, while\n"
    "they are read. A line `CTEXT` becomes a comment; empty lines and those of other\n"
    "letters are passed over.\n"
    "\n"
    "  --declare   begins with <?xml version=\"1.0\" encoding=\"UTF-8\"?>\n"
    "\n"
    "Where the lines are refused, the document ends with `<!` and the line and the\n"
    "kind of its flaw, or what XML has no way to say, so that no reader takes it for a\n"
    "whole one. The same goes to standard error, and the exit status is 1. The limits\n"
    "of a table and whether prefixes are bound are not judged here. A start tag with\n"
    "all its attributes has at most 16,777,216 bytes.\n";

static const char whitespace[] = " \t\r\n";
static const char xml_uri[] = "http://www.w3.org/XML/1998/namespace";
static const char xmlns_uri[] = "http://www.w3.org/2000/xmlns/";

/* The last line that a source may have. */
#define LINES_LIMIT UINT64_C(4294967295)

/* Where a part of some markup begins, and the line that it comes from. */
struct mark {
    size_t begins;
    uint64_t line;
};

/* Markup that isn't written yet. */
struct markup {
    struct bytes text;
    struct bytes marks;
};

struct writer {
    const char *name;
    uint64_t line;
    struct output *xml;
    /* Reads all that is written, and tells what is no XML. */
    XML_Parser judge;
    size_t judged;
    /* The names of the open elements, each with its length behind it. */
    struct bytes open;
    bool has_root;
    /* The start tag that no other line has completed yet, and comments that come behind it. */
    struct markup tag;
    struct markup comments;
    /* What the line becomes. */
    struct bytes item;
};

/* Ends the document with the reason, and the program. */
static _Noreturn void refuse_at(struct writer *writer, uint64_t line, const char *why)
{
    char reason[REASON_SIZE];
    reason_format(reason, "line %ju: %s", (uintmax_t)line, why);
    output_put(writer->xml, "<!", 2);
    output_put(writer->xml, reason, strlen(reason));
    output_byte(writer->xml, '\n');
    output_close(writer->xml);
    fail(writer->name, reason);
}

static _Noreturn void refuse(struct writer *writer, const char *why)
{
    refuse_at(writer, writer->line, why);
}

static void add(struct writer *writer, struct bytes *bytes, const char *more, size_t length)
{
    if (!bytes_add(bytes, more, length))
        refuse(writer, "out of memory");
}

static void add_string(struct writer *writer, struct bytes *bytes, const char *more)
{
    add(writer, bytes, more, strlen(more));
}

/* Notes that what is added next comes from this line. */
static void add_mark(struct writer *writer, struct markup *markup)
{
    struct mark mark = {.begins = markup->text.length, .line = writer->line};
    if (!bytes_add(&markup->marks, &mark, sizeof mark))
        refuse(writer, "out of memory");
}

/* Refuses a start tag, or the comments behind it, for which a reader could have no room. */
static void check_limit(struct writer *writer, const struct markup *markup, const char *why)
{
    if (markup->text.length > MARKUP_LIMIT)
        refuse(writer, why);
}

/* What stands for a character that XML has another way to say; NULL where it stands for itself. */
static const char *reference(char character, bool in_value)
{
    switch (character) {
    case '&':
        return "&amp;";
    case '<':
        return "&lt;";
    case '\r':
        return "&#13;";
    case '>':
        return in_value ? NULL : "&gt;";
    case '"':
        return in_value ? "&quot;" : NULL;
    /* White space but the space would be read as spaces in a value. */
    case '\t':
        return in_value ? "&#9;" : NULL;
    case '\n':
        return in_value ? "&#10;" : NULL;
    default:
        return NULL;
    }
}

static void add_referenced(struct writer *writer, struct bytes *bytes, const char *text, size_t length, bool in_value)
{
    size_t plain = 0;
    for (size_t at = 0; at < length; at++) {
        const char *instead = reference(text[at], in_value);
        if (instead == NULL)
            continue;
        add(writer, bytes, text + plain, at - plain);
        add_string(writer, bytes, instead);
        plain = at + 1;
    }
    add(writer, bytes, text + plain, length - plain);
}

/* The line of the last mark at or before a place. */
static uint64_t marked_line(const struct writer *writer, const struct bytes *marks, size_t place)
{
    uint64_t line = writer->line;
    for (size_t at = 0; marks != NULL && at < marks->length; at += sizeof(struct mark)) {
        struct mark mark;
        memcpy(&mark, marks->at + at, sizeof mark);
        if (at > 0 && mark.begins > place)
            break;
        line = mark.line;
    }
    return line;
}

/* Writes what is XML so far. The marks, if any, tell the lines; else all comes from this one. */
static void put(struct writer *writer, const struct bytes *text, const struct bytes *marks)
{
    if (XML_Parse(writer->judge, text->at, (int)text->length, XML_FALSE) != XML_STATUS_OK) {
        XML_Index place = XML_GetErrorByteIndex(writer->judge);
        size_t within = place > (XML_Index)writer->judged ? (size_t)place - writer->judged : 0;
        char why[REASON_SIZE];
        reason_format(why, "XML has no way to say this: %s", XML_ErrorString(XML_GetErrorCode(writer->judge)));
        refuse_at(writer, marked_line(writer, marks, within), why);
    }
    writer->judged += text->length;
    output_put(writer->xml, text->at, text->length);
}

static void put_markup(struct writer *writer, struct markup *markup)
{
    if (markup->text.length > 0)
        put(writer, &markup->text, &markup->marks);
    markup->text.length = markup->marks.length = 0;
}

/* Writes the line's item, outside the root element on a line of its own. */
static void put_item(struct writer *writer)
{
    if (writer->open.length == 0)
        add_string(writer, &writer->item, "\n");
    if (writer->item.length > 0)
        put(writer, &writer->item, NULL);
}

/* Writes the start tag that is pending. */
static void complete(struct writer *writer, const char *end)
{
    if (writer->tag.text.length == 0)
        return;
    add_string(writer, &writer->tag.text, end);
    put_markup(writer, &writer->tag);
    put_markup(writer, &writer->comments);
}

static void take_start(struct writer *writer, const char *name, size_t length)
{
    complete(writer, ">");
    if (writer->has_root && writer->open.length == 0)
        refuse(writer, "SecondRoot");
    writer->has_root = true;
    add(writer, &writer->open, name, length);
    if (!bytes_add(&writer->open, &length, sizeof length))
        refuse(writer, "out of memory");
    add_mark(writer, &writer->tag);
    add_string(writer, &writer->tag.text, "<");
    add(writer, &writer->tag.text, name, length);
}

/* Closes the innermost element; false where it isn't of this name. */
static bool close_element(struct writer *writer, const char *name, size_t length)
{
    struct bytes *open = &writer->open;
    size_t open_length;
    if (open->length == 0)
        return false;
    memcpy(&open_length, open->at + open->length - sizeof open_length, sizeof open_length);
    open->length -= sizeof open_length + open_length;
    return open_length == length && memcmp(open->at + open->length, name, length) == 0;
}

static void take_end(struct writer *writer, const char *name, size_t length)
{
    bool is_empty = writer->tag.text.length > 0 && writer->comments.text.length == 0;
    complete(writer, is_empty ? "/>" : ">");
    if (!close_element(writer, name, length))
        refuse(writer, "WrongEnd");
    if (!is_empty) {
        add_string(writer, &writer->item, "</");
        add(writer, &writer->item, name, length);
        add_string(writer, &writer->item, ">");
    }
    put_item(writer);
}

static bool is_text(const char *bytes, size_t length, const char *text)
{
    return length == strlen(text) && memcmp(bytes, text, length) == 0;
}

/* Refuses a declaration that the notation has and Namespaces in XML 1.0 forbids (sections 3 and 5). */
static void check_declaration(struct writer *writer, const char *name, size_t length, const char *uri,
                              size_t uri_length)
{
    const char *prefix = length > 6 ? name + 6 : "";
    size_t prefix_length = length > 6 ? length - 6 : 0;
    if (length < 5 || memcmp(name, "xmlns", 5) != 0 || (length > 5 && name[5] != ':'))
        return;
    if (is_text(prefix, prefix_length, "xmlns"))
        refuse(writer, "XML has no declaration of the prefix xmlns");
    if (is_text(prefix, prefix_length, "xml") != is_text(uri, uri_length, xml_uri))
        refuse(writer, "XML has no declaration that binds xml to another URI, or its URI to another prefix");
    if (is_text(uri, uri_length, xmlns_uri))
        refuse(writer, "XML has no declaration that binds the URI of xmlns");
    if (prefix_length > 0 && uri_length == 0)
        refuse(writer, "XML has no declaration that takes back a prefix");
}

static void take_attribute(struct writer *writer, const char *name, size_t length, const char *value,
                           size_t value_length)
{
    if (writer->tag.text.length == 0)
        refuse(writer, "AttrPlace");
    check_declaration(writer, name, length, value, value_length);
    struct bytes *tag = &writer->tag.text;
    add_mark(writer, &writer->tag);
    add_string(writer, tag, " ");
    add(writer, tag, name, length);
    add_string(writer, tag, "=\"");
    add_referenced(writer, tag, value, value_length, true);
    add_string(writer, tag, "\"");
    check_limit(writer, &writer->tag, "the start tag has more than 16777216 bytes");
}

static void take_text(struct writer *writer, const char *text, size_t length)
{
    complete(writer, ">");
    if (writer->open.length > 0) {
        add_referenced(writer, &writer->item, text, length, false);
        put_item(writer);
        return;
    }
    for (size_t at = 0; at < length; at++)
        if (text[at] == '\0' || strchr(whitespace, text[at]) == NULL)
            refuse(writer, "TextOutside");
}

/* Whether two characters stand side by side in a text. */
static bool has_pair(const char *text, size_t length, char first, char second)
{
    for (size_t at = 1; at < length; at++)
        if (text[at - 1] == first && text[at] == second)
            return true;
    return false;
}

static void take_instruction(struct writer *writer, const char *target, size_t length, const char *value,
                             size_t value_length)
{
    complete(writer, ">");
    if (length == 3 && strncasecmp(target, "xml", 3) == 0)
        refuse(writer, "XML has no instruction of this name");
    if (has_pair(value, value_length, '?', '>') || memchr(value, '\r', value_length) != NULL ||
        (value_length > 0 && value[0] != '\0' && strchr(whitespace, value[0]) != NULL))
        refuse(writer, "XML has no instruction with these data");
    add_string(writer, &writer->item, "<?");
    add(writer, &writer->item, target, length);
    if (value_length > 0)
        add_string(writer, &writer->item, " ");
    add(writer, &writer->item, value, value_length);
    add_string(writer, &writer->item, "?>");
    put_item(writer);
}

static void take_comment(struct writer *writer, const char *text, size_t length)
{
    if (has_pair(text, length, '-', '-') || (length > 0 && text[length - 1] == '-') ||
        memchr(text, '\r', length) != NULL)
        refuse(writer, "XML has no comment with this text");
    bool is_behind_tag = writer->tag.text.length > 0;
    struct bytes *bytes = is_behind_tag ? &writer->comments.text : &writer->item;
    if (is_behind_tag)
        add_mark(writer, &writer->comments);
    add_string(writer, bytes, "<!--");
    add(writer, bytes, text, length);
    add_string(writer, bytes, "-->");
    if (is_behind_tag)
        check_limit(writer, &writer->comments, "the comments in a start have more than 16777216 bytes");
    else
        put_item(writer);
}

/* Takes a line without its end. Its name and its value may be changed in it. */
static void take(struct writer *writer, char *line, size_t length)
{
    if (writer->line > LINES_LIMIT)
        refuse(writer, "TooManyLines");
    if (length > LINE_LIMIT)
        refuse(writer, "LongLine");
    if (length > 0 && line[length - 1] == '\r')
        length--;
    if (!is_utf8(line, length))
        refuse(writer, "NotUtf8");
    if (length == 0)
        return;
    char *rest = line + 1;
    size_t rest_length = length - 1;
    char *space = memchr(rest, ' ', rest_length);
    size_t name_length = space != NULL ? (size_t)(space - rest) : rest_length;
    char *value = space != NULL ? space + 1 : rest + rest_length;
    size_t value_length = (size_t)(rest + rest_length - value);
    writer->item.length = 0;
    switch (line[0]) {
    case '(':
    case ')':
        if (!is_name(rest, rest_length))
            refuse(writer, "BadName");
        (line[0] == '(' ? take_start : take_end)(writer, rest, rest_length);
        break;
    case 'A':
        if (space == NULL)
            refuse(writer, "NoSpace");
        if (!is_name(rest, name_length))
            refuse(writer, "BadName");
        take_attribute(writer, rest, name_length, value, unescape(value, value_length));
        break;
    case '-':
        take_text(writer, rest, unescape(rest, rest_length));
        break;
    case '?':
        if (!is_ncname(rest, name_length))
            refuse(writer, "BadName");
        take_instruction(writer, rest, name_length, value, unescape(value, value_length));
        break;
    case 'C':
        take_comment(writer, rest, unescape(rest, rest_length));
        break;
    default:
        if (line[0] < 'B' || line[0] > 'Z')
            refuse(writer, "UnknownLine");
    }
}

/* Takes all lines. What is written goes out before the program waits for more. */
static void take_lines(struct writer *writer, struct line_reader *lines)
{
    char *line;
    size_t length;
    for (;;) {
        enum line_found found = line_next(lines, false, &line, &length);
        if (found == LINE_NOT_READY) {
            output_flush(writer->xml);
            found = line_next(lines, true, &line, &length);
        }
        writer->line++;
        if (found == LINES_OVER)
            return;
        if (found != LINE_FOUND)
            refuse(writer, strerror(errno));
        take(writer, line, length);
    }
}

static void take_end_of_lines(struct writer *writer)
{
    if (!writer->has_root)
        refuse(writer, "NoRoot");
    if (writer->open.length > 0)
        refuse(writer, "Unclosed");
    if (XML_Parse(writer->judge, "", 0, XML_TRUE) != XML_STATUS_OK)
        refuse(writer, XML_ErrorString(XML_GetErrorCode(writer->judge)));
}

struct words {
    const char *lines;
    bool declares;
};

/* Reads the words; ends the program where they ask for help or are none. */
static struct words read_words(int count, char **texts)
{
    static const struct option options[] = {
        {"help", no_argument, NULL, 'h'},
        {"declare", no_argument, NULL, 'd'},
        {NULL, 0, NULL, 0},
    };
    struct words words = {NULL, false};
    int option;
    while ((option = getopt_long(count, texts, "h", options, NULL)) != -1) {
        if (option == 'h')
            end_with_help(usage, help);
        if (option != 'd')
            end_with_usage(usage);
        words.declares = true;
    }
    if (count - optind > 1)
        end_with_usage(usage);
    if (optind < count)
        words.lines = texts[optind];
    return words;
}

int main(int count, char **texts)
{
    static struct output xml;
    static struct line_reader lines;
    static struct writer writer;
    program = "pyx2xml";
    struct words words = read_words(count, texts);
    output_start(&xml, STDOUT_FILENO, "standard output");
    writer.xml = &xml;
    writer.name = "standard input";
    lines.descriptor = STDIN_FILENO;
    if (words.lines != NULL) {
        writer.name = words.lines;
        lines.descriptor = input_open(words.lines);
    }
    writer.judge = parser_create("UTF-8");
    if (writer.judge == NULL)
        fail(writer.name, strerror(ENOMEM));
    if (words.declares) {
        add_string(&writer, &writer.item, "<?xml version=\"1.0\" encoding=\"UTF-8\"?>\n");
        put(&writer, &writer.item, NULL);
    }
    take_lines(&writer, &lines);
    take_end_of_lines(&writer);
    output_close(&xml);
    return EXIT_SUCCESS;
}
