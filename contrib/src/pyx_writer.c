#include "pyx_writer.h"

#include <stdio.h>
#include <string.h>

#include "notation.h"

/* One byte of a text line is kept free, since a carriage return at its end is doubled: one is dropped in reading. */
#define TEXT_LIMIT (LINE_LIMIT - 1)

static void begin_line(struct pyx_writer *writer, unsigned long place, char letter)
{
    if (writer->places != NULL) {
        char number[32];
        int length = snprintf(number, sizeof number, "%lu\n", place);
        output_put(writer->places, number, (size_t)length);
    }
    output_byte(writer->lines, letter);
}

static void end_text(struct pyx_writer *writer)
{
    if (writer->text_length == 0)
        return;
    if (writer->text_ends_in_return)
        output_byte(writer->lines, '\r');
    output_byte(writer->lines, '\n');
    writer->text_length = 0;
}

/* Puts what can't be cut, at least a byte, into the open text line or into a new one. */
static void put_whole(struct pyx_writer *writer, unsigned long place, const char *bytes, size_t length)
{
    if (writer->text_length > 0 && length > TEXT_LIMIT - writer->text_length)
        end_text(writer);
    if (writer->text_length == 0) {
        begin_line(writer, place, '-');
        writer->text_length = 1;
    }
    output_put(writer->lines, bytes, length);
    writer->text_length += length;
    writer->text_ends_in_return = bytes[length - 1] == '\r';
}

/* Puts characters that stand for themselves. */
static void put_plain(struct pyx_writer *writer, unsigned long place, const char *bytes, size_t length)
{
    while (length > 0) {
        size_t room = TEXT_LIMIT - (writer->text_length > 0 ? writer->text_length : 1);
        size_t part = length <= room ? length : whole_characters(bytes, room);
        if (part == 0) {
            end_text(writer);
            continue;
        }
        put_whole(writer, place, bytes, part);
        bytes += part;
        length -= part;
    }
}

/* The length of the longest front without a character that gets an escape. */
static size_t plain_length(const char *bytes, size_t length)
{
    size_t at = 0;
    while (at < length && escape_letter(bytes[at]) == 0)
        at++;
    return at;
}

void pyx_text(struct pyx_writer *writer, unsigned long place, const char *text, size_t length)
{
    while (length > 0) {
        size_t plain = plain_length(text, length);
        put_plain(writer, place, text, plain);
        if (plain < length) {
            char escape[] = {'\\', escape_letter(text[plain])};
            put_whole(writer, place, escape, sizeof escape);
            plain++;
        }
        text += plain;
        length -= plain;
    }
}

/* The bytes of a value with its escapes. */
static size_t escaped_length(const char *value, size_t length)
{
    size_t escaped = length;
    for (size_t at = 0; at < length; at++)
        escaped += escape_letter(value[at]) != 0;
    return escaped;
}

static void put_escaped(struct output *lines, const char *value, size_t length)
{
    while (length > 0) {
        size_t plain = plain_length(value, length);
        output_put(lines, value, plain);
        if (plain < length) {
            char escape[] = {'\\', escape_letter(value[plain])};
            output_put(lines, escape, sizeof escape);
            plain++;
        }
        value += plain;
        length -= plain;
    }
}

bool pyx_line(struct pyx_writer *writer, unsigned long place, char letter, const char *name, const char *between,
              const char *value)
{
    size_t name_length = strlen(name), between_length = strlen(between), value_length = strlen(value);
    bool ends_in_return = value_length > 0 && value[value_length - 1] == '\r';
    /* The lengths are those of strings in memory, so their sum is no more than a size. */
    if (1 + name_length + between_length + escaped_length(value, value_length) + ends_in_return > LINE_LIMIT)
        return false;
    end_text(writer);
    begin_line(writer, place, letter);
    output_put(writer->lines, name, name_length);
    output_put(writer->lines, between, between_length);
    put_escaped(writer->lines, value, value_length);
    if (ends_in_return)
        output_byte(writer->lines, '\r');
    output_byte(writer->lines, '\n');
    return true;
}

void pyx_refusal(struct pyx_writer *writer, unsigned long place, const char *reason)
{
    end_text(writer);
    begin_line(writer, place, '!');
    output_put(writer->lines, reason, strlen(reason));
    output_byte(writer->lines, '\n');
}

void pyx_flush(struct pyx_writer *writer)
{
    /* The places first, so that they are known of each line that is seen. */
    if (writer->places != NULL)
        output_flush(writer->places);
    output_flush(writer->lines);
}

void pyx_close(struct pyx_writer *writer)
{
    end_text(writer);
    if (writer->places != NULL)
        output_close(writer->places);
    output_close(writer->lines);
}
