/* Writes an XML document as lines after PYX while it is read. */
#include <errno.h>
#include <fcntl.h>
#include <getopt.h>
#include <stdbool.h>
#include <stdio.h>
#include <stdlib.h>
#include <string.h>
#include <unistd.h>

#include "document.h"
#include "failure.h"
#include "input.h"
#include "notation.h"
#include "parser.h"
#include "pyx_writer.h"
#include "references.h"

static const char usage[] = "usage: xml2pyx [--help] [--lines FILE] [DOCUMENT]\n";

static const char help[] =
    "\n"
    "Reads an XML document (a file, or standard input) and writes it to standard\n"
    "output as lines after PYX, in UTF-8, each as soon as it is known:\n"
    "\n"
    "  (NAME          an element begins\n"
    "  ANAME VALUE    an attribute, or a declaration of a namespace as it is written\n"
    "  -TEXT          character data, also from CDATA sections and entities\n"
    "  ?TARGET DATA   a processing instruction\n"
    "  CTEXT          a comment\n"
    "  )NAME          the element ends\n"
    "\n"
    "A line feed is written as \\n, a tab as \\t and a backslash as \\\\. A text that is\n"
    "too long for a line is cut into several, which are read as one again.\n"
    "\n"
    "  --lines FILE   also writes to FILE the document's name and then, for each\n"
    "                 line, the number of the line of the document that it comes\n"
    "                 from; contrib/where reads it\n"
    "\n"
    "Encodings are those of expat and of the C library's iconv.\n"
    "\n"
    "Nothing but the document is read. What its document type declares of entities\n"
    "and default attributes is put in; comments and instructions inside it are\n"
    "dropped. A reference to an external entity is refused, and so is one to an\n"
    "entity that only an external part of the document type could declare. Default\n"
    "attributes that such a part declares, or that are declared behind a reference\n"
    "to it, are not put in. Expat's limit on the expansion of entities holds.\n"
    "\n"
    "Where the document is refused, also for a line of more than 1,048,576 bytes that\n"
    "can't be cut or a piece of markup of more than 16,777,216, the last line is `!`\n"
    "and the reason, which no reader takes for a line. The reason goes to standard\n"
    "error, and the exit status is 1.\n";

/* The bytes that are asked for at once. */
enum { READ_SIZE = 65536 };

/* A tag and the like that isn't whole is parsed again from its beginning; up to so many bytes that costs little. */
enum { SMALL_MARKUP = 16384 };

struct reader {
    const char *name;
    struct document document;
    XML_Parser parser;
    struct pyx_writer writer;
    struct references references;
    /* The tag, or the declaration of attributes, as it is written. */
    struct bytes markup;
    bool has_doctype;
    bool is_in_doctype;
    bool is_in_attribute_list;
    bool is_standalone;
    /* Behind a reference to a part of the document type that isn't read, expat passes over what is declared. */
    bool passes_declarations;
    XML_Index doctype_begins;
};

/* The line of the document that the event comes from. */
static unsigned long place(const struct reader *reader)
{
    return reader->writer.places != NULL ? XML_GetCurrentLineNumber(reader->parser) : 0;
}

/* Ends the lines with the reason, and the program. */
static _Noreturn void refuse_at(struct reader *reader, unsigned long line, const char *why)
{
    char reason[REASON_SIZE];
    reason_format(reason, "line %lu: %s", line, why);
    pyx_refusal(&reader->writer, line, reason);
    pyx_close(&reader->writer);
    fail(reader->name, reason);
}

static _Noreturn void refuse(struct reader *reader, const char *why)
{
    refuse_at(reader, XML_GetCurrentLineNumber(reader->parser), why);
}

static _Noreturn void refuse_name(struct reader *reader, const char *before, const char *name, const char *behind)
{
    char why[REASON_SIZE];
    reason_format(why, "%s%.200s%s", before, name, behind);
    refuse(reader, why);
}

static _Noreturn void refuse_memory(struct reader *reader)
{
    refuse(reader, "out of memory");
}

/* Refuses a tag, an instruction or a comment that was kept too long; one in an entity is as long as the entity. */
static void check_markup(struct reader *reader, size_t length)
{
    if (length > MARKUP_LIMIT)
        refuse(reader, "a piece of markup has more than 16777216 bytes");
}

static void check_event(struct reader *reader)
{
    check_markup(reader, (size_t)XML_GetCurrentByteCount(reader->parser));
}

static void put(struct reader *reader, const char *what, char letter, const char *name, const char *between,
                const char *value)
{
    if (!pyx_line(&reader->writer, place(reader), letter, name, between, value))
        refuse_name(reader, what, "", " needs a line of more than 1048576 bytes");
}

static void keep_markup(void *data, const char *bytes, int length)
{
    struct reader *reader = data;
    if (!bytes_add(&reader->markup, bytes, (size_t)length))
        refuse_memory(reader);
}

/* Refuses a reference to an unknown entity in the markup that was kept. */
static void check_references(struct reader *reader)
{
    switch (references_in(&reader->references, reader->markup.at, reader->markup.length)) {
    case ALL_DECLARED:
        return;
    case ONE_UNDECLARED:
        refuse_name(reader, "the entity ", reader->references.undeclared.at, " isn't declared in what is read");
    case NO_MEMORY_FOR_REFERENCES:
        refuse_memory(reader);
    }
}

static void check_tag(struct reader *reader)
{
    reader->markup.length = 0;
    XML_SetDefaultHandlerExpand(reader->parser, keep_markup);
    XML_DefaultCurrent(reader->parser);
    XML_SetDefaultHandlerExpand(reader->parser, NULL);
    check_references(reader);
}

/*
 * Takes the tokens of the document type that have no handler of their own, and checks the default values among them.
 * A long token comes in parts, of which none is just the beginning or the end of a declaration.
 */
static void on_other_in_doctype(void *data, const char *bytes, int length)
{
    static const char begin[] = "<!ATTLIST";
    struct reader *reader = data;
    if (!reader->is_in_attribute_list) {
        reader->is_in_attribute_list = length == sizeof begin - 1 && memcmp(bytes, begin, sizeof begin - 1) == 0;
        reader->markup.length = 0;
    } else if (length == 1 && *bytes == '>') {
        reader->is_in_attribute_list = false;
        if (!reader->passes_declarations)
            check_references(reader);
    } else {
        keep_markup(reader, bytes, length);
    }
}

static void check_name(struct reader *reader, const char *name)
{
    if (!is_name(name, strlen(name)))
        refuse_name(reader, "", name, " is no name of the notation");
}

static void on_start(void *data, const char *name, const char **attributes)
{
    struct reader *reader = data;
    check_event(reader);
    check_name(reader, name);
    for (const char **attribute = attributes; *attribute != NULL; attribute += 2)
        check_name(reader, attribute[0]);
    if (reader->has_doctype && *attributes != NULL)
        check_tag(reader);
    put(reader, "a name", '(', name, "", "");
    for (const char **attribute = attributes; *attribute != NULL; attribute += 2)
        put(reader, "an attribute", 'A', attribute[0], " ", attribute[1]);
}

static void on_end(void *data, const char *name)
{
    put(data, "a name", ')', name, "", "");
}

static void on_text(void *data, const char *text, int length)
{
    struct reader *reader = data;
    pyx_text(&reader->writer, place(reader), text, (size_t)length);
}

static void on_instruction(void *data, const char *target, const char *value)
{
    struct reader *reader = data;
    check_event(reader);
    if (reader->is_in_doctype)
        return;
    if (!is_ncname(target, strlen(target)))
        refuse_name(reader, "", target, " is no name of the notation");
    put(reader, "an instruction", '?', target, " ", value);
}

static void on_comment(void *data, const char *text)
{
    struct reader *reader = data;
    check_event(reader);
    if (!reader->is_in_doctype)
        put(reader, "a comment", 'C', "", "", text);
}

static void on_doctype(void *data, const char *name, const char *system, const char *public, int has_internal_subset)
{
    struct reader *reader = data;
    (void)name;
    (void)system;
    (void)public;
    (void)has_internal_subset;
    reader->has_doctype = reader->is_in_doctype = true;
    reader->doctype_begins = XML_GetCurrentByteIndex(reader->parser);
    XML_SetDefaultHandlerExpand(reader->parser, on_other_in_doctype);
}

static void check_doctype(struct reader *reader)
{
    if (XML_GetCurrentByteIndex(reader->parser) - reader->doctype_begins > (XML_Index)MARKUP_LIMIT)
        refuse(reader, "the document type has more than 16777216 bytes");
}

static void on_doctype_end(void *data)
{
    struct reader *reader = data;
    check_doctype(reader);
    reader->is_in_doctype = false;
    XML_SetDefaultHandlerExpand(reader->parser, NULL);
}

static void on_entity(void *data, const char *name, int is_parameter, const char *value, int length, const char *base,
                      const char *system, const char *public, const char *notation)
{
    struct reader *reader = data;
    (void)base;
    (void)system;
    (void)public;
    (void)notation;
    /* An external entity has no value here; a reference to it is told by expat. */
    if (!is_parameter && !references_declare(&reader->references, name, value, value != NULL ? (size_t)length : 0))
        refuse_memory(reader);
}

/* Asked for an external entity, or without a context for an external part of the document type. */
static int on_external(XML_Parser parser, const char *context, const char *base, const char *system,
                       const char *public)
{
    struct reader *reader = XML_GetUserData(parser);
    (void)base;
    (void)public;
    if (context != NULL)
        refuse_name(reader, "the external entity ", system, " isn't fetched");
    reader->passes_declarations = !reader->is_standalone;
    return XML_STATUS_OK;
}

static void on_skipped(void *data, const char *name, int is_parameter)
{
    struct reader *reader = data;
    if (!is_parameter)
        refuse_name(reader, "the entity ", name, " isn't declared in what is read");
    reader->passes_declarations = !reader->is_standalone;
}

static void on_declaration(void *data, const char *version, const char *encoding, int standalone)
{
    struct reader *reader = data;
    (void)version;
    (void)encoding;
    reader->is_standalone = standalone == 1;
}

static void listen(struct reader *reader)
{
    XML_Parser parser = reader->parser;
    XML_SetUserData(parser, reader);
    XML_SetElementHandler(parser, on_start, on_end);
    XML_SetCharacterDataHandler(parser, on_text);
    XML_SetProcessingInstructionHandler(parser, on_instruction);
    XML_SetCommentHandler(parser, on_comment);
    XML_SetDoctypeDeclHandler(parser, on_doctype, on_doctype_end);
    XML_SetEntityDeclHandler(parser, on_entity);
    XML_SetXmlDeclHandler(parser, on_declaration);
    XML_SetExternalEntityRefHandler(parser, on_external);
    XML_SetSkippedEntityHandler(parser, on_skipped);
    /* Without it what stands behind a reference to a parameter entity would be passed over. */
    XML_SetParamEntityParsing(parser, XML_PARAM_ENTITY_PARSING_ALWAYS);
}

/* Refuses the document for what expat says of it. */
static _Noreturn void refuse_parsed(struct reader *reader)
{
    const struct document *document = &reader->document;
    enum XML_Error error = XML_GetErrorCode(reader->parser);
    bool is_broken = document->broken != NULL && error == XML_ERROR_INVALID_TOKEN &&
                     XML_GetErrorByteIndex(reader->parser) == (XML_Index)document->broken_at;
    if (!is_broken)
        refuse(reader, XML_ErrorString(error));
    char why[REASON_SIZE];
    reason_format(why, "%s of %s", document->broken, document->encoding);
    refuse(reader, why);
}

/* The bytes of the tag or the like that was begun and isn't whole. */
static size_t pending(const struct reader *reader)
{
    XML_Index parsed = XML_GetCurrentByteIndex(reader->parser);
    return reader->document.given - (parsed > 0 ? (size_t)parsed : 0);
}

/*
 * Reads into the parser's buffer, at least a byte where the end isn't reached. What is pending is parsed again from
 * its beginning, so behind a large piece of markup half as much again is read first, or what comes until the input
 * rests for a time that is long beside that of the parsing.
 */
static size_t read_next(struct reader *reader, char *buffer, size_t room)
{
    size_t begun = pending(reader), length = 0;
    for (;;) {
        if (!document_is_ready(&reader->document, 0))
            pyx_flush(&reader->writer);
        ssize_t more = document_read(&reader->document, buffer + length, room - length);
        if (more < 0)
            refuse(reader, strerror(errno));
        length += (size_t)more;
        if (more == 0 || begun <= SMALL_MARKUP || room - length < DOCUMENT_LEAST_ROOM)
            return length;
        if (!document_is_ready(&reader->document, (int)(begun / SMALL_MARKUP)))
            return length;
    }
}

static void parse(struct reader *reader)
{
    size_t length;
    do {
        size_t room = pending(reader) / 2;
        if (room < READ_SIZE)
            room = READ_SIZE;
        char *buffer = XML_GetBuffer(reader->parser, (int)room);
        if (buffer == NULL)
            refuse_memory(reader);
        length = read_next(reader, buffer, room);
        if (XML_ParseBuffer(reader->parser, (int)length, length == 0) != XML_STATUS_OK)
            refuse_parsed(reader);
        check_markup(reader, pending(reader));
        if (reader->is_in_doctype)
            check_doctype(reader);
    } while (length > 0);
}

/* Opens the document, which is known by then to be a file or standard input. */
static void open_document(struct reader *reader, int descriptor)
{
    char why[REASON_SIZE];
    switch (document_open(&reader->document, descriptor)) {
    case DOCUMENT_OPENED:
        break;
    case DOCUMENT_UNREADABLE:
        refuse_at(reader, 1, strerror(errno));
    case DOCUMENT_UNKNOWN_ENCODING:
        reason_format(why, "unknown encoding: %s", reader->document.encoding);
        refuse_at(reader, 1, why);
    }
    reader->parser = parser_create(reader->document.told);
    if (reader->parser == NULL)
        refuse_at(reader, 1, "out of memory");
    listen(reader);
}

/* Opens the file of places and writes the document's name, in a line. */
static void open_places(struct output *places, const char *file, const char *document)
{
    int descriptor = open(file, O_WRONLY | O_CREAT | O_TRUNC | O_CLOEXEC, 0666);
    if (descriptor < 0)
        fail(file, strerror(errno));
    output_start(places, descriptor, file);
    for (; *document != '\0'; document++) {
        char letter = escape_letter(*document);
        if (letter != 0)
            output_byte(places, '\\');
        output_byte(places, letter != 0 ? letter : *document);
    }
    output_byte(places, '\n');
}

struct words {
    const char *document;
    const char *places;
};

/* Reads the words; ends the program where they ask for help or are none. */
static struct words read_words(int count, char **texts)
{
    static const struct option options[] = {
        {"help", no_argument, NULL, 'h'},
        {"lines", required_argument, NULL, 'l'},
        {NULL, 0, NULL, 0},
    };
    struct words words = {NULL, NULL};
    int option;
    while ((option = getopt_long(count, texts, "h", options, NULL)) != -1) {
        if (option == 'h')
            end_with_help(usage, help);
        if (option != 'l')
            end_with_usage(usage);
        words.places = optarg;
    }
    if (count - optind > 1)
        end_with_usage(usage);
    if (optind < count)
        words.document = texts[optind];
    return words;
}

int main(int count, char **texts)
{
    static struct output lines, places;
    static struct reader reader;
    int descriptor = STDIN_FILENO;
    program = "xml2pyx";
    struct words words = read_words(count, texts);
    output_start(&lines, STDOUT_FILENO, "standard output");
    reader.writer.lines = &lines;
    reader.name = "standard input";
    if (words.document != NULL) {
        reader.name = words.document;
        descriptor = input_open(words.document);
    }
    if (words.places != NULL) {
        open_places(&places, words.places, reader.name);
        reader.writer.places = &places;
    }
    open_document(&reader, descriptor);
    parse(&reader);
    pyx_close(&reader.writer);
    return EXIT_SUCCESS;
}
