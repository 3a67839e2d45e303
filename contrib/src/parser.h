/* Parsers of expat. */
#ifndef PARSER_H
#define PARSER_H

#include <expat.h>

/* A parser that tells each event as soon as it is whole. NULL where there is no memory. */
XML_Parser parser_create(const char *encoding);

#endif
