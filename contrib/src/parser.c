#include "parser.h"

_Static_assert(sizeof(XML_Char) == 1, "expat gives its texts in UTF-8");

/* Later expats, and some that were mended, have it; so it is weak, and is asked for when the program runs. */
extern XML_Bool XML_SetReparseDeferralEnabled(XML_Parser parser, XML_Bool enabled) __attribute__((weak));

XML_Parser parser_create(const char *encoding)
{
    XML_Parser parser = XML_ParserCreate(encoding);
    /* Else a tag that comes in two parts waits for as many bytes again. */
    if (parser != NULL && XML_SetReparseDeferralEnabled != NULL)
        XML_SetReparseDeferralEnabled(parser, XML_FALSE);
    return parser;
}
