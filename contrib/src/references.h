/*
 * The entities that a document declares, and references to ones that it doesn't.
 *
 * Where a part of the document type isn't read, expat puts nothing in for an unknown entity in an attribute's value
 * and doesn't tell. So the tags of a document with a document type are gone through as they are written.
 */
#ifndef REFERENCES_H
#define REFERENCES_H

#include <stdbool.h>
#include <stddef.h>

#include "bytes.h"

struct references {
    /* A search tree of the declared entities. */
    void *entities;
    /* The last name that was found undeclared, with a 0 at its end. */
    struct bytes undeclared;
};

enum references_found { ALL_DECLARED, ONE_UNDECLARED, NO_MEMORY_FOR_REFERENCES };

/* Takes a declared entity with its replacement text. The first declaration of a name counts. False: no memory. */
bool references_declare(struct references *references, const char *name, const char *value, size_t length);

/*
 * Whether all entities are declared to which an attribute's value in these bytes leads. An entity's replacement text
 * is gone through once, however often it is referred to.
 */
enum references_found references_in(struct references *references, const char *markup, size_t length);

#endif
