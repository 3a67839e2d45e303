#include "references.h"

#include <search.h>
#include <stdlib.h>
#include <string.h>

struct entity {
    const char *name;
    size_t name_length;
    char *value;
    size_t value_length;
    bool was_seen;
    /* The next one whose value is still to be gone through. */
    struct entity *next;
};

static int compare(const void *one, const void *other)
{
    const struct entity *left = one, *right = other;
    size_t shorter = left->name_length < right->name_length ? left->name_length : right->name_length;
    int order = memcmp(left->name, right->name, shorter);
    return order != 0 ? order : (left->name_length > right->name_length) - (left->name_length < right->name_length);
}

static bool is_predefined(const char *name, size_t length)
{
    static const char *const names[] = {"lt", "gt", "amp", "apos", "quot"};
    for (size_t at = 0; at < sizeof names / sizeof *names; at++)
        if (strlen(names[at]) == length && memcmp(names[at], name, length) == 0)
            return true;
    return false;
}

bool references_declare(struct references *references, const char *name, const char *value, size_t length)
{
    size_t name_length = strlen(name);
    /* The name and the value stand behind the entity, in one piece of memory. */
    struct entity *entity = malloc(sizeof *entity + name_length + length);
    if (entity == NULL)
        return false;
    char *kept_name = (char *)(entity + 1);
    memcpy(kept_name, name, name_length);
    if (length > 0)
        memcpy(kept_name + name_length, value, length);
    *entity = (struct entity){
        .name = kept_name,
        .name_length = name_length,
        .value = kept_name + name_length,
        .value_length = length,
    };
    struct entity **found = tsearch(entity, &references->entities, compare);
    if (found == NULL || *found != entity)
        free(entity);
    return found != NULL;
}

/* Goes through one text and puts the entities that are met first before those that wait. */
static enum references_found look_through(struct references *references, const char *text, size_t length,
                                          struct entity **waiting)
{
    const char *end = text + length;
    while ((text = memchr(text, '&', (size_t)(end - text))) != NULL) {
        text++;
        const char *semicolon = memchr(text, ';', (size_t)(end - text));
        if (semicolon == NULL)
            break;
        struct entity sought = {.name = text, .name_length = (size_t)(semicolon - text)};
        text = semicolon + 1;
        if (sought.name[0] == '#' || is_predefined(sought.name, sought.name_length))
            continue;
        struct entity **found = tfind(&sought, &references->entities, compare);
        if (found == NULL) {
            references->undeclared.length = 0;
            bool kept = bytes_add(&references->undeclared, sought.name, sought.name_length) &&
                        bytes_add(&references->undeclared, "", 1);
            return kept ? ONE_UNDECLARED : NO_MEMORY_FOR_REFERENCES;
        }
        if (!(*found)->was_seen) {
            (*found)->was_seen = true;
            (*found)->next = *waiting;
            *waiting = *found;
        }
    }
    return ALL_DECLARED;
}

enum references_found references_in(struct references *references, const char *markup, size_t length)
{
    struct entity *waiting = NULL;
    enum references_found found = look_through(references, markup, length, &waiting);
    while (found == ALL_DECLARED && waiting != NULL) {
        struct entity *entity = waiting;
        waiting = entity->next;
        found = look_through(references, entity->value, entity->value_length, &waiting);
    }
    return found;
}
