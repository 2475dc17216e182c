/* What the files that write JSON share. */
#ifndef LANYARDROVE_JSON_H
#define LANYARDROVE_JSON_H

#include "cli.h"

#include <jansson.h>

json_t *json_text(const char *text);

/* One document, printed at the end: what is told is added to an array. */
void json_append(json_t *array, json_t *value);
void json_add(json_t *value);
json_t *json_told(void);
bool print_document(json_t *document);

void add_offset(json_t *object, const List *list, size_t place);
json_t *location_json(const Arguments *arguments, const char *path, const List *list, size_t place, const char *text);
bool sarif_print(json_t *rules, bool read);

#endif
