/* What diff tells machines, by jansson: one object. */
#include "compared.h"
#include "json.h"

#include <inttypes.h>

/* The values of a field as they are decoded. */
static json_t *field_json(const Pair *pair, size_t field)
{
    const Command *commands = pair->commands;
    return json_pack("{s:s, s:I, s:I}", "name", field_name(commands[0].number, field), "first", (json_int_t)(int64_t)commands[0].fields[field], "second",
                     (json_int_t)(int64_t)commands[1].fields[field]);
}

/* The words after a triangle's base, in hexadecimal. */
static json_t *suffix_words(const List *list, const Command *command)
{
    json_t *words = json_array();
    for (size_t i = 4; i < command->words; i++)
        json_array_append_new(words, json_sprintf("%016" PRIX64, word_at(list->bytes, command->place + i)));
    return words;
}

static json_t *fields_json(const Pair *pair)
{
    const Command *commands = pair->commands;
    json_t *fields = json_array();
    for (size_t field = 0; field < commands[0].count && pair->fields != 0; field++)
        if (pair->fields >> lanyardrove_field_bit(commands[0].number, (uint32_t)field) & 1)
            json_array_append_new(fields, field_json(pair, field));
    if (commands[0].count == LANYARDROVE_TRIANGLE_FIELDS && (pair->fields >> LANYARDROVE_SUFFIX_BIT & 1) != 0)
        json_array_append_new(fields, json_pack("{s:s, s:o, s:o}", "name", "suffix", "first", suffix_words(&pair->lists[0], &commands[0]), "second",
                                                suffix_words(&pair->lists[1], &commands[1])));
    return fields;
}

static json_t *command_json(const Command *command)
{
    return json_pack("{s:I, s:i, s:s}", "place", (json_int_t)command->place, "number", (int)command->number, "command", command_name(command->number));
}

static json_t *differences_json(const Diff *diff)
{
    json_t *differences = json_array();
    for (size_t i = 0; i < diff->compared->count; i++) {
        Pair pair = pair_of(diff->lists, &diff->compared->differences[i]);
        json_array_append_new(differences, json_pack("{s:o, s:o, s:o}", "first", command_json(&pair.commands[0]), "second",
                                                     command_json(&pair.commands[1]), "fields", fields_json(&pair)));
    }
    return differences;
}

/* null where both lists have as many commands. */
static json_t *rest_json(const Rest *rest)
{
    if (rest->commands == 0)
        return json_null();
    return json_pack("{s:s, s:I, s:I}", "list", rest->list == 0 ? "first" : "second", "place", (json_int_t)rest->place, "commands",
                     (json_int_t)rest->commands);
}

bool diff_print_json(const Diff *diff)
{
    char version[VERSION_ROOM];
    version_text(version);
    json_t *document = json_pack("{s:s, s:o, s:o, s:b, s:I, s:o, s:o}", "version", version, "first", json_text(diff->paths[0]), "second",
                                 json_text(diff->paths[1]), "same", is_same(diff->compared), "compared", (json_int_t)diff->compared->pairs, "differences",
                                 differences_json(diff), "rest", rest_json(&diff->compared->rest));
    bool done = document != NULL && json_dumpf(document, stdout, JSON_INDENT(2)) == 0;
    if (done)
        putchar('\n');
    else
        complain("the document could not be made");
    json_decref(document);
    return done;
}
