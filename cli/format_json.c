/* What check tells machines, by jansson: as JSON of its own, and as SARIF. Both are one document, printed at the end. */
#define _POSIX_C_SOURCE 200809L
#include "check.h"
#include "json.h"

#include <stdlib.h>
#include <string.h>

static json_t *told; /* an array of what was told; NULL before the first */
static bool failed;  /* memory was short, and the document is not printed */

/* A value that could not be made, or has no room, is remembered. */
void json_append(json_t *array, json_t *value)
{
    failed = json_array_append_new(array, value) != 0 || failed;
}

/* Adds to what is told. */
void json_add(json_t *value)
{
    if (told == NULL)
        told = json_array();
    json_append(told, value);
}

/* All that was told, for a document. */
json_t *json_told(void)
{
    return told != NULL ? told : json_array();
}

bool print_document(json_t *document)
{
    bool done = !failed && document != NULL && json_dumpf(document, stdout, JSON_INDENT(2)) == 0;
    if (done)
        putchar('\n');
    else
        complain("the document could not be made");
    json_decref(document);
    told = NULL;
    return done;
}

/* A text as JSON has it: bytes that are no UTF-8 become '?'. */
json_t *json_text(const char *text)
{
    json_t *value = json_string(text);
    char *copy = value == NULL ? strdup(text) : NULL;
    for (char *at = copy; at != NULL && *at != '\0'; at++)
        if ((unsigned char)*at > 127)
            *at = '?';
    if (copy != NULL)
        value = json_string(copy);
    free(copy);
    return value;
}

/* -- json ---------------------------------------------------------------- */

/* The offset in memory of a word of a translated list. */
void add_offset(json_t *object, const List *list, size_t place)
{
    uint32_t offset;
    if (object != NULL && offset_at(list, place, &offset))
        json_object_set_new(object, "offset", json_integer(offset));
}

static json_t *command_json(const List *list, size_t place)
{
    json_t *command = json_pack("{s:I, s:s}", "place", (json_int_t)place, "command", name_at(list, place));
    add_offset(command, list, place);
    return command;
}

/* A refusal: of a command, with the one that a missing sync has to wait for, or of the whole list. */
static json_t *finding_json(const List *list, Answer answer)
{
    Meaning meaning = meaning_of(list, answer, FOR_CHECK);
    json_t *finding = json_pack("{s:i, s:I, s:s}", "number", (int)answer.number, "place", (json_int_t)answer.place, "text", meaning.text);
    if (finding != NULL && answer.number >= LANYARDROVE_PAST_END)
        json_object_set_new(finding, "command", json_string(name_at(list, answer.place)));
    add_offset(finding, list, answer.place);
    if (finding != NULL && is_missing_sync(answer))
        json_object_set_new(finding, "cause", command_json(list, answer.third));
    return finding;
}

static json_t *findings_json(const Checked *checked)
{
    json_t *findings = json_array();
    for (size_t i = 0; i < checked->findings->count; i++)
        json_append(findings, finding_json(checked->list, checked->findings->answers[i]));
    return findings;
}

void json_tell(const Arguments *arguments, const Checked *checked)
{
    const List *list = checked->list;
    uint32_t saved;
    (void)arguments;
    if (list == NULL) {
        json_add(json_pack("{s:o, s:s}", "file", json_text(checked->path), "verdict", "unread"));
        return;
    }
    json_t *entry = json_pack("{s:o, s:s, s:i, s:I, s:I, s:b, s:o}", "file", json_text(checked->path), "verdict",
                              is_accepted(list->verdict) ? "accepted" : "refused", "number", (int)list->verdict.number, "place",
                              (json_int_t)list->verdict.place, "cycles", (json_int_t)cycles_waited(list), "empty", list->length == 0, "findings",
                              findings_json(checked));
    if (entry != NULL && cycles_saved(list, &saved))
        json_object_set_new(entry, "saved", json_integer(saved));
    json_add(entry);
}

bool json_end(const Arguments *arguments, const Tally *tally)
{
    char version[VERSION_ROOM];
    (void)arguments;
    version_text(version);
    return print_document(json_pack("{s:s, s:o, s:i, s:i, s:i, s:i}", "version", version, "lists", json_told(), "accepted",
                                    (int)tally->accepted, "empty", (int)tally->empty, "refused", (int)tally->refused, "unread", (int)tally->unread));
}

/* -- sarif, version 2.1.0 ------------------------------------------------ */

/* A path as a URI reference has it. */
static json_t *uri_json(const char *path)
{
    static const char plain[] = "ABCDEFGHIJKLMNOPQRSTUVWXYZabcdefghijklmnopqrstuvwxyz0123456789-._~/";
    char *uri = malloc(3 * strlen(path) + 1), *end = uri;
    for (; uri != NULL && *path != '\0'; path++)
        end += sprintf(end, strchr(plain, *path) != NULL ? "%c" : "%%%02X", (unsigned char)*path);
    if (uri != NULL)
        *end = '\0';
    json_t *value = uri != NULL ? json_string(uri) : NULL;
    free(uri);
    return value;
}

/* Where the word of a place stands in the file; of a translated list the command that it comes from. */
static bool byte_of(const Arguments *arguments, const List *list, size_t place, uint64_t *byte)
{
    uint32_t offset = 0;
    bool known = !arguments->input.display.is_given || offset_at(list, place, &offset);
    *byte = arguments->input.display.is_given ? offset : arguments->input.offset.value + 8 * place;
    return known;
}

/* The word of a list that a place names; the file alone where the word comes from no place that is known. */
json_t *location_json(const Arguments *arguments, const char *path, const List *list, size_t place, const char *text)
{
    json_t *physical = json_pack("{s:{s:o}}", "artifactLocation", "uri", uri_json(path));
    uint64_t byte;
    if (physical != NULL && byte_of(arguments, list, place, &byte))
        json_object_set_new(physical, "region", json_pack("{s:I, s:i}", "byteOffset", (json_int_t)byte, "byteLength", 8));
    json_t *location = json_pack("{s:o}", "physicalLocation", physical);
    if (location != NULL && text != NULL)
        json_object_set_new(location, "message", json_pack("{s:s}", "text", text));
    return location;
}

static json_t *rule_id(unsigned number)
{
    return json_sprintf("%u", number);
}

void sarif_tell(const Arguments *arguments, const Checked *checked)
{
    for (size_t i = 0; checked->list != NULL && i < checked->findings->count; i++) {
        Answer answer = checked->findings->answers[i];
        Meaning meaning = meaning_of(checked->list, answer, FOR_CHECK);
        json_t *result = json_pack("{s:o, s:s, s:{s:s}, s:[o]}", "ruleId", rule_id(answer.number), "level", "error", "message", "text", meaning.text,
                                   "locations", location_json(arguments, checked->path, checked->list, answer.place, NULL));
        if (result != NULL && is_missing_sync(answer))
            json_object_set_new(result, "relatedLocations", json_pack("[o]", location_json(arguments, checked->path, checked->list, answer.third,
                                                                                          meaning.text + meaning.cause)));
        json_add(result);
    }
}

/* The refusals of the check, which are those that have a reason. */
static json_t *rules_json(void)
{
    json_t *rules = json_array();
    for (unsigned number = LANYARDROVE_TOO_LONG; number <= LANYARDROVE_RECORD_DAMAGED; number++) {
        const char *reason = reason_of(number);
        if (reason[0] != '\0')
            json_append(rules, json_pack("{s:o, s:{s:s}}", "id", rule_id(number), "fullDescription", "text", reason));
    }
    return rules;
}

/* What was told as results, under their rules. */
bool sarif_print(json_t *rules, bool read)
{
    char version[VERSION_ROOM];
    version_text(version);
    json_t *run = json_pack("{s:{s:{s:s, s:s, s:o}}, s:[{s:b}], s:o}", "tool", "driver", "name", "lanyardrove", "version", version, "rules", rules,
                            "invocations", "executionSuccessful", read, "results", json_told());
    return print_document(json_pack("{s:s, s:s, s:[o]}", "$schema", "https://json.schemastore.org/sarif-2.1.0.json", "version", "2.1.0", "runs", run));
}

bool sarif_end(const Arguments *arguments, const Tally *tally)
{
    (void)arguments;
    return sarif_print(rules_json(), tally->unread == 0);
}
