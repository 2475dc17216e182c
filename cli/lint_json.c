/* What lint tells machines, by jansson: as JSON of its own, and as SARIF. */
#include "json.h"
#include "lint.h"

/* -- json ---------------------------------------------------------------- */

static json_t *warning_json(const List *list, const Warning *warning)
{
    json_t *value = json_pack("{s:s, s:I, s:s}", "name", warning_name(warning->kind), "place", (json_int_t)warning->place, "text", warning->text);
    if (value != NULL && !is_of_list(warning->kind)) {
        json_object_set_new(value, "command", json_string(name_at(list, warning->place)));
        add_offset(value, list, warning->place);
    }
    return value;
}

/* A list that could not be read to its end has the warnings of what was. */
void lint_json_tell(const Arguments *arguments, const Linted *linted)
{
    json_t *warnings = json_array();
    bool read = linted->list != NULL && is_read_whole(linted->warnings);
    (void)arguments;
    for (size_t i = 0; linted->list != NULL && i < linted->warnings->count; i++)
        json_append(warnings, warning_json(linted->list, &linted->warnings->warnings[i]));
    json_add(json_pack("{s:o, s:b, s:o}", "file", json_text(linted->path), "read", read, "warnings", warnings));
}

bool lint_json_end(const Arguments *arguments, const LintTally *tally)
{
    char version[VERSION_ROOM];
    (void)arguments;
    version_text(version);
    return print_document(json_pack("{s:s, s:s, s:o, s:I, s:I}", "version", version, "note", NO_VERDICT, "lists", json_told(), "warnings",
                                    (json_int_t)tally->warnings, "unread", (json_int_t)tally->unread));
}

/* -- sarif ----------------------------------------------------------------- */

/* A warning of the whole list names the file alone. */
void lint_sarif_tell(const Arguments *arguments, const Linted *linted)
{
    for (size_t i = 0; linted->list != NULL && i < linted->warnings->count; i++) {
        const Warning *warning = &linted->warnings->warnings[i];
        json_t *location = location_json(arguments, linted->path, linted->list, warning->place, NULL);
        if (is_of_list(warning->kind))
            json_object_del(json_object_get(location, "physicalLocation"), "region");
        json_add(json_pack("{s:s, s:s, s:{s:o}, s:[o]}", "ruleId", warning_name(warning->kind), "level", "warning", "message", "text",
                           json_sprintf("no verdict: %s", warning->text), "locations", location));
    }
}

bool lint_sarif_end(const Arguments *arguments, const LintTally *tally)
{
    json_t *rules = json_array();
    (void)arguments;
    for (WarningKind kind = 0; kind < WARNING_KINDS; kind++)
        json_append(rules, json_pack("{s:s, s:{s:s}}", "id", warning_name(kind), "fullDescription", "text", warning_rule(kind)));
    return sarif_print(rules, tally->unread == 0);
}
