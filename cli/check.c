/* lanyardrove check: the verdict on lists. */
#include "check.h"

#include <stdlib.h>
#include <string.h>

typedef struct Format Format;

static const Format formats[] = {
    { "text", text_tell, text_end }, { "gcc", gcc_tell, lines_end }, { "github", github_tell, lines_end },
    { "json", json_tell, json_end }, { "sarif", sarif_tell, sarif_end }
};

/* NULL where there is none of the name. */
const Format *format_of(const char *name)
{
    for (size_t i = 0; i < sizeof formats / sizeof formats[0]; i++)
        if (strcmp(formats[i].name, name) == 0)
            return &formats[i];
    return NULL;
}

static void count(Tally *tally, const List *list)
{
    if (list == NULL)
        tally->unread++;
    else if (is_refused(list->verdict))
        tally->refused++;
    else {
        tally->accepted++;
        tally->empty += list->length == 0;
    }
}

static void check_file(const Arguments *arguments, const Format *format, const char *path, Tally *tally)
{
    List list;
    Findings findings = { 0 };
    bool read = list_read(path, &list, arguments->all ? &to_walk : &to_judge, &arguments->input) && findings_of(&list, arguments->all, &findings);
    Checked checked = { path, read ? &list : NULL, &findings };
    count(tally, checked.list);
    if (!read || is_refused(list.verdict) || !arguments->failures)
        format->tell(arguments, &checked);
    if (read)
        hint_swapped(path, &list, &arguments->input);
    free(findings.answers);
    list_free(&list);
}

int run_check(const Arguments *arguments)
{
    const Format *format = arguments->format != NULL ? arguments->format : &formats[0];
    Tally tally = { 0 };
    if (arguments->quiet && arguments->verbose) {
        complain("check has one of --quiet and --verbose");
        return usage_error(arguments->command);
    }
    for (int i = 0; i < arguments->count; i++)
        check_file(arguments, format, arguments->paths[i], &tally);
    if (!format->end(arguments, &tally) || tally.unread > 0)
        return STATUS_ERROR;
    return tally.refused > 0 ? STATUS_REFUSED : STATUS_ACCEPTED;
}
