/* lanyardrove lint: warnings about lists, which are no verdict. */
#include "lint.h"

#include <stdlib.h>
#include <string.h>

typedef struct LintFormat LintFormat;

static const LintFormat formats[] = {
    { "text", lint_text_tell, lint_text_end }, { "gcc", lint_gcc_tell, lint_lines_end }, { "github", lint_github_tell, lint_lines_end },
    { "json", lint_json_tell, lint_json_end }, { "sarif", lint_sarif_tell, lint_sarif_end }
};

/* NULL where there is none of the name. */
const LintFormat *lint_format_of(const char *name)
{
    for (size_t i = 0; i < sizeof formats / sizeof formats[0]; i++)
        if (strcmp(formats[i].name, name) == 0)
            return &formats[i];
    return NULL;
}

/* A list that is too long, has no whole words or is cut is read as far as it goes, and that is told. */
static void lint_file(const Arguments *arguments, const LintFormat *format, const char *path, LintTally *tally)
{
    List list;
    Warnings warnings = { 0 };
    bool read = list_read(path, &list, &to_walk, &arguments->input) && warnings_of(&list, &arguments->input, arguments->silenced, &warnings);
    Linted linted = { path, read ? &list : NULL, &warnings };
    format->tell(arguments, &linted);
    if (read && !is_read_whole(&warnings))
        complain("%s: %u %u, %s: not read to its end", path, warnings.read.number, (unsigned)warnings.read.place,
                 meaning_of(&list, warnings.read, FOR_CHECK).text);
    tally->lists++;
    tally->unread += !read || !is_read_whole(&warnings);
    tally->warned += warnings.count > 0;
    tally->warnings += warnings.count;
    free(warnings.warnings);
    list_free(&list);
}

int run_lint(const Arguments *arguments)
{
    const LintFormat *format = arguments->lint_format != NULL ? arguments->lint_format : &formats[0];
    LintTally tally = { 0 };
    for (int i = 0; i < arguments->count; i++)
        lint_file(arguments, format, arguments->paths[i], &tally);
    if (!format->end(arguments, &tally) || tally.unread > 0)
        return STATUS_ERROR;
    return tally.warnings > 0 ? STATUS_REFUSED : STATUS_ACCEPTED;
}
