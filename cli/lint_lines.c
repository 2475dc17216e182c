/* What lint tells in lines: as text, as compilers do, and as notes for GitHub. Each form says that warnings are no verdict. */
#include "lint.h"

static void print_name(const Arguments *arguments, const char *path)
{
    if (arguments->count > 1) {
        print_shown(stdout, path);
        fputs(": ", stdout);
    }
}

/* A warning with its place in the list and its name. */
void lint_text(const List *list, const Warning *warning, char text[LINT_ROOM])
{
    char place[32 + OFFSET_ROOM] = "", offset[OFFSET_ROOM];
    if (!is_of_list(warning->kind))
        snprintf(place, sizeof place, "word %zu%s: ", warning->place, offset_text(list, warning->place, " (", ")", offset));
    snprintf(text, LINT_ROOM, "%s%s [-W%s]", place, warning->text, warning_name(warning->kind));
}

void lint_text_tell(const Arguments *arguments, const Linted *linted)
{
    char text[LINT_ROOM];
    for (size_t i = 0; linted->list != NULL && i < linted->warnings->count; i++) {
        lint_text(linted->list, &linted->warnings->warnings[i], text);
        print_name(arguments, linted->path);
        printf("%s\n", text);
    }
}

bool lint_text_end(const Arguments *arguments, const LintTally *tally)
{
    if (arguments->count > 1)
        printf("%zu lists: ", tally->lists);
    printf("%zu %s", tally->warnings, tally->warnings == 1 ? "warning" : "warnings");
    if (arguments->count > 1)
        printf(" in %zu", tally->warned);
    if (tally->unread > 0)
        printf(", %zu not read to the end", tally->unread);
    printf("; " NO_VERDICT "\n");
    return true;
}

/* FILE:PLACE: warning: .. */
void lint_gcc_tell(const Arguments *arguments, const Linted *linted)
{
    char offset[OFFSET_ROOM];
    (void)arguments;
    for (size_t i = 0; linted->list != NULL && i < linted->warnings->count; i++) {
        const Warning *warning = &linted->warnings->warnings[i];
        print_shown(stdout, linted->path);
        printf(":%zu: warning: %s%s (no verdict) [-W%s]\n", warning->place, offset_text(linted->list, warning->place, "", ": ", offset), warning->text,
               warning_name(warning->kind));
    }
}

/* ::warning file=FILE::.. */
void lint_github_tell(const Arguments *arguments, const Linted *linted)
{
    char text[LINT_ROOM], note[LINT_ROOM + 16];
    (void)arguments;
    for (size_t i = 0; linted->list != NULL && i < linted->warnings->count; i++) {
        lint_text(linted->list, &linted->warnings->warnings[i], text);
        snprintf(note, sizeof note, "no verdict: %s", text);
        print_annotation("warning", linted->path, note);
    }
    if (linted->list == NULL || !is_read_whole(linted->warnings))
        print_annotation("error", linted->path, "the list could not be read");
}

bool lint_lines_end(const Arguments *arguments, const LintTally *tally)
{
    (void)arguments;
    (void)tally;
    return true;
}
