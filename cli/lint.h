/* What the files of lint share. Warnings are no verdict: they go by rules of the tool, which nothing proves. */
#ifndef LANYARDROVE_LINT_H
#define LANYARDROVE_LINT_H

#include "cli.h"

/* -- warnings.c: what the check does not say of a list -------------------- */

typedef enum { FILL_TEXTURE, DEPTH_IMAGE, COMBINE_MODE, TEXTURE_MEMORY, SYNC_FULL, DATA_RUN, SWAPPED, WARNING_KINDS } WarningKind;

typedef struct {
    WarningKind kind;
    size_t place; /* the command's first word; of the whole list 0, or its words where it is about the end */
    char text[160];
} Warning;

typedef struct {
    Warning *warnings;
    size_t count, room;
    Answer read; /* 1, 2 or 3 where the list cannot be read to its end */
    bool failed; /* memory was short */
} Warnings;

#define NO_VERDICT "no verdict: check says whether a list is accepted"

const char *warning_name(WarningKind kind);
const char *warning_rule(WarningKind kind);
bool is_of_list(WarningKind kind);
bool warnings_of(const List *list, const Input *input, unsigned silenced, Warnings *warnings);
bool is_read_whole(const Warnings *warnings);

/* -- lint_lines.c, lint_json.c: how they are told -------------------------- */

/* A list that was named. */
typedef struct {
    const char *path;
    const List *list; /* NULL where it could not be read */
    const Warnings *warnings;
} Linted;

typedef struct {
    size_t lists, warned, warnings, unread;
} LintTally;

struct LintFormat {
    const char *name;
    void (*tell)(const Arguments *arguments, const Linted *linted);
    bool (*end)(const Arguments *arguments, const LintTally *tally);
};

#define LINT_ROOM 320 /* bytes that a warning fits in with its place and its name */

void lint_text(const List *list, const Warning *warning, char text[LINT_ROOM]);
void lint_text_tell(const Arguments *arguments, const Linted *linted);
bool lint_text_end(const Arguments *arguments, const LintTally *tally);
void lint_gcc_tell(const Arguments *arguments, const Linted *linted);
void lint_github_tell(const Arguments *arguments, const Linted *linted);
bool lint_lines_end(const Arguments *arguments, const LintTally *tally);
void lint_json_tell(const Arguments *arguments, const Linted *linted);
bool lint_json_end(const Arguments *arguments, const LintTally *tally);
void lint_sarif_tell(const Arguments *arguments, const Linted *linted);
bool lint_sarif_end(const Arguments *arguments, const LintTally *tally);

#endif
