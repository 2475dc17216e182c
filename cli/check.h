/* What the files of the check share. */
#ifndef LANYARDROVE_CHECK_H
#define LANYARDROVE_CHECK_H

#include "cli.h"

/* -- findings.c: the refusal of a list, and every sync that it misses --- */

typedef struct {
    Answer *answers; /* each as the check answers, the verdict first */
    size_t count;
} Findings;

bool findings_of(const List *list, bool all, Findings *findings);

/* -- what is told ------------------------------------------------------- */

typedef struct {
    unsigned accepted, empty, refused, unread;
} Tally;

/* A list that was named. */
typedef struct {
    const char *path;
    const List *list; /* NULL where it could not be read */
    const Findings *findings;
} Checked;

/* The form in which lists are told: a function for each list, one for the end. */
struct Format {
    const char *name;
    void (*tell)(const Arguments *arguments, const Checked *checked);
    bool (*end)(const Arguments *arguments, const Tally *tally);
};

/* -- format_lines.c, format_json.c -------------------------------------- */

void text_tell(const Arguments *arguments, const Checked *checked);
bool text_end(const Arguments *arguments, const Tally *tally);
void gcc_tell(const Arguments *arguments, const Checked *checked);
void github_tell(const Arguments *arguments, const Checked *checked);
bool lines_end(const Arguments *arguments, const Tally *tally);
void json_tell(const Arguments *arguments, const Checked *checked);
bool json_end(const Arguments *arguments, const Tally *tally);
void sarif_tell(const Arguments *arguments, const Checked *checked);
bool sarif_end(const Arguments *arguments, const Tally *tally);

#endif
