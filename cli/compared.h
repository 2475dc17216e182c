/* What the files of diff share. */
#ifndef LANYARDROVE_COMPARED_H
#define LANYARDROVE_COMPARED_H

#include "report.h"

/* -- compared.c: two lists compared, by the library ---------------------- */

typedef struct {
    size_t places[2];
    uint64_t fields; /* a bit for each that differs, as in the header; none where the commands' numbers differ */
} Difference;

/* The commands of the longer list that have none to be compared with. */
typedef struct {
    int list; /* 0 or 1 */
    size_t place, commands;
} Rest;

typedef struct {
    Answer answer;
    int refused; /* the list that a refusal is of */
    Difference *differences;
    size_t count, pairs; /* that differ, and in all */
    Rest rest;
} Compared;

/* Two commands with the same index. */
typedef struct {
    const List *lists;
    Command commands[2];
    uint64_t fields;
} Pair;

#define NAME_ROOM 40 /* bytes that the name of a command fits in */

bool compared_of(const List lists[2], Compared *compared);
bool is_same(const Compared *compared);
Pair pair_of(const List lists[2], const Difference *difference);
bool next_differing(const Pair *pair, size_t *at, Shown shown[2]);
void pair_names(const Pair *pair, char names[2][NAME_ROOM]);
void compared_text(const Compared *compared, const char *const paths[2], Text *text);
void compared_free(Compared *compared);

/* -- diff_json.c, diff_page.c: how it is told ---------------------------- */

/* What diff was asked for. */
typedef struct {
    const char *paths[2]; /* as they are shown */
    const List *lists;
    const Compared *compared;
} Diff;

bool diff_print_json(const Diff *diff);
void diff_page_add(Text *text, const Diff *diff);

#endif
