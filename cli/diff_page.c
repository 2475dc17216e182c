/* The page of two lists side by side: a row for each pair of commands, and one for each command of the rest. */
#include "compared.h"

#include <inttypes.h>
#include <stdlib.h>

static void add_head(Text *text, const Diff *diff)
{
    bool same = is_same(diff->compared);
    head_add(text, same ? "The same" : "Different", diff->paths[0], "Comparison of two RDP command lists");
    text_add(text, "<p>with <b>");
    text_add_escaped(text, diff->paths[1]);
    text_add(text, "</b></p>\n<section id=\"verdict\" class=\"verdict %s\">\n<p class=\"word\">%s</p>\n<p class=\"meaning\">",
             same ? "is-accepted" : "is-refused", same ? "The same" : "Different");
    Text line = { 0 };
    compared_text(diff->compared, diff->paths, &line);
    text_add_escaped(text, line.failed ? "" : line.bytes);
    free(line.bytes);
    text_add(text, "</p>\n</section>\n");
}

/* The first word, and how many more there are. */
static void add_words(Text *text, const List *list, const Command *command)
{
    text_add(text, "%016" PRIX64, word_at(list->bytes, command->place));
    if (command->words > 1)
        text_add(text, "<br><span class=\"from\">and %zu more</span>", command->words - 1);
}

/* One side of a row: place, words, and the command with what differs; empty where the list has no command there. */
static void add_side(Text *text, const List *list, const Command *command, const char *side, const char *name)
{
    if (command == NULL)
        text_add(text, "<td></td><td></td><td></td>");
    else {
        text_add(text, "<td class=\"place\" id=\"%s%zu\"><a href=\"#%s%zu\">%zu</a></td><td class=\"words\">", side, command->place, side, command->place,
                 command->place);
        add_words(text, list, command);
        text_add(text, "</td><td><b>%s</b>", name);
    }
}

/* The values of one side that the other has not. */
static void add_values(Text *text, const Pair *pair, int side)
{
    Shown shown[2];
    size_t at = 0;
    while (next_differing(pair, &at, shown))
        text_add(text, "<br><span class=\"field\">%s <b>%s</b></span>", shown[side].name, shown[side].value);
}

static void add_pair(Text *text, const Pair *pair, bool differs)
{
    static const char *const sides[2] = { "a", "b" };
    char names[2][NAME_ROOM];
    pair_names(pair, names);
    text_add(text, "<tr%s>", differs ? " class=\"differs\"" : "");
    for (int side = 0; side < 2; side++) {
        add_side(text, &pair->lists[side], &pair->commands[side], sides[side], names[side]);
        if (differs)
            add_values(text, pair, side);
        text_add(text, "</td>");
    }
    text_add(text, "</tr>\n");
}

/* The pairs by their index; those that differ come in the same order. */
static void add_pairs(Text *text, const Diff *diff)
{
    size_t next = 0, places[2] = { 0, 0 };
    for (size_t i = 0; i < diff->compared->pairs; i++) {
        const Difference *due = next < diff->compared->count ? &diff->compared->differences[next] : NULL;
        bool differs = due != NULL && due->places[0] == places[0];
        Difference here = { { places[0], places[1] }, differs ? due->fields : 0 };
        Pair pair = pair_of(diff->lists, &here);
        add_pair(text, &pair, differs);
        next += differs;
        for (int side = 0; side < 2; side++)
            places[side] += pair.commands[side].words;
    }
}

static void add_rest(Text *text, const Diff *diff)
{
    const Rest *rest = &diff->compared->rest;
    const List *list = &diff->lists[rest->list];
    Command command;
    for (size_t place = rest->place; command_at(list, place, &command); place += command.words) {
        text_add(text, "<tr class=\"rest\">");
        if (rest->list == 1)
            add_side(text, NULL, NULL, "a", "");
        add_side(text, list, &command, rest->list == 0 ? "a" : "b", command_name(command.number));
        text_add(text, "</td>");
        if (rest->list == 0)
            add_side(text, NULL, NULL, "b", "");
        text_add(text, "</tr>\n");
    }
}

static void add_table(Text *text, const Diff *diff)
{
    static const char columns[] = "<th scope=\"col\" class=\"place\">Place</th><th scope=\"col\">Words</th><th scope=\"col\">Command</th>";
    text_add(text, "<h2>Commands</h2>\n<fieldset class=\"choices\"><legend>Show:</legend>\n"
                   "<label><input type=\"radio\" name=\"show\" id=\"show-all\" checked> all</label>\n"
                   "<label><input type=\"radio\" name=\"show\" id=\"show-differs\"> only what differs</label>\n</fieldset>\n"
                   "<table class=\"pairs\">\n<caption>The commands of both lists side by side, paired from the first on</caption>\n<thead><tr>%s%s</tr></thead>\n"
                   "<tbody>\n", columns, columns);
    add_pairs(text, diff);
    add_rest(text, diff);
    text_add(text, "</tbody>\n</table>\n");
}

void diff_page_add(Text *text, const Diff *diff)
{
    add_head(text, diff);
    add_table(text, diff);
    foot_add(text);
}
