/* The table of the commands, with the syncs that a repair would insert. */
#include "report.h"

#include <inttypes.h>
#include <string.h>

#define MANY_FIELDS 14 /* Set Other Modes and the triangles have more */

#define FOLDED 2 /* more words than a rectangle has are shown on a click */

/* The kinds by which rows can be chosen, as the names of commands have them. */
static const char *kind_of(unsigned number)
{
    static const struct { const char *start, *kind; } kinds[] = { { "Set ", "set" }, { "Sync ", "sync" }, { "Load ", "load" }, { "No ", "none" },
                                                                  { "Unassigned", "unassigned" } };
    for (size_t i = 0; i < sizeof kinds / sizeof kinds[0]; i++)
        if (strncmp(command_name(number), kinds[i].start, strlen(kinds[i].start)) == 0)
            return kinds[i].kind;
    return "draw";
}

/* The words, each with an anchor but the first, whose place has it; the many words of a triangle are folded. */
static void add_words(Text *text, const List *list, const Command *command)
{
    size_t left = list->length / 8 - command->place;
    size_t words = command->words < left ? command->words : left;
    bool folded = words > FOLDED;
    text_add(text, "%s%016" PRIX64, folded ? "<details><summary>" : "", word_at(list->bytes, command->place));
    if (folded)
        text_add(text, "<br><span class=\"more\">and %zu more</span></summary>", words - 1);
    for (size_t i = 1; i < words; i++)
        text_add(text, "%s<span id=\"w%zu\">%016" PRIX64 "</span>", folded && i == 1 ? "" : "<br>", command->place + i,
                 word_at(list->bytes, command->place + i));
    text_add(text, folded ? "</details>" : "");
}

/* A colour beside its fields. */
static void add_swatch(Text *text, unsigned red, unsigned green, unsigned blue)
{
    text_add(text, "<span class=\"swatch\" style=\"background:#%02X%02X%02X\"></span>", red, green, blue);
}

/* The colours that a command sets. A fill colour is one pixel of 32 bits or two of 16: it is shown as both. */
static void add_swatches(Text *text, const Command *command)
{
    const uint64_t *fields = command->fields;
    bool primitive = command->number == LANYARDROVE_SET_PRIMITIVE_COLOR;
    const uint64_t *rgb = fields + (primitive ? LANYARDROVE_PRIMITIVE_COLOR_RED : LANYARDROVE_COLOR_RED);
    if (command->number == LANYARDROVE_SET_FILL_COLOR) {
        unsigned color = (unsigned)fields[LANYARDROVE_FILL_COLOR_COLOR];
        uint8_t pixels[4] = { (uint8_t)(color >> 24), (uint8_t)(color >> 16), (uint8_t)(color >> 8), (uint8_t)color }, shown[9] = { 0 };
        const Memory memory = { pixels, sizeof pixels, 0 };
        pixels_rgb(&memory, 0, 1, 32, shown);
        pixels_rgb(&memory, 0, 2, 16, shown + 3);
        for (int i = 0; i < 9; i += 3)
            add_swatch(text, shown[i], shown[i + 1], shown[i + 2]);
        text_add(text, "<span class=\"field\">as one pixel of 32 bits, as two of 16</span>");
    } else if (primitive || command->number == LANYARDROVE_SET_FOG_COLOR || command->number == LANYARDROVE_SET_BLEND_COLOR ||
               command->number == LANYARDROVE_SET_ENVIRONMENT_COLOR)
        add_swatch(text, (unsigned)rgb[0], (unsigned)rgb[1], (unsigned)rgb[2]);
}

/* The fields of a command; of a command with many, those that are not 0. */
static void add_fields(Text *text, const Command *command)
{
    size_t zeros = 0, others = 0, at = 0;
    Shown shown;
    while (command->whole && next_shown(command, &at, &shown)) {
        bool left_out = command->count > MANY_FIELDS && shown.is_zero;
        zeros += left_out;
        others += !left_out;
        if (!left_out)
            text_add(text, "<span class=\"field\">%s <b>%s</b></span> ", shown.name, shown.value);
    }
    if (zeros > 0)
        text_add(text, "<span class=\"field\">%s%zu fields are 0</span>", others > 0 ? "the other " : "all ", zeros);
}

/* Why a command is refused: what it waits for, where a sync is missing. */
static void add_reason(Text *text, const Report *report)
{
    text_add(text, "<div class=\"reason\">&#9654; Refused, %u %u: ", report->answer.number, (unsigned)report->answer.place);
    meaning_add(text, report);
    text_add(text, "</div>");
}

/* Which command has to wait for this one. */
static void add_cause(Text *text, const Report *report)
{
    char offset[OFFSET_ROOM];
    text_add(text, "<div class=\"reason\">&#9654; Causes the refusal at <a href=\"#refused\">word %u</a>%s</div>", (unsigned)report->answer.place,
             offset_text(&report->list, report->answer.place, " (", ")", offset));
}

/* The change of the sync at a place by a fresh choice, or of the one that would come before the command there; NULL where there is none. */
static const Change *change_at(const Report *report, size_t place, bool comes)
{
    for (size_t i = 0; i < report->afresh.count; i++)
        if (report->afresh.changes[i].place == place && (report->afresh.changes[i].given == 0) == comes)
            return &report->afresh.changes[i];
    return NULL;
}

static void add_change(Text *text, const Report *report, const Change *change)
{
    char line[CHANGE_ROOM];
    change_text(&report->list, change, line, sizeof line);
    text_add(text, "<div class=\"fresh\">Chosen afresh: %s</div>", line);
}

/* The start of a row: the refused command and its cause have an anchor of their own. Below the place of a translated list stands its offset in memory. */
static void add_start(Text *text, const Report *report, size_t row, const Command *command)
{
    char offset[OFFSET_ROOM];
    const char *mark = row == report->rows.refused ? "refused" : row == report->rows.cause ? "cause" : NULL;
    const char *changes = change_at(report, command->place, false) != NULL ? " changes" : "";
    if (mark != NULL)
        text_add(text, "<tr id=\"%s\" class=\"%s %s%s\">", mark, kind_of(command->number), mark, changes);
    else
        text_add(text, "<tr class=\"%s%s\">", kind_of(command->number), changes);
    text_add(text, "<td class=\"place\" id=\"w%zu\"><a href=\"#w%zu\">%zu</a>%s</td>", command->place, command->place, command->place,
             offset_text(&report->list, command->place, "<br><span class=\"from\">", "</span>", offset));
}

static void add_row(Text *text, const Report *report, size_t row)
{
    Command command;
    char hazards[64];
    if (!command_at(&report->list, report->rows.rows[row].place, &command))
        return;
    const Change *change = change_at(report, command.place, false);
    hazards_text(report->rows.rows[row].hazards, hazards, sizeof hazards);
    add_start(text, report, row, &command);
    text_add(text, "<td class=\"words\">");
    add_words(text, &report->list, &command);
    text_add(text, "</td><th scope=\"row\" class=\"name\">%s</th><td>", command_name(command.number));
    if (row == report->rows.refused)
        add_reason(text, report);
    if (row == report->rows.cause)
        add_cause(text, report);
    if (change != NULL)
        add_change(text, report, change);
    add_fields(text, &command);
    if (command.whole)
        add_swatches(text, &command);
    text_add(text, "</td><td class=\"hazards\">%s</td></tr>\n", hazards);
}

static void add_insertion(Text *text, unsigned number, const char *kind, const char *what)
{
    text_add(text, "<tr class=\"%s\"><td></td><td></td><th scope=\"row\" class=\"name\">+ %s</th><td colspan=\"2\">%s</td></tr>\n", kind,
             command_name(number), what);
}

/* Which rows are shown is chosen without a script: the style goes by the choice that is checked. */
static void add_choices(Text *text)
{
    static const struct { const char *kind, *label; } choices[] = { { "all", "all" }, { "marked", "only what is refused or would change" }, { "draw", "draws" },
                                                                    { "load", "loads" }, { "set", "settings" }, { "sync", "syncs" },
                                                                    { "none", "no operations" }, { "unassigned", "unassigned numbers" } };
    text_add(text, "<fieldset class=\"choices\"><legend>Show:</legend>\n");
    for (size_t i = 0; i < sizeof choices / sizeof choices[0]; i++)
        text_add(text, "<label><input type=\"radio\" name=\"show\" id=\"show-%s\"%s> %s</label>\n", choices[i].kind, i == 0 ? " checked" : "",
                 choices[i].label);
    text_add(text, "</fieldset>\n");
}

/* The rows, each after the syncs that a repair would insert before it, and that would come afresh. */
static void add_rows(Text *text, const Report *report)
{
    const Repaired *repaired = &report->repaired;
    size_t next = 0;
    for (size_t row = 0; row < report->rows.count; row++) {
        if (next < repaired->count && repaired->inserted[next].place == report->rows.rows[row].place)
            add_insertion(text, repaired->inserted[next++].number, "inserted", "a repair would insert this");
        if (report->missing.number != 0 && row == report->rows.refused)
            add_insertion(text, report->missing.number, "inserted", "this sync is missing");
        const Change *change = change_at(report, report->rows.rows[row].place, true);
        if (change != NULL)
            add_insertion(text, change->written, "comes", "chosen afresh, this comes here");
        add_row(text, report, row);
    }
}

void table_add(Text *text, const Report *report)
{
    text_add(text, "<h2>Commands</h2>\n");
    if (report->rows.count == 0)
        text_add(text, "<p>The list holds no command.</p>\n");
    else {
        add_choices(text);
        text_add(text, "<table>\n<caption>The commands of the list, in order</caption>\n<thead><tr><th scope=\"col\" class=\"place\">Place</th>"
                       "<th scope=\"col\">Words</th><th scope=\"col\">Command</th><th scope=\"col\">Fields</th><th scope=\"col\">Hazards before</th></tr>"
                       "</thead>\n<tbody>\n");
        add_rows(text, report);
        text_add(text, "</tbody>\n</table>\n");
    }
    if (report->list.length > LIST_LIMIT)
        text_add(text, "<p class=\"note\">The list goes on; the commands of its first 32,768 bytes are shown.</p>\n");
    else if (report->list.length % 8 != 0)
        text_add(text, "<p class=\"note\">%zu bytes follow that are no whole word.</p>\n", report->list.length % 8);
}
