/* A strip that shows the hazards along a list: a column for each command, a line for each hazard. */
#include "report.h"

#define LINE 18  /* height of a line, as in the style */
#define MARGIN 2 /* above and below a bar */
#define COLUMNS 512 /* commands of one strip */

/* The rows of one strip: a long list has several, so that a command stays wide enough to be seen. */
typedef struct {
    const Rows *rows;
    size_t first, end;
} Part;

/* Whether a hazard stands before the command of a row. */
static bool is_on(const Part *part, size_t row, unsigned bit)
{
    return part->rows->rows[row].hazards >> bit & 1;
}

/* The end of the run of rows that have a hazard before them, or have not, as the first has. */
static size_t run_end(const Part *part, size_t first, unsigned bit)
{
    size_t end = first + 1;
    while (end < part->end && is_on(part, end, bit) == is_on(part, first, bit))
        end++;
    return end;
}

/* A bar for each run of commands that have a hazard before them; it leads to the first of them. */
static void add_bars(Text *text, const Part *part, unsigned bit)
{
    const Row *rows = part->rows->rows;
    size_t end;
    for (size_t first = part->first; first < part->end; first = end) {
        end = run_end(part, first, bit);
        if (is_on(part, first, bit))
            text_add(text, "<a href=\"#w%zu\" tabindex=\"-1\"><rect class=\"h-%s\" x=\"%zu\" y=\"%u\" width=\"%zu\" height=\"%d\">"
                           "<title>%s: before the commands at words %zu to %zu</title></rect></a>\n", rows[first].place, hazard_name(bit), first - part->first,
                     bit * LINE + MARGIN, end - first, LINE - 2 * MARGIN, hazard_name(bit), rows[first].place, rows[end - 1].place);
    }
}

/* A frame around the column of a row, if it is in the part. */
static void add_frame(Text *text, const Part *part, size_t row, const char *name, const char *title)
{
    if (row >= part->first && row < part->end)
        text_add(text, "<a href=\"#%s\" tabindex=\"-1\"><rect class=\"h-%s\" x=\"%zu\" y=\"0\" width=\"1\" height=\"%d\" "
                       "vector-effect=\"non-scaling-stroke\"><title>%s: word %zu</title></rect></a>\n",
                 name, name, row - part->first, HAZARDS * LINE, title, part->rows->rows[row].place);
}

/* A strip; the last of a long list is as wide as its share of a full one. */
static void add_part(Text *text, const Part *part)
{
    const Rows *rows = part->rows;
    size_t columns = part->end - part->first;
    text_add(text, "<div class=\"strip\"><div class=\"labels\">");
    for (unsigned bit = 0; bit < HAZARDS; bit++)
        text_add(text, "<div>%s</div>", hazard_name(bit));
    text_add(text, "</div>\n<div style=\"width:%zu%%\">\n<svg viewBox=\"0 0 %zu %d\" preserveAspectRatio=\"none\" role=\"img\" "
                   "aria-label=\"hazards before each command, words %zu to %zu\">\n", rows->count > COLUMNS ? (100 * columns + COLUMNS - 1) / COLUMNS : 100, columns,
             HAZARDS * LINE, rows->rows[part->first].place, rows->rows[part->end - 1].place);
    for (unsigned bit = 0; bit < HAZARDS; bit++)
        add_bars(text, part, bit);
    add_frame(text, part, rows->cause, "cause", "causes the refusal");
    add_frame(text, part, rows->refused, "refused", "refused");
    text_add(text, "</svg>\n<div class=\"ends\"><span>word %zu</span><span>word %zu</span></div></div></div>\n", rows->rows[part->first].place,
             rows->rows[part->end - 1].place);
}

/* What the bars say when a mouse points at them, for those who use none. */
static void add_runs(Text *text, const Part *all)
{
    const Row *rows = all->rows->rows;
    size_t end;
    text_add(text, "<details class=\"runs\"><summary>The same in words</summary>\n<ul>\n");
    for (unsigned bit = 0; bit < HAZARDS; bit++)
        for (size_t first = 0; first < all->end; first = end) {
            end = run_end(all, first, bit);
            if (is_on(all, first, bit)) {
                text_add(text, "<li>%s, at ", hazard_name(bit));
                place_add(text, rows[first].place);
                text_add(text, " to ");
                place_add(text, rows[end - 1].place);
                text_add(text, "</li>\n");
            }
        }
    text_add(text, "</ul></details>\n");
}

void strip_add(Text *text, const Rows *rows)
{
    for (size_t first = 0; first < rows->count; first += COLUMNS) {
        Part part = { rows, first, rows->count - first > COLUMNS ? first + COLUMNS : rows->count };
        add_part(text, &part);
    }
    Part all = { rows, 0, rows->count };
    add_runs(text, &all);
}
