/* The page of a report: the verdict, the hazards, the repair, the picture, the commands. */
#include "report.h"

#define OPEN_LIMIT 20     /* insertions that are shown without a click */
#define PICTURE_WIDTH 640 /* small pictures are shown larger, up to this many pixels */
#define PIXEL_WIDTH 40    /* and up to this many for each of theirs */

/* The start of a page about a file, up to the end of its style: what comes of it stands in the title. */
void head_start_add(Text *text, const char *verdict, const char *path, const char *more)
{
    text_add(text, "<!DOCTYPE html>\n<html lang=\"en\">\n<head>\n<meta charset=\"utf-8\">\n"
                   "<meta name=\"viewport\" content=\"width=device-width,initial-scale=1\">\n%s<title>%s: ", more, verdict);
    text_add_escaped(text, path);
    text_add(text, "</title>\n");
    style_add(text);
}

/* The head of a page about a file, and its heading. */
void head_add(Text *text, const char *verdict, const char *path, const char *kind)
{
    head_start_add(text, verdict, path, "");
    text_add(text, "</head>\n<body>\n<main>\n<p class=\"kind\">%s</p>\n<h1 id=\"top\">", kind);
    text_add_escaped(text, path);
    text_add(text, "</h1>\n");
}

void foot_add(Text *text)
{
    char version[VERSION_ROOM];
    version_text(version);
    text_add(text, "</main>\n<footer>Made by lanyardrove %s</footer>\n<p class=\"top\"><a href=\"#top\">Back to top</a></p>\n</body>\n</html>\n", version);
}

/* A word of the list, which leads to its row. */
void place_add(Text *text, size_t place)
{
    text_add(text, "<a href=\"#w%zu\">word %zu</a>", place, place);
}

/* A sync that is or would be inserted, and before what. */
static void add_insertion(Text *text, const Report *report, const Insertion *insertion)
{
    char offset[OFFSET_ROOM];
    text_add(text, "%s before ", command_name(insertion->number));
    place_add(text, insertion->place);
    text_add(text, "%s, %s", offset_text(&report->list, insertion->place, " (", ")", offset), name_at(&report->list, insertion->place));
}

/* `number place` and what it means, in the middle of a sentence. */
void answer_add(Text *text, const List *list, Answer answer, Purpose purpose)
{
    Meaning meaning = meaning_of(list, answer, purpose);
    text_add(text, "<code>%u %u</code>, ", answer.number, (unsigned)answer.place);
    text_add_escaped(text, meaning.text);
}

/* What the check's answer means. The cause that it names leads to its row. */
void meaning_add(Text *text, const Report *report)
{
    Meaning meaning = meaning_of(&report->list, report->answer, FOR_CHECK), before = meaning;
    bool linked = report->rows.cause < report->rows.count;
    before.text[before.cause] = '\0';
    text_add_escaped(text, before.text);
    text_add(text, linked ? "<a href=\"#cause\">" : "");
    text_add_escaped(text, meaning.text + meaning.cause);
    text_add(text, linked ? "</a>" : "");
}

static void add_verdict(Text *text, const Report *report)
{
    bool accepted = is_accepted(report->answer);
    text_add(text, "<section id=\"verdict\" class=\"verdict %s\">\n<p class=\"word\">%s</p>\n<p class=\"meaning\">",
             accepted ? "is-accepted" : "is-refused", accepted ? "Accepted" : "Refused");
    meaning_add(text, report);
    text_add(text, "</p>\n");
    if (!accepted)
        text_add(text, "<p class=\"why\">%s</p>\n", reason_of(report->answer.number));
    if (report->rows.refused < report->rows.count)
        text_add(text, "<p class=\"show\"><a href=\"#refused\">Show the command</a></p>\n");
    text_add(text, "</section>\n<dl class=\"facts\"><div><dt>number place</dt><dd><code>%u %u</code></dd></div>"
                   "<div><dt>bytes</dt><dd>%s%zu</dd></div><div><dt>commands</dt><dd>%zu</dd></div><div><dt>%s</dt><dd>%u</dd></div></dl>\n",
             report->answer.number, (unsigned)report->answer.place, goes_on(&report->list) ? "over " : "",
             goes_on(&report->list) ? report->list.limit : report->list.length, report->rows.count,
             accepted ? "cycles waited" : "cycles waited before the refusal", (unsigned)cycles_waited(&report->list));
}

/* What the lines of a strip mean. */
static void add_legend(Text *text)
{
    static const char *const meanings[] = { "a draw since the last Sync Pipe",
                                            "a textured draw or a load since the last Sync Tile or Sync Pipe",
                                            "a draw since the last sync", "a load since the last sync" };
    text_add(text, "<ul class=\"legend\">\n");
    for (unsigned bit = 0; bit < sizeof meanings / sizeof meanings[0]; bit++)
        text_add(text, "<li><svg viewBox=\"0 0 1 1\" aria-hidden=\"true\"><rect class=\"h-%s\" width=\"1\" height=\"1\"/></svg><b>%s</b>: %s</li>\n",
                 hazard_name(bit), hazard_name(bit), meanings[bit]);
    text_add(text, "</ul>\n");
}

static void add_hazards(Text *text, const Report *report)
{
    if (report->rows.count == 0)
        return;
    text_add(text, "<h2>Hazards before each command</h2>\n<p class=\"note\">A hazard is earlier work that may still run. The list goes from left "
                   "to right, one column for each command.");
    if (report->rows.refused < report->rows.count)
        text_add(text, " Red marks the refused command%s. After it the hazards go on as if it had run.",
                 is_missing_sync(report->answer) ? ", yellow the one that it has to wait for" : "");
    text_add(text, "</p>\n");
    strip_add(text, &report->rows);
    if (report->repaired_rows.count > 0) {
        text_add(text, "<p class=\"note\">The same of the repaired list, by the places of the given one:</p>\n");
        strip_add(text, &report->repaired_rows);
    }
    add_legend(text);
}

static void add_insertions(Text *text, const Report *report)
{
    const Repaired *repaired = &report->repaired;
    char all[160];
    inserted_text(repaired, false, all, sizeof all);
    text_add(text, "<details%s><summary>%s</summary>\n<ul id=\"inserted\">\n", repaired->count <= OPEN_LIMIT ? " open" : "", all);
    for (size_t i = 0; i < repaired->count; i++) {
        text_add(text, "<li>");
        add_insertion(text, report, &repaired->inserted[i]);
        text_add(text, "</li>\n");
    }
    text_add(text, "</ul></details>\n");
}

/* The other plan: what becomes of each sync where all are chosen afresh. */
static void add_afresh(Text *text, const Report *report)
{
    const Afresh *afresh = &report->afresh;
    char line[CHANGE_ROOM];
    afresh_text(afresh, line, sizeof line);
    if (afresh->count == 0)
        text_add(text, "<p>Chosen afresh, the syncs would be the same.</p>\n");
    else
        text_add(text, "<details%s><summary>Chosen afresh: %s</summary>\n<ul id=\"afresh\">\n", afresh->count <= OPEN_LIMIT ? " open" : "", line);
    for (size_t i = 0; i < afresh->count; i++) {
        change_text(&report->list, &afresh->changes[i], line, sizeof line);
        text_add(text, "<li><a href=\"#w%zu\">%s</a></li>\n", afresh->changes[i].place, line);
    }
    text_add(text, afresh->count > 0 ? "</ul></details>\n" : "");
}

static void add_repair(Text *text, const Report *report)
{
    text_add(text, "<section>\n<h2>Repair</h2>\n");
    if (!is_accepted(report->repaired.answer)) {
        text_add(text, "<p>The list cannot be repaired: ");
        answer_add(text, &report->list, report->repaired.answer, FOR_REPAIR);
        text_add(text, ".</p>\n");
        if (report->missing.number != 0) {
            text_add(text, "<p>The first sync that it misses: ");
            add_insertion(text, report, &report->missing);
            text_add(text, ".</p>\n");
        }
    } else if (report->repaired.count == 0)
        text_add(text, "<p>No sync is missing.</p>\n");
    else
        add_insertions(text, report);
    if (is_accepted(report->afresh.answer))
        add_afresh(text, report);
    text_add(text, "</section>\n");
}

static void add_png(Text *text, const Report *report)
{
    const Image *image = &report->image;
    unsigned fits = image->width < PICTURE_WIDTH ? PICTURE_WIDTH / image->width : 1;
    unsigned scale = fits < PIXEL_WIDTH ? fits : PIXEL_WIDTH;
    char size[128];
    image_text(image, size, sizeof size);
    text_add(text, "<p class=\"note\">%s%s.</p>\n<p class=\"picture\"><img alt=\"what the list draws\" width=\"%u\" height=\"%u\" "
                   "src=\"data:image/png;base64,", size, report->repaired.count > 0 ? ", drawn by the repaired list" : "",
             image->width * scale, image->height * scale);
    text_add_base64(text, report->png, report->png_length);
    text_add(text, "\"></p>\n");
}

static void add_outside(Text *text, const Report *report)
{
    char size[128];
    image_text(&report->image, size, sizeof size);
    text_add(text, "<p>The picture, %s, is not inside memory.</p>\n", size);
}

static void add_picture(Text *text, const Report *report)
{
    bool repaired = report->repaired.count > 0;
    text_add(text, "<section>\n<h2>Picture</h2>\n");
    if (report->png != NULL)
        add_png(text, report);
    else if (report->image.width > 0)
        add_outside(text, report);
    else if (is_accepted(report->drawing))
        text_add(text, "<p>The list draws no picture.</p>\n");
    else {
        text_add(text, "<p>The %slist cannot be drawn: ", repaired ? "repaired " : "");
        answer_add(text, &report->list, report->drawing, FOR_DRAW);
        text_add(text, ".</p>\n");
        if (report->drawing.number == LANYARDROVE_NOT_COPYABLE)
            text_add(text, "<p class=\"note\">%s</p>\n", copy_needs);
    }
    text_add(text, "</section>\n");
}

void page_add(Text *text, const Report *report)
{
    head_add(text, is_accepted(report->answer) ? "Accepted" : "Refused", report->path, "Check of an RDP command list");
    add_verdict(text, report);
    add_hazards(text, report);
    add_repair(text, report);
    add_picture(text, report);
    table_add(text, report);
    foot_add(text);
}
