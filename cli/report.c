/* lanyardrove report: a page about a list. */
#include "report.h"

#include <stdlib.h>
#include <string.h>

/* The row of the command at a place; `count` where there is none. */
static size_t row_at(const Rows *rows, size_t place)
{
    size_t row = 0;
    while (row < rows->count && rows->rows[row].place != place)
        row++;
    return row;
}

/* The commands of the words that a list may have, with the hazards before each. */
static bool rows_of(const List *list, Answer answer, Rows *rows)
{
    Command command;
    size_t words = (list->length < LIST_LIMIT ? list->length : LIST_LIMIT) / 8;
    unsigned hazards = 0;
    rows->rows = calloc(words + 1, sizeof *rows->rows);
    if (rows->rows == NULL) {
        complain("not enough memory");
        return false;
    }
    for (size_t place = 0; place < words && command_at(list, place, &command); place += command.words) {
        rows->rows[rows->count++] = (Row){ place, hazards };
        hazards = hazards_after(hazards, &command);
    }
    rows->refused = answer.number >= LANYARDROVE_PAST_END ? row_at(rows, answer.place) : rows->count;
    rows->cause = is_missing_sync(answer) ? row_at(rows, answer.third) : rows->count;
    return true;
}

/* The rows of the repaired list, and what drawing it answers, by the places of the given list: the page knows no others. */
static void number_as_given(Report *report)
{
    for (size_t i = 0; i < report->repaired_rows.count; i++)
        report->repaired_rows.rows[i].place = given_place(&report->repaired, report->repaired_rows.rows[i].place);
    if (is_refused(report->drawing))
        report->drawing.place = (uint32_t)given_place(&report->repaired, report->drawing.place);
}

/* Where both repairs write the same, the second has nothing to add. */
static void compare_plans(Report *report)
{
    const List *one = &report->repaired.list, *two = &report->afresh.list;
    if (one->length == two->length && one->bytes != NULL && two->bytes != NULL && memcmp(one->bytes, two->bytes, one->length) == 0)
        report->afresh.count = 0;
}

/* A list that is too long for the repair still gets the sync that its refused command misses. */
static void find_missing(Report *report)
{
    static const unsigned syncs[] = { LANYARDROVE_SYNC_LOAD, LANYARDROVE_SYNC_TILE, LANYARDROVE_SYNC_PIPE };
    if (is_refused(report->repaired.answer) && is_missing_sync(report->answer))
        report->missing = (Insertion){ report->answer.place, syncs[report->answer.number - LANYARDROVE_SYNC_LOAD_MISSING] };
}

/* The PNG of the picture that a list has drawn, if there is one. */
static bool make_png(Report *report, const List *list, const Memory *memory)
{
    if (!image_of_list(list, &report->image) || !image_inside(&report->image, memory))
        return true;
    Box whole = whole_of(&report->image);
    uint8_t *rgb = image_rgb(&report->image, &whole, memory);
    report->png = rgb != NULL ? image_png(&whole, rgb, &report->png_length) : NULL;
    free(rgb);
    return report->png != NULL;
}

static bool draw_picture(Report *report, const List *list)
{
    Lent lent;
    bool done = lend(report->arguments, report->arguments->has_memory ? report->arguments->memory : REPORT_MEMORY, &lent);
    if (done) {
        report->drawing = draw_into(list, &lent);
        done = is_refused(report->drawing) || make_png(report, list, &lent.memory);
    }
    lent_free(&lent);
    return done;
}

/* Everything that the page says; what fails tells it. */
static bool gather(Report *report)
{
    const List *list = &report->list;
    report->drawing = report->answer = list->verdict;
    if (!rows_of(list, report->answer, &report->rows) || !repaired_of(list, &report->repaired) || !afresh_of(list, &report->afresh))
        return false;
    compare_plans(report);
    find_missing(report);
    if (report->repaired.count == 0) /* drawing runs the whole check first */
        return is_refused(report->answer) || draw_picture(report, list);
    bool done = rows_of(&report->repaired.list, report->repaired.answer, &report->repaired_rows) && draw_picture(report, &report->repaired.list);
    number_as_given(report);
    return done;
}

/* The page of the steps, or that of the list. */
static bool add_page(Text *text, const Report *report)
{
    Steps steps = { 0 };
    bool done = !report->arguments->steps || steps_of(report, &steps);
    if (!report->arguments->steps)
        page_add(text, report);
    else if (done)
        steps_page_add(text, report, &steps);
    steps_free(&steps);
    return done;
}

static int write_report(Report *report, const char *output)
{
    Text text = { 0 };
    int status = STATUS_ERROR;
    if (!gather(report) || !add_page(&text, report)) {
        free(text.bytes);
        return STATUS_ERROR;
    }
    if (text.failed)
        complain("not enough memory for the page");
    else if (file_write(output, text.bytes, text.length))
        status = status_of(report->answer);
    free(text.bytes);
    return status;
}

/* Why the arguments do not go together; NULL where they do. */
static const char *fault_of(const Arguments *arguments)
{
    if (arguments->output == NULL)
        return "report needs -o OUT";
    if (is_same_file(arguments->paths[0], arguments->output))
        return "the output is the list itself";
    if (is_same_file(memory_path(arguments), arguments->output) || is_same_file(arguments->texture, arguments->output))
        return "the output is memory that the list is drawn into";
    return NULL;
}

int run_report(const Arguments *arguments)
{
    const char *path = arguments->paths[0], *fault = fault_of(arguments);
    Report report = { .path = strcmp(path, "-") == 0 ? "standard input" : path, .arguments = arguments };
    if (fault != NULL) {
        complain("%s", fault);
        return usage_error(arguments->command);
    }
    if (!list_read(path, &report.list, &to_show, &arguments->input))
        return STATUS_ERROR;
    int status = write_report(&report, arguments->output);
    free(report.png);
    free(report.rows.rows);
    free(report.repaired_rows.rows);
    repaired_free(&report.repaired);
    afresh_free(&report.afresh);
    list_free(&report.list);
    return status;
}
