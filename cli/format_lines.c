/* What check tells in lines: as text, as compilers do, and as notes for GitHub. */
#include "check.h"

#include <string.h>

/* -- text: `number place`, and what it means ---------------------------- */

/* The cycles that the syncs of a list wait, and of an accepted list how many fewer they could be. */
static void print_cycles(const List *list)
{
    uint32_t saved;
    printf(is_accepted(list->verdict) ? "; the list waits %u cycles" : "; the syncs before the refusal wait %u cycles", (unsigned)cycles_waited(list));
    if (cycles_saved(list, &saved))
        printf(", and syncs chosen afresh would save %u", (unsigned)saved);
}

/* With several lists each answer has one line, with the list's name. The verdict comes first, and has the cycles. */
static void print_answer_line(const Arguments *arguments, const Checked *checked, Answer answer, bool first)
{
    Meaning meaning = meaning_of(checked->list, answer, FOR_CHECK);
    printf("%u %u", answer.number, (unsigned)answer.place);
    if (arguments->count > 1) {
        putchar(' ');
        print_shown(stdout, checked->path);
    }
    if (!arguments->quiet)
        printf("%s%s", arguments->count > 1 ? ": " : "\n", meaning.text);
    if (arguments->verbose && first)
        print_cycles(checked->list);
    putchar('\n');
}

/* A list that is not read has a line too, so that lines and arguments match. */
static void print_unread(const Arguments *arguments, const char *path)
{
    if (arguments->count > 1) {
        printf("- - ");
        print_shown(stdout, path);
        printf("%s\n", arguments->quiet ? "" : ": not read");
    }
}

void text_tell(const Arguments *arguments, const Checked *checked)
{
    if (checked->list == NULL)
        print_unread(arguments, checked->path);
    else if (is_accepted(checked->list->verdict))
        print_answer_line(arguments, checked, checked->list->verdict, true);
    else
        for (size_t i = 0; i < checked->findings->count; i++)
            print_answer_line(arguments, checked, checked->findings->answers[i], i == 0);
}

bool text_end(const Arguments *arguments, const Tally *tally)
{
    if (arguments->count > 1 && !arguments->quiet) {
        printf("%d lists: %u accepted", arguments->count, tally->accepted);
        if (tally->empty > 0)
            printf(" (%u empty)", tally->empty);
        printf(", %u refused", tally->refused);
        if (tally->unread > 0)
            printf(", %u not read", tally->unread);
        putchar('\n');
    }
    return true;
}

bool lines_end(const Arguments *arguments, const Tally *tally)
{
    (void)arguments;
    (void)tally;
    return true;
}

/* -- as compilers do: FILE:PLACE: error: .. ------------------------------ */

/* How a line begins; the place of a translated list is followed by its offset in memory. */
static void print_start(const Checked *checked, uint32_t place, const char *kind)
{
    char offset[OFFSET_ROOM];
    print_shown(stdout, checked->path);
    printf(":%u: %s: %s", (unsigned)place, kind, offset_text(checked->list, place, "", ": ", offset));
}

void gcc_tell(const Arguments *arguments, const Checked *checked)
{
    (void)arguments;
    for (size_t i = 0; checked->list != NULL && i < checked->findings->count; i++) {
        Answer answer = checked->findings->answers[i];
        Meaning meaning = meaning_of(checked->list, answer, FOR_CHECK);
        meaning.text[meaning.end] = '\0';
        print_start(checked, answer.place, "error");
        printf("%s [%u]\n", meaning.text + meaning.start, answer.number);
        if (is_missing_sync(answer)) {
            print_start(checked, answer.third, "note");
            printf("the %s that it has to wait for\n", name_at(checked->list, answer.third));
        }
    }
}

/* -- notes for GitHub: ::error file=FILE::.. ----------------------------- */

/* In a note some signs have a meaning; GitHub reads these as %HH. */
static void print_github(const char *text, const char *signs)
{
    for (; *text != '\0'; text++)
        if (strchr(signs, *text) != NULL)
            printf("%%%02X", (unsigned)(unsigned char)*text);
        else
            putchar((unsigned char)*text < 32 ? '?' : *text);
}

/* No line is named: a list has none, and the text has the word. The kind is error or warning. */
void print_annotation(const char *kind, const char *path, const char *text)
{
    printf("::%s file=", kind);
    print_github(path, "%\r\n:,");
    printf("::");
    print_github(text, "%\r\n");
    putchar('\n');
}

void github_tell(const Arguments *arguments, const Checked *checked)
{
    (void)arguments;
    if (checked->list == NULL)
        print_annotation("error", checked->path, "the list could not be read");
    for (size_t i = 0; checked->list != NULL && i < checked->findings->count; i++) {
        Answer answer = checked->findings->answers[i];
        Meaning meaning = meaning_of(checked->list, answer, FOR_CHECK);
        print_annotation("error", checked->path, meaning.text);
    }
}
