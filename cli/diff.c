/* lanyardrove diff: two lists compared command by command. The status is that of diff: 0 where they are the same, 1 where they differ, 2 at trouble. */
#include "compared.h"

#include <stdlib.h>
#include <string.h>

static void print_pair(const Pair *pair)
{
    char names[2][NAME_ROOM];
    Shown shown[2];
    size_t at = 0;
    bool same = pair->commands[0].number == pair->commands[1].number;
    pair_names(pair, names);
    printf("word %zu | word %zu: %s%s%s\n", pair->commands[0].place, pair->commands[1].place, names[0], same ? "" : " | ", same ? "" : names[1]);
    while (next_differing(pair, &at, shown))
        printf("        %s: %s | %s\n", shown[0].name, shown[0].value, shown[1].value);
}

static bool print_text(const Diff *diff, bool quiet)
{
    Text text = { 0 };
    for (size_t i = 0; i < diff->compared->count && !quiet; i++) {
        Pair pair = pair_of(diff->lists, &diff->compared->differences[i]);
        print_pair(&pair);
    }
    compared_text(diff->compared, diff->paths, &text);
    if (!text.failed)
        print_shown(stdout, text.bytes);
    putchar('\n');
    free(text.bytes);
    return !text.failed;
}

static bool write_page(const Diff *diff, const char *output)
{
    Text text = { 0 };
    diff_page_add(&text, diff);
    if (text.failed)
        complain("not enough memory for the page");
    bool done = !text.failed && file_write(output, text.bytes, text.length);
    free(text.bytes);
    return done;
}

/* A list that does not decode cannot be compared. */
static int refuse(const Diff *diff)
{
    const Compared *compared = diff->compared;
    Meaning meaning = meaning_of(&diff->lists[compared->refused], compared->answer, FOR_CHECK);
    complain("%s: %u %u, %s", diff->paths[compared->refused], compared->answer.number, (unsigned)compared->answer.place, meaning.text);
    return STATUS_ERROR;
}

static int tell(const Arguments *arguments, const Diff *diff)
{
    if (is_refused(diff->compared->answer))
        return refuse(diff);
    if (arguments->output != NULL && !write_page(diff, arguments->output))
        return STATUS_ERROR;
    if (!(arguments->json ? diff_print_json(diff) : print_text(diff, arguments->quiet)))
        return STATUS_ERROR;
    return is_same(diff->compared) ? STATUS_ACCEPTED : STATUS_REFUSED;
}

/* Why the arguments do not go together; NULL where they do. */
static const char *fault_of(const Arguments *arguments)
{
    if (strcmp(arguments->paths[0], "-") == 0 && strcmp(arguments->paths[1], "-") == 0)
        return "standard input is one list, not two";
    if (is_same_file(arguments->paths[0], arguments->output) || is_same_file(arguments->paths[1], arguments->output))
        return "the output is one of the lists";
    if (arguments->output != NULL && strcmp(arguments->output, "-") == 0)
        return "standard output has what is told: the page is a file";
    return NULL;
}

static int diff_lists(const Arguments *arguments, const List lists[2])
{
    Compared compared;
    Diff diff = { .lists = lists, .compared = &compared };
    for (int i = 0; i < 2; i++)
        diff.paths[i] = strcmp(arguments->paths[i], "-") == 0 ? "standard input" : arguments->paths[i];
    int status = compared_of(lists, &compared) ? tell(arguments, &diff) : STATUS_ERROR;
    compared_free(&compared);
    return status;
}

int run_diff(const Arguments *arguments)
{
    List lists[2] = { { 0 } };
    const char *fault = fault_of(arguments);
    if (fault != NULL) {
        complain("%s", fault);
        return usage_error(arguments->command);
    }
    bool read = list_read(arguments->paths[0], &lists[0], &to_walk, &arguments->input)
                && list_read(arguments->paths[1], &lists[1], &to_walk, &arguments->input);
    int status = read ? diff_lists(arguments, lists) : STATUS_ERROR;
    list_free(&lists[0]);
    list_free(&lists[1]);
    return status;
}
