/* lanyardrove repair: lists with the syncs that they miss. */
#define _POSIX_C_SOURCE 200809L
#include "cli.h"

#include <string.h>
#include <unistd.h>

typedef struct {
    const Arguments *arguments;
    FILE *stream; /* of the text, which goes where the list does not */
} Repair;

/* With several lists each line begins with the list's name. */
static void print_name(const Repair *repair, const char *path)
{
    if (repair->arguments->count > 1) {
        print_shown(repair->stream, path);
        fputs(": ", repair->stream);
    }
}

/* A line of what is told of a list. */
static void print_line(const Repair *repair, const char *path, const char *text)
{
    print_name(repair, path);
    fprintf(repair->stream, "%s\n", text);
}

static void print_insertions(const Repair *repair, const char *path, const List *list, const Repaired *repaired)
{
    char text[160];
    for (size_t i = 0; i < repaired->count; i++) {
        const Insertion *insertion = &repaired->inserted[i];
        snprintf(text, sizeof text, "%s before word %zu, %s", command_name(insertion->number), insertion->place, name_at(list, insertion->place));
        print_line(repair, path, text);
    }
    inserted_text(repaired, !repair->arguments->dry, text, sizeof text);
    print_line(repair, path, text);
}

static void print_changes(const Repair *repair, const char *path, const List *list, const Afresh *afresh)
{
    char text[CHANGE_ROOM];
    for (size_t i = 0; i < afresh->count; i++) {
        change_text(list, &afresh->changes[i], text, sizeof text);
        print_line(repair, path, text);
    }
    afresh_text(afresh, text, sizeof text);
    print_line(repair, path, text);
}

/* As check tells a refusal. */
static int refuse(const Repair *repair, const char *path, const List *list, Answer answer)
{
    Meaning meaning = meaning_of(list, answer, FOR_REPAIR);
    if (repair->arguments->count <= 1)
        print_answer(repair->stream, list, answer, FOR_REPAIR);
    else {
        print_name(repair, path);
        fprintf(repair->stream, "%u %u, %s\n", answer.number, (unsigned)answer.place, meaning.text);
    }
    return STATUS_REFUSED;
}

/* Where the repaired list goes; NULL where nothing is written. In place a list is left as it is where nothing changes. */
static const char *output_of(const Arguments *arguments, const char *path, bool changes)
{
    if (arguments->in_place)
        return changes ? path : NULL;
    if (arguments->dry)
        return NULL;
    return arguments->output != NULL ? arguments->output : "-";
}

/* Writes the repaired list where it goes; the status. */
static int write_repaired(const Repair *repair, const char *path, const List *given, const List *list)
{
    bool changes = list->length != given->length || memcmp(list->bytes, given->bytes, list->length) != 0;
    const char *output = output_of(repair->arguments, path, changes);
    if (output != NULL && !file_write(output, list->bytes, list->length))
        return STATUS_ERROR;
    return repair->arguments->dry && changes ? STATUS_REFUSED : STATUS_ACCEPTED;
}

/* The syncs that the list misses are inserted. */
static int insert(const Repair *repair, const char *path, const List *list)
{
    Repaired repaired;
    if (!repaired_of(list, &repaired))
        return STATUS_ERROR;
    int status = is_refused(repaired.answer) ? refuse(repair, path, list, repaired.answer) : write_repaired(repair, path, list, &repaired.list);
    if (is_accepted(repaired.answer) && status != STATUS_ERROR)
        print_insertions(repair, path, list, &repaired);
    repaired_free(&repaired);
    return status;
}

/* All syncs are chosen afresh. */
static int choose_afresh(const Repair *repair, const char *path, const List *list)
{
    Afresh afresh;
    if (!afresh_of(list, &afresh))
        return STATUS_ERROR;
    int status = is_refused(afresh.answer) ? refuse(repair, path, list, afresh.answer) : write_repaired(repair, path, list, &afresh.list);
    if (is_accepted(afresh.answer) && status != STATUS_ERROR)
        print_changes(repair, path, list, &afresh);
    afresh_free(&afresh);
    return status;
}

static int repair_file(const Repair *repair, const char *path)
{
    List list;
    if (!list_read(path, &list, &to_repair, &repair->arguments->input))
        return STATUS_ERROR;
    int status = repair->arguments->afresh ? choose_afresh(repair, path, &list) : insert(repair, path, &list);
    list_free(&list);
    return status;
}

/* Why the arguments do not go together; NULL where they do. */
static const char *fault_of(const Arguments *arguments, bool to_output)
{
    if (arguments->dry + arguments->in_place + (arguments->output != NULL) > 1)
        return "repair has one of --check, --in-place and -o";
    if (arguments->count > 1 && !arguments->dry && !arguments->in_place)
        return "repair of several lists needs --in-place or --check";
    if (arguments->in_place && !is_as_it_stands(&arguments->input))
        return "only whole files are repaired in place";
    for (int i = 0; arguments->in_place && i < arguments->count; i++)
        if (strcmp(arguments->paths[i], "-") == 0)
            return "standard input is not repaired in place";
    return to_output && isatty(STDOUT_FILENO) ? "standard output is a terminal: give -o OUT" : NULL;
}

/* The worst status is that of all. */
int run_repair(const Arguments *arguments)
{
    bool to_output = !arguments->dry && !arguments->in_place && (arguments->output == NULL || strcmp(arguments->output, "-") == 0);
    Repair repair = { arguments, to_output ? stderr : stdout };
    const char *fault = fault_of(arguments, to_output);
    int worst = STATUS_ACCEPTED;
    if (fault != NULL) {
        complain("%s", fault);
        return usage_error(arguments->command);
    }
    for (int i = 0; i < arguments->count; i++) {
        int status = repair_file(&repair, arguments->paths[i]);
        worst = status > worst ? status : worst;
    }
    return worst;
}
