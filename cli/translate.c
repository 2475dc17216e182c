/* lanyardrove translate: writes the list that a game's display list stands for. */
#include "cli.h"

#include <stdlib.h>
#include <string.h>

/* The text goes where the list does not. */
static int write_translated(const char *output, Answer answer, const List *list, const Memory *memory)
{
    FILE *stream = strcmp(output, "-") == 0 ? stderr : stdout;
    char text[TRANSLATION_ROOM];
    if (list->bytes == NULL || (is_accepted(answer) && !file_write(output, list->bytes, list->length)))
        return STATUS_ERROR;
    translation_text(answer, memory, text);
    fprintf(stream, "%u %u\n%s\n", answer.number, (unsigned)answer.place, text);
    return status_of(answer);
}

int run_translate(const Arguments *arguments)
{
    const char *path = arguments->paths[0];
    Memory memory;
    List list;
    if (arguments->output == NULL || is_same_file(path, arguments->output)) {
        complain("%s", arguments->output == NULL ? "translate needs -o OUT" : "the output is the memory itself");
        return usage_error(arguments->command);
    }
    Answer answer = translated(path, arguments->input.display.value, &memory, &list);
    int status = write_translated(arguments->output, answer, &list, &memory);
    list_free(&list);
    free(memory.bytes);
    return status;
}
