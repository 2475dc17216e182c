/* lanyardrove asm: the list that a text stands for, as dump --asm prints it. */
#define _POSIX_C_SOURCE 200809L
#include "asm.h"

#include <stdlib.h>
#include <string.h>
#include <unistd.h>

/* Nothing is written where the text has errors. */
static int write_assembled(const char *path, const Memory *text, const char *output)
{
    List list;
    int status = STATUS_REFUSED;
    if (assembled(path, (const char *)text->bytes, text->length, &list))
        status = file_write(output, list.bytes, list.length) ? STATUS_ACCEPTED : STATUS_ERROR;
    list_free(&list);
    return status;
}

/* Why the arguments do not go together; NULL where they do. */
static const char *fault_of(const char *path, const char *output)
{
    if (is_same_file(path, output))
        return "the output is the text itself";
    return strcmp(output, "-") == 0 && isatty(STDOUT_FILENO) ? "standard output is a terminal: give -o OUT" : NULL;
}

int run_asm(const Arguments *arguments)
{
    const char *path = arguments->paths[0], *output = arguments->output != NULL ? arguments->output : "-";
    const char *fault = fault_of(path, output);
    Memory text = { 0 };
    if (fault != NULL) {
        complain("%s", fault);
        return usage_error(arguments->command);
    }
    bool read = memory_read(strcmp(path, "-") == 0 ? "/dev/stdin" : path, &text);
    int status = read ? write_assembled(path, &text, output) : STATUS_ERROR;
    free(text.bytes);
    return status;
}
