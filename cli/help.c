/* The help of each command, for terminals of 80 columns. */
#include "cli.h"

#include <string.h>

#define TEXT_COLUMN 22 /* where the text on an option begins */

static const char overview[] =
    "Usage: lanyardrove COMMAND [OPTION].. FILE..\n"
    "Checks, repairs, shows and draws command lists of the Nintendo 64's display\n"
    "processor (RDP). A list is a file of 64-bit words, most significant byte first.\n\n"
    "  check      say whether a list is accepted, or the first refusal\n"
    "  repair     insert the syncs that a list misses, at the fewest cycles\n"
    "  dump       show a list command by command\n"
    "  draw       draw the rectangles of a list into memory\n"
    "  report     write a page about a list, for a browser\n"
    "  diff       compare two lists command by command\n"
    "  translate  write the list that a game's display list stands for\n"
    "  edit       replace one command of a list by another of equal length\n"
    "  asm        write the list of a text, as dump --asm prints it\n"
    "  lint       warn of what check does not say; no verdict\n\n"
    "'lanyardrove help COMMAND' or 'lanyardrove COMMAND --help' tells more of a\n"
    "command; 'lanyardrove -V' or '--version' prints the version. A FILE of - is\n"
    "standard input. A list from there or from a pipe is judged as it arrives.\n\n"
    "Exit status: 0 accepted, 1 refused, 2 wrong arguments, or a file could not be\n"
    "read or written.\n";

void print_overview(FILE *stream)
{
    fputs(overview, stream);
}

/* The text on an option stands in a column of its own; a long option has a line of its own. */
static void print_option(FILE *stream, const Option *option)
{
    char letter[8] = "";
    if (option->letter != 0)
        snprintf(letter, sizeof letter, "-%c, ", option->letter);
    int column = fprintf(stream, "  %s--%s%s%s", letter, option->name, option->value != NULL ? " " : "", option->value != NULL ? option->value : "");
    if (column + 2 > TEXT_COLUMN) {
        fputc('\n', stream);
        column = 0;
    }
    for (const char *line = option->text; line != NULL; column = 0) {
        size_t length = strcspn(line, "\n");
        fprintf(stream, "%*s%.*s\n", TEXT_COLUMN - column, "", (int)length, line);
        line = line[length] != '\0' ? line + length + 1 : NULL;
    }
}

void print_help(FILE *stream, const Entry *entry)
{
    const Option *option;
    fprintf(stream, "Usage: lanyardrove %s\n\n", entry->help);
    for (size_t i = 0; (option = option_at(entry->command, i)) != NULL; i++)
        print_option(stream, option);
}
