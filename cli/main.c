/* lanyardrove: the command line tool over the library. */
#include "cli.h"

#include <errno.h>
#include <limits.h>
#include <string.h>

/* The help is for terminals of 80 columns. */
static const Entry entries[] = {
    { OF_CHECK, "check", run_check, 1, INT_MAX, "list",
      "check [OPTION].. FILE..\n"
      "Prints 'number place' for a list, then what it means. Number 0 accepts the\n"
      "list, and the place is the number of its words; any other number is the first\n"
      "refusal, at a word of the list. Of a missing sync it says also for which command\n"
      "it is missing. Of a pipe no more is read than up to the first refused command.\n"
      "With several files there is a line for each, and a count." },
    { OF_REPAIR, "repair", run_repair, 1, INT_MAX, "list",
      "repair FILE [-o OUT], or repair --in-place|--check FILE..\n"
      "Writes the list with the syncs inserted that it misses, at the fewest cycles,\n"
      "and says which sync stands before which command, and the cycles that the list\n"
      "waits before and after. Without -o the list goes to standard output and the\n"
      "text to standard error. Nothing is written where the list is refused for another\n"
      "reason than a missing sync.\n"
      "With --afresh it says which syncs go, come and change." },
    { OF_DUMP, "dump", run_dump, 1, 1, "list",
      "dump [OPTION].. FILE\n"
      "Shows the verdict, then the list command by command: place, byte, words, name,\n"
      "the hazards before it (pipe, tile, draw, load) and every field. At the refused\n"
      "command stands why, and the command that it has to wait for is marked. After it\n"
      "the hazards go on as if it had run." },
    { OF_DRAW, "draw", run_draw, 1, 1, "list",
      "draw FILE --memory BYTES|FILE -o OUT [OPTION]..\n"
      "Draws a list into memory, and writes the picture in it: fill rectangles, and\n"
      "what texture rectangles copy of the tiles that are loaded. Nothing is written\n"
      "where the list is refused. Numbers are decimal, or hexadecimal after 0x." },
    { OF_REPORT, "report", run_report, 1, 1, "list",
      "report FILE -o OUT [OPTION]..\n"
      "Writes a page in HTML, which needs no other file: the verdict with the cycles\n"
      "waited, the hazards along the list, the syncs that a repair would insert, the\n"
      "picture if it can be drawn, and the commands, with links to the refused one and\n"
      "to the one that it has to wait for. It is written for a refused list too.\n"
      "The list is drawn into zeros at every address, or into what --memory gives.\n"
      "With --steps the page shows the picture after each draw, step by step." },
    { OF_DIFF, "diff", run_diff, 2, 2, "list",
      "diff [OPTION].. FIRST SECOND\n"
      "Compares two lists command by command, from the first on: both places of each\n"
      "pair that differs, both commands, or of the same command each field that\n"
      "differs with both values. Bits that belong to no field don't count. Then it\n"
      "counts them, and the commands that only one list has. Exit status: 0 where the\n"
      "lists are the same, 1 where they differ, 2 where one cannot be compared." },
    { OF_TRANSLATE, "translate", run_translate, 1, 1, "file of memory",
      "translate FILE [--start OFFSET] -o OUT\n"
      "Writes the list that a game's display list (Fast3DEX2) stands for. FILE is the\n"
      "memory that it lies in; its addresses are offsets there. Prints 'number place'\n"
      "and what it means: number 0 and the words written, or the first refusal and\n"
      "the offset of its command. Nothing is written at a refusal." },
    { OF_EDIT, "edit", run_edit, 1, INT_MAX, "list",
      "edit FILE PLACE COMMAND.. [-o OUT|--in-place]\n"
      "Replaces the command at a place by another that has as many words. It is given\n"
      "as words of sixteen hexadecimal digits, or as 'dump --asm' prints it, such as\n"
      "set_fill_color color=0x10001. Prints 'number place' and what it means, the\n"
      "hazards before the command, and what check says of the new list. Without -o\n"
      "and --in-place the list goes to standard output and the text to standard error.\n"
      "Nothing is written where the replacement is refused." },
    { OF_ASM, "asm", run_asm, 1, 1, "text of a list",
      "asm FILE [-o OUT]\n"
      "Writes the list that a text stands for, as 'dump --asm' prints it: the name of\n"
      "a command, its fields as NAME=VALUE in any order, those that are 0 may be left\n"
      "out, and of a triangle the words after them. Spaces, lines and commas separate,\n"
      "# begins a comment. Errors are told as compilers do, FILE:LINE:COLUMN: error:,\n"
      "and nothing is written then: status 1. Without -o the list goes to standard\n"
      "output." },
    { OF_LINT, "lint", run_lint, 1, INT_MAX, "list",
      "lint [OPTION].. FILE..\n"
      "Warns of what the check does not say, and may still go wrong on a console.\n"
      "Warnings are no verdict, and nothing proves them: check says whether a list is\n"
      "accepted. Each has a name, and can be left out. Exit status: 0 where there is\n"
      "no warning, 1 where there is one, 2 where a list cannot be read to its end." }
};

static void print_version(void)
{
    char version[VERSION_ROOM];
    version_text(version);
    printf("lanyardrove %s\n", version);
}

/* The command of a name; NULL where there is none, which is told. */
static const Entry *entry_of(const char *name)
{
    for (size_t i = 0; i < sizeof entries / sizeof entries[0]; i++)
        if (strcmp(entries[i].name, name) == 0)
            return &entries[i];
    complain("'%s' is no command", name);
    return NULL;
}

/* The help of the tool, or of a command that is named. */
static int help(const char *name)
{
    const Entry *entry = name != NULL ? entry_of(name) : NULL;
    if (name != NULL && entry == NULL)
        return usage_error("");
    if (entry != NULL)
        print_help(stdout, entry);
    else
        print_overview(stdout);
    return STATUS_ACCEPTED;
}

/* Whether an argument is a word or its letter. */
static bool is_either(const char *argument, const char *letter, const char *word)
{
    return strcmp(argument, letter) == 0 || strcmp(argument, word) == 0;
}

static int run(int argc, char **argv)
{
    if (argc < 2) {
        print_overview(stderr);
        return STATUS_ERROR;
    }
    if (is_either(argv[1], "-h", "--help") || strcmp(argv[1], "help") == 0)
        return help(argc > 2 ? argv[2] : NULL);
    if (is_either(argv[1], "-V", "--version")) {
        print_version();
        return STATUS_ACCEPTED;
    }
    const Entry *entry = entry_of(argv[1]);
    return entry != NULL ? run_entry(entry, argc - 1, argv + 1) : usage_error("");
}

/* Output that cannot be written is an error. Nothing to write is none, even where standard output is closed. */
static bool is_written(void)
{
    return fflush(stdout) == 0 && !ferror(stdout) && (fclose(stdout) == 0 || errno == EBADF);
}

int main(int argc, char **argv)
{
    if (lanyardrove_version() != LANYARDROVE_VERSION) {
        complain("the library has another version than its header");
        return STATUS_ERROR;
    }
    int status = run(argc, argv);
    if (is_written())
        return status;
    complain("standard output cannot be written");
    return STATUS_ERROR;
}
