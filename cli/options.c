/* The options, each declared once for a command: what is read, and what the help says of it. */
#define _GNU_SOURCE
#include "cli.h"

#include <getopt.h>
#include <string.h>

/* What each kind of option does with its value, where the member of the arguments stands that it sets; false where the value is wrong. */

static bool set_flag(void *member, const char *value)
{
    (void)value;
    return *(bool *)member = true;
}

static bool set_number(void *member, const char *value)
{
    Number *number = member;
    return number->is_given = take_address(value, &number->value);
}

static bool set_address(void *member, const char *value)
{
    return take_address(value, member);
}

static bool set_offset(void *member, const char *value)
{
    Number *offset = member;
    return offset->is_given = take_offset(value, &offset->value);
}

static bool set_format(void *member, const char *value)
{
    const struct Format **format = member;
    *format = format_of(value);
    return *format != NULL;
}

static bool set_lint_format(void *member, const char *value)
{
    const struct LintFormat **format = member;
    *format = lint_format_of(value);
    return *format != NULL;
}

static bool set_warning(void *member, const char *value)
{
    return take_warning(value, member);
}

/* Text is what diff tells if nothing is said. */
static bool set_json(void *member, const char *value)
{
    bool *json = member;
    *json = strcmp(value, "json") == 0;
    return *json || strcmp(value, "text") == 0;
}

static bool set_output(void *member, const char *value)
{
    const char **output = member;
    *output = strcmp(value, "/dev/stdout") == 0 ? "-" : value; /* so that no text is mixed with it */
    return true;
}

static bool set_file(void *member, const char *value)
{
    const char **file = member;
    *file = value;
    return true;
}

/* What begins with a digit is a number of bytes, anything else the name of a file. */
static bool set_memory(void *member, const char *value)
{
    Arguments *arguments = member;
    bool is_file = value[0] != '\0' && digit_of(value[0]) >= 10;
    arguments->memory_file = is_file ? value : NULL;
    return arguments->has_memory = is_file || take_bytes(value, &arguments->memory);
}

static bool set_image(void *member, const char *value)
{
    Arguments *arguments = member;
    return arguments->has_image = take_image(value, &arguments->image);
}

#define FLAG(member) NULL, set_flag, offsetof(Arguments, member), NULL
#define NUMBER(value, member) value, set_number, offsetof(Arguments, member), "a number"
#define TEXTURE "FILE", set_file, offsetof(Arguments, texture), NULL
#define DISPLAY "OFFSET", set_offset, offsetof(Arguments, input.display), "an offset of 32 bits"
#define OUTPUT "OUT", set_output, offsetof(Arguments, output), NULL

static const Option options[] = {
    { OF_CHECK, "quiet", 'q', FLAG(quiet), "print 'number place' alone; of several files, the name\ntoo" },
    { OF_CHECK, "verbose", 'v', FLAG(verbose),
      "say also the cycles that the syncs of a list wait; of a\n"
      "refused list those before the refusal" },
    { OF_CHECK, "failures", 0, FLAG(failures), "leave out the lists that are accepted" },
    { OF_CHECK, "all", 0, FLAG(all),
      "tell every sync that a list misses, as if the commands\n"
      "before ran; the verdict stays the first refusal" },
    { OF_CHECK, "format", 0, "FORM", set_format, offsetof(Arguments, format), "one of text, gcc, github, json and sarif",
      "how lists are told: text, gcc (as compilers do), github\n"
      "(annotations), json or sarif" },
    { OF_LINT, "format", 0, "FORM", set_lint_format, offsetof(Arguments, lint_format), "one of text, gcc, github, json and sarif",
      "how warnings are told: text, gcc (as compilers do), github\n"
      "(annotations), json or sarif" },
    { OF_LINT, "warn", 'W', "[no-]NAME", set_warning, offsetof(Arguments, silenced), "a warning or all, or no- before it",
      "leave a warning out, such as -Wno-sync-full, or take it in\n"
      "again: fill-texture, depth-image, combine-mode,\n"
      "texture-memory, sync-full, data-run, swapped, or all" },
    { OF_DIFF, "quiet", 'q', FLAG(quiet), "count what differs, and tell no more" },
    { OF_DIFF, "format", 0, "FORM", set_json, offsetof(Arguments, json), "one of text and json", "how it is told: text or json" },
    { OF_DUMP, "brief", 0, FLAG(brief), "leave out the fields that are 0" },
    { OF_DUMP, "asm", 0, FLAG(text), "print the text that asm makes the list of again" },
    { OF_DUMP, "from", 0, NUMBER("PLACE", from), "show the commands from this word on" },
    { OF_DUMP, "to", 0, NUMBER("PLACE", to), "show the commands up to this word" },
    { OF_DUMP, "around", 0, NUMBER("PLACE", around), "show eight commands before the one of this word, and\neight after" },
    { OF_DRAW | OF_REPORT, "memory", 0, "BYTES|FILE", set_memory, 0, "a number of bytes up to 256M",
      "so many bytes of zeros, K and M may follow the number; or\n"
      "the bytes of a file. What begins with a digit is a\n"
      "number, all else a file: ./64 is the file 64" },
    { OF_DRAW | OF_REPORT, "start", 0, "ADDRESS", set_address, offsetof(Arguments, start), "an address",
      "the address of the first byte of memory; 0 if not given" },
    { OF_DRAW, "texture", 0, TEXTURE,
      "the file of texture memory, 4,096 bytes: drawing begins\n"
      "with it, and what is left is written back. If not given,\n"
      "it is zeros and nothing is kept" },
    { OF_REPORT, "texture", 0, TEXTURE, "the file of texture memory, 4,096 bytes; it is not\nwritten" },
    { OF_DRAW, "image", 0, "ADDRESS,WIDTH,HEIGHT,SIZE", set_image, 0,
      "ADDRESS,WIDTH,HEIGHT,SIZE with sides of 1 to 4096 and SIZE 8, 16 or 32",
      "the picture, with SIZE bits a pixel (8, 16 or 32); if not\n"
      "given, the colour image of the last rectangle, as high as\n"
      "the scissor" },
    { OF_REPORT, "steps", 0, FLAG(steps),
      "a page of the steps instead: the picture and texture\n"
      "memory after each draw and load, by keys and a slider" },
    { OF_TRANSLATE, "start", 0, DISPLAY,
      "where the display list begins in the memory; 0 if not\ngiven" },
    { OF_REPAIR, "afresh", 0, FLAG(afresh),
      "forget the Load, Tile and Pipe syncs of the list, and\n"
      "choose all afresh, so that it waits as little as it can" },
    { OF_REPAIR, "check", 0, FLAG(dry), "write nothing; status 1 where the list would change" },
    { OF_REPAIR, "in-place", 'i', FLAG(in_place), "write each list over itself, where it changes" },
    { OF_EDIT, "in-place", 'i', FLAG(in_place), "write the list over itself" },
    { OF_REPAIR | OF_EDIT, "output", 'o', OUTPUT, "the file to write; it may be FILE itself" },
    { OF_DRAW, "output", 'o', OUTPUT,
      "the file to write: .png or .ppm for the picture, .bin for\n"
      "all of memory, or with --image for the picture's bytes" },
    { OF_REPORT, "output", 'o', OUTPUT, "the file to write" },
    { OF_DIFF, "output", 'o', OUTPUT, "write a page in HTML too: both lists side by side" },
    { OF_ASM, "output", 'o', OUTPUT, "the file to write; standard output if not given" },
    { OF_TRANSLATE, "output", 'o', OUTPUT, "the file to write; with - the text goes to standard error" },
    { OF_LISTS, "offset", 0, NUMBER("BYTE", input.offset), "where the list begins in the file; 0 if not given" },
    { OF_LISTS, "length", 0, NUMBER("BYTES", input.length), "the list's length; to the end of the file if not given" },
    { OF_LISTS, "swap", 0, FLAG(input.swap), "the file has its words least significant byte first" },
    { OF_LISTS, "hex", 0, FLAG(input.hex), "the file is text, of hexadecimal digits" },
    { OF_CHECK | OF_DUMP | OF_DRAW | OF_REPORT | OF_LINT, "f3dex2", 0, DISPLAY,
      "the file is memory, and the list the one that the display\n"
      "list at this offset stands for, as translate writes it" },
    { OF_ALL, "help", 'h', FLAG(help), "print this" }
};

#define OPTIONS (sizeof options / sizeof options[0])

/* The option of a command by its name; NULL where the command has none. */
static const Option *option_of(unsigned command, const char *name)
{
    for (size_t i = 0; i < OPTIONS; i++)
        if ((options[i].commands & command) != 0 && strcmp(options[i].name, name) == 0)
            return &options[i];
    return NULL;
}

/* The options of a command in their order; NULL after the last. */
const Option *option_at(unsigned command, size_t index)
{
    for (size_t i = 0; i < OPTIONS; i++)
        if ((options[i].commands & command) != 0 && index-- == 0)
            return &options[i];
    return NULL;
}

/* What getopt reads: the options of all commands, so that one of another command is told as such. */
typedef struct {
    char letters[3 * OPTIONS + 1];
    struct option names[OPTIONS + 1];
} Known;

static void know_options(Known *known)
{
    size_t count = 0;
    char *letters = known->letters;
    for (size_t i = 0; i < OPTIONS; i++) {
        const Option *option = &options[i];
        if (option_of(OF_ALL, option->name) != option)
            continue;
        known->names[count++] = (struct option){ option->name, option->value != NULL, NULL, (int)(256 + i) };
        if (option->letter != 0)
            letters += sprintf(letters, "%c%s", option->letter, option->value != NULL ? ":" : "");
    }
    known->names[count] = (struct option){ 0 };
}

/* The option that getopt found, by its letter or by its index. */
static const Option *found_option(int found)
{
    for (size_t i = 0; i < OPTIONS; i++)
        if (found == (int)(256 + i) || (found != 0 && found == options[i].letter))
            return &options[i];
    return NULL;
}

/* Takes one option; false where it is wrong, which is told. getopt tells of an option that no command has. */
static bool take_option(const Entry *entry, int found, Arguments *arguments)
{
    const Option *any = found_option(found);
    const Option *option = any != NULL ? option_of(entry->command, any->name) : NULL;
    if (option == NULL) {
        if (any != NULL)
            complain("%s has no option --%s", entry->name, any->name);
        return false;
    }
    bool taken = option->set((char *)arguments + option->member, optarg);
    if (!taken)
        complain("--%s %s: not %s", option->name, optarg, option->expected);
    return taken;
}

/* Too few files, or too many. */
static void complain_of_count(const Entry *entry, int count)
{
    bool two = entry->least > 1;
    complain(count < entry->least ? "%s needs %s %s%s; - is standard input" : "%s takes %s %s%s", entry->name,
             two ? "two" : count < entry->least ? "a" : "one", entry->takes, two ? "s" : "");
}

/* Reads the arguments of a command and runs it; argv[0] is its name. */
int run_entry(const Entry *entry, int argc, char **argv)
{
    static char program[] = "lanyardrove";
    Arguments arguments = { .command = entry->name };
    Known known;
    int found;
    know_options(&known);
    argv[0] = program; /* the name in getopt's messages */
    while ((found = getopt_long(argc, argv, known.letters, known.names, NULL)) != -1)
        if (!take_option(entry, found, &arguments))
            return usage_error(entry->name);
    if (arguments.help) {
        print_help(stdout, entry);
        return STATUS_ACCEPTED;
    }
    arguments.paths = argv + optind;
    arguments.count = argc - optind;
    if (arguments.count < entry->least || arguments.count > entry->most) {
        complain_of_count(entry, arguments.count);
        return usage_error(entry->name);
    }
    if (arguments.input.display.is_given && !is_as_it_stands(&arguments.input)) {
        complain("--f3dex2 goes with none of --offset, --length, --swap and --hex");
        return usage_error(entry->name);
    }
    return entry->run(&arguments);
}
