/* lanyardrove dump: a list command by command. */
#define _POSIX_C_SOURCE 200809L
#include "asm.h"

#include <inttypes.h>
#include <stdlib.h>
#include <string.h>
#include <unistd.h>

#define WIDTH 80  /* columns of the lines that are broken */
#define AROUND 8 /* commands before and after one */

typedef struct {
    const Arguments *arguments;
    bool colour;
    const List *list;
    size_t first, last; /* the places that are shown */
} Dump;

#define RED "\033[1;31m"
#define GREEN "\033[1;32m"
#define YELLOW "\033[1;33m"
#define BOLD "\033[1m"
#define DIM "\033[2m"
#define RESET "\033[0m"

static const char *style(const Dump *dump, const char *code)
{
    return dump->colour ? code : "";
}

/* The fields, several to a line; with --brief those that are not 0. */
static void print_fields(const Dump *dump, const Command *command)
{
    size_t column = 0, at = 0;
    Shown shown;
    fputs(style(dump, DIM), stdout);
    while (next_shown(command, &at, &shown)) {
        size_t length = strlen(shown.name) + strlen(shown.value) + 2;
        if (dump->arguments->brief && shown.is_zero)
            continue;
        bool breaks = column == 0 || column + 1 + length > WIDTH;
        printf("%s%s", column == 0 ? "" : ",", breaks ? column > 0 ? "\n        " : "        " : " ");
        printf("%s=%s", shown.name, shown.value);
        column = (breaks ? 7 : column) + length + 1;
    }
    printf("%s%s", column > 0 ? "\n" : "", style(dump, RESET));
}

/* Place, byte in the file, and the word there. Of a translated list the byte is the offset of the command that it comes from, if that is known. */
static void print_word(const Dump *dump, size_t place)
{
    uint32_t offset;
    bool translated = dump->arguments->input.display.is_given, known = offset_at(dump->list, place, &offset);
    uint64_t byte = known ? offset : dump->arguments->input.offset.value + 8 * place;
    printf(translated && !known ? "%6zu  ------  " : "%6zu  %06" PRIX64 "  ", place, byte);
    printf("%016" PRIX64, word_at(dump->list->bytes, place));
}

/* The further words of a command; those after a triangle's base are named. */
static void print_further_words(const Dump *dump, const Command *command)
{
    size_t left = dump->list->length / 8 - command->place;
    for (size_t i = 1; i < command->words && i < left; i++) {
        print_word(dump, command->place + i);
        if (i >= 4)
            printf("    %s", suffix_name(command, i - 4));
        putchar('\n');
    }
}

/* How many bytes of a text go into a line: all, or those before the last space that fits. */
static size_t line_length(const char *text, size_t most)
{
    size_t length = strlen(text);
    if (length > most)
        for (length = most; length > 0 && text[length] != ' '; length--) { }
    return length;
}

/* A note on the command above it. */
static void print_note(const Dump *dump, const char *colour, const char *note)
{
    static const char first[] = "        >> ", further[] = "           ";
    const char *start = first;
    fputs(style(dump, colour), stdout);
    for (size_t length; (length = line_length(note, WIDTH - strlen(start))) > 0; start = further) {
        printf("%s%.*s\n", start, (int)length, note);
        note += length + (note[length] == ' ');
    }
    fputs(style(dump, RESET), stdout);
}

/* Why the command is refused stands at its line. */
static void print_refusal(const Dump *dump)
{
    char note[256];
    Meaning meaning = meaning_of(dump->list, dump->list->verdict, FOR_CHECK);
    snprintf(note, sizeof note, "refused, %u %u: %s", dump->list->verdict.number, (unsigned)dump->list->verdict.place, meaning.text);
    print_note(dump, RED, note);
}

/* The command that it has to wait for is marked too. */
static void print_cause(const Dump *dump)
{
    char note[64 + OFFSET_ROOM], offset[OFFSET_ROOM];
    size_t place = dump->list->verdict.place;
    snprintf(note, sizeof note, "causes the refusal at word %zu%s", place, offset_text(dump->list, place, " (", ")", offset));
    print_note(dump, YELLOW, note);
}

static void print_command(const Dump *dump, const Command *command, unsigned before)
{
    bool refused = dump->list->verdict.number >= LANYARDROVE_PAST_END && command->place == dump->list->verdict.place;
    bool causes = is_missing_sync(dump->list->verdict) && command->place == dump->list->verdict.third;
    char hazards[64];
    hazards_text(before, hazards, sizeof hazards);
    print_word(dump, command->place);
    printf("  %s%-22s%s  hazards: %s\n", style(dump, refused ? RED : causes ? YELLOW : BOLD), command_name(command->number), style(dump, RESET), hazards);
    if (refused)
        print_refusal(dump);
    if (causes)
        print_cause(dump);
    print_further_words(dump, command);
    if (command->whole)
        print_fields(dump, command);
}

/* What is left after the last word. */
static void print_rest(const Dump *dump)
{
    const List *list = dump->list;
    if (list->length / 8 > dump->last)
        return;
    if (goes_on(list))
        printf("        the list goes on after %zu bytes, which is all that is shown\n", list->limit);
    else if (list->length % 8 != 0) {
        printf("%6zu  %06" PRIX64 "  ", list->length / 8, dump->arguments->input.offset.value + list->length / 8 * 8);
        for (size_t i = list->length / 8 * 8; i < list->length; i++)
            printf("%02X", list->bytes[i]);
        printf("  no whole word\n");
    }
}

/* The hazards go on along the whole list, whatever is shown of it. */
static void print_list(const Dump *dump)
{
    Command command;
    unsigned hazards = 0;
    fputs(style(dump, is_accepted(dump->list->verdict) ? GREEN : RED), stdout);
    print_answer(stdout, dump->list, dump->list->verdict, FOR_CHECK);
    fputs(style(dump, RESET), stdout);
    if (dump->list->length >= 8)
        printf("\n place  %6s  word              command\n", dump->arguments->input.display.is_given ? "offset" : "byte");
    for (size_t place = 0; command_at(dump->list, place, &command); place += command.words) {
        if (place + command.words > dump->first && place <= dump->last)
            print_command(dump, &command, hazards);
        hazards = hazards_after(hazards, &command);
    }
    print_rest(dump);
}

/* The commands around one: so many before it, and as many after. False where no command has a word at the place. */
static bool find_around(Dump *dump, uint64_t around)
{
    Command command;
    size_t before[AROUND + 1] = { 0 }, count = 0, after = 0;
    for (size_t place = 0; command_at(dump->list, place, &command) && after <= AROUND; place += command.words) {
        bool passed = place + command.words > around;
        if (!passed || after == 0)
            before[count++ % (AROUND + 1)] = place;
        dump->last = place;
        after += passed;
    }
    dump->first = before[count > AROUND ? count % (AROUND + 1) : 0];
    return after > 0;
}

/* Colour where the output is a terminal that has it, and NO_COLOR is unset or empty, as no-color.org has it. */
static bool wants_colour(void)
{
    const char *terminal = getenv("TERM"), *none = getenv("NO_COLOR");
    return isatty(STDOUT_FILENO) && terminal != NULL && strcmp(terminal, "dumb") != 0 && (none == NULL || none[0] == '\0');
}

int run_dump(const Arguments *arguments)
{
    List list;
    if (arguments->around.is_given && (arguments->from.is_given || arguments->to.is_given)) {
        complain("dump has --around, or --from and --to");
        return usage_error(arguments->command);
    }
    if (!list_read(arguments->paths[0], &list, &to_show, &arguments->input))
        return STATUS_ERROR;
    Dump dump = { arguments, wants_colour(), &list, (size_t)arguments->from.value, arguments->to.is_given ? (size_t)arguments->to.value : SIZE_MAX };
    int status = STATUS_ERROR;
    if (arguments->around.is_given && !find_around(&dump, arguments->around.value))
        complain("%s: no command has word %" PRIu64, arguments->paths[0], arguments->around.value);
    else {
        if (arguments->text)
            asm_print(&list, dump.first, dump.last, arguments->brief);
        else
            print_list(&dump);
        hint_swapped(arguments->paths[0], &list, &arguments->input);
        status = status_of(list.verdict);
    }
    list_free(&list);
    return status;
}
