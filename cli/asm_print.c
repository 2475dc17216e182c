/* dump --asm: a list as the text that asm reads. What is no command's field stands in comments, but for bits that belong to none. */
#include "asm.h"

#include <inttypes.h>
#include <string.h>

#define WIDTH 80 /* columns */

/* The items of a command, several to a line. */
typedef struct {
    size_t column;
} Line;

static void print_item(Line *line, const char *item)
{
    size_t length = strlen(item);
    bool breaks = line->column == 0 || line->column + 2 + length + 1 > WIDTH;
    printf("%s%s%s", line->column == 0 ? "" : ",", breaks ? line->column > 0 ? "\n    " : "    " : " ", item);
    line->column = (breaks ? 4 : line->column + 2) + length;
}

/* Each number as it is encoded: addresses and colours in hexadecimal. */
static void print_fields(Line *line, const Command *command, bool brief)
{
    char item[96];
    for (size_t field = 0; field < command->count; field++) {
        Style style = field_style(command->number, field);
        uint64_t value = command->fields[field];
        int length = snprintf(item, sizeof item, "%s=", field_name(command->number, field));
        if (style == HEX || style == COLOUR)
            snprintf(item + length, sizeof item - (size_t)length, style == HEX ? "0x%" PRIX64 : "0x%08" PRIX64, value);
        else
            snprintf(item + length, sizeof item - (size_t)length, "%" PRId64, (int64_t)value);
        if (!brief || value != 0)
            print_item(line, item);
    }
}

/* The bits that are set and belong to no field: encoding leaves them zero. */
static void print_unused(Line *line, const List *list, const Command *command)
{
    uint8_t encoded[8 * LANYARDROVE_MOST_WORDS];
    char item[64];
    const uint8_t *suffix = list->bytes + 8 * (command->place + BASE_WORDS);
    if (!is_encoded(command, suffix, suffix_count(command), encoded))
        return;
    for (size_t i = 0; i < command->words && i < BASE_WORDS; i++) {
        uint64_t unused = word_at(list->bytes, command->place + i) ^ word_at(encoded, i);
        snprintf(item, sizeof item, UNUSED_BITS "%zu=0x%016" PRIX64, i, unused);
        if (unused != 0)
            print_item(line, item);
    }
}

static void print_suffix(const List *list, const Command *command)
{
    for (size_t i = 0; i < suffix_count(command); i++)
        printf("    0x%016" PRIX64 "  # %s\n", word_at(list->bytes, command->place + BASE_WORDS + i), suffix_name(command, i));
}

/* A command that is cut has no fields: its words stand as they are. */
static void print_cut(const List *list, size_t place)
{
    for (; place < list->length / 8; place++)
        printf(RAW_WORDS " 0x%016" PRIX64 "\n", word_at(list->bytes, place));
}

/* The refused command is marked; why it is stands above the list. */
static void print_refusal(const List *list, size_t place)
{
    if (list->verdict.number >= LANYARDROVE_PAST_END && place == list->verdict.place)
        printf("# refused, %u %u:\n", list->verdict.number, (unsigned)list->verdict.place);
}

static void print_command(const List *list, const Command *command, bool brief)
{
    char name[MNEMONIC_ROOM], offset[OFFSET_ROOM];
    Line line = { 0 };
    print_refusal(list, command->place);
    if (!command->whole) {
        print_cut(list, command->place);
        return;
    }
    mnemonic_of(command->number, name);
    printf("%-30s  # word %zu%s\n", name, command->place, offset_text(list, command->place, ", ", "", offset));
    print_fields(&line, command, brief);
    print_unused(&line, list, command);
    if (line.column > 0)
        putchar('\n');
    print_suffix(list, command);
}

/* What is left after the last word cannot be said but in a comment. */
static void print_rest(const List *list)
{
    if (goes_on(list))
        printf("# the list goes on after %zu bytes, which is all that is shown\n", list->limit);
    else if (list->length % 8 != 0) {
        printf("# no whole word:");
        for (size_t i = list->length / 8 * 8; i < list->length; i++)
            printf(" %02X", list->bytes[i]);
        putchar('\n');
    }
}

void asm_print(const List *list, size_t first, size_t last, bool brief)
{
    Command command;
    printf("# %u %u\n# %s\n", list->verdict.number, (unsigned)list->verdict.place, meaning_of(list, list->verdict, FOR_CHECK).text);
    for (size_t place = 0; command_at(list, place, &command); place += command.words)
        if (place + command.words > first && place <= last)
            print_command(list, &command, brief);
    if (list->length / 8 <= last)
        print_rest(list);
}
