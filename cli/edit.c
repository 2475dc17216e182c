/* lanyardrove edit: one command of a list is replaced by another of equal length. */
#define _POSIX_C_SOURCE 200809L
#include "asm.h"
#include "report.h"

#include <stdlib.h>
#include <string.h>
#include <unistd.h>

#define WORD_DIGITS 16 /* hexadecimal, of a word */

/* The new command and its place. The bytes are followed by zeros, so that a command whose words are not all given has a name too. */
typedef struct {
    uint32_t place;
    uint8_t bytes[8 * LANYARDROVE_MOST_WORDS];
    size_t words; /* that are given */
} Replacement;

/* A word of sixteen hexadecimal digits, after 0x or not. */
static bool take_word(const char *text, uint8_t *bytes)
{
    const char *digits = text[0] == '0' && (text[1] == 'x' || text[1] == 'X') ? text + 2 : text;
    if (strlen(digits) != WORD_DIGITS)
        return false;
    for (size_t i = 0; i < 8; i++) {
        unsigned high = digit_of(digits[2 * i]), low = digit_of(digits[2 * i + 1]);
        if (high > 15 || low > 15)
            return false;
        bytes[i] = (uint8_t)(16 * high + low);
    }
    return true;
}

static const char *word_or_words(size_t count)
{
    return count == 1 ? "word" : "words";
}

/* The words of the command at the front of some bytes. */
static size_t words_at(const uint8_t *bytes)
{
    return (size_t)lanyardrove_words(word_at(bytes, 0));
}

static const char *name_of(const Replacement *replacement)
{
    List command = { .bytes = (uint8_t *)replacement->bytes, .length = sizeof replacement->bytes };
    return name_at(&command, 0);
}

/* A command in the text form of asm begins with a letter, and has more signs than hexadecimal digits. */
static bool is_text(const char *argument)
{
    size_t digits = 0;
    while (digit_of(argument[digits]) < 16)
        digits++;
    return argument[digits] != '\0' && digit_of(argument[0]) >= 10;
}

/* The one command of a list. */
static const char *take_assembled(const List *list, Replacement *replacement)
{
    size_t words = list->length / 8;
    if (words == 0)
        return "edit needs a list, a place and a command";
    if (words > LANYARDROVE_MOST_WORDS || words > words_at(list->bytes))
        return "more words are given than the command has";
    memcpy(replacement->bytes, list->bytes, list->length);
    replacement->words = words;
    return NULL;
}

/* The command in the text form, of one argument or of several; why it is none, or NULL. Errors in it are told as asm does. */
static const char *take_text(const Arguments *arguments, Replacement *replacement)
{
    Text text = { 0 };
    List list = { 0 };
    for (int i = 2; i < arguments->count; i++)
        text_add(&text, "%s ", arguments->paths[i]);
    bool read = !text.failed && assembled("COMMAND", text.bytes, text.length, &list);
    const char *fault = read ? take_assembled(&list, replacement) : "the command cannot be read";
    list_free(&list);
    free(text.bytes);
    return fault;
}

/* The place and the command that are given; why they are none, or NULL. */
static const char *take_replacement(const Arguments *arguments, Replacement *replacement)
{
    uint64_t place;
    *replacement = (Replacement){ 0 };
    if (arguments->count < 3)
        return "edit needs a list, a place and a command";
    if (!take_offset(arguments->paths[1], &place))
        return "the place is no number of 32 bits";
    replacement->place = (uint32_t)place;
    if (is_text(arguments->paths[2]))
        return take_text(arguments, replacement);
    for (int i = 2; i < arguments->count; i++) {
        if (replacement->words == LANYARDROVE_MOST_WORDS || (replacement->words > 0 && replacement->words == words_at(replacement->bytes)))
            return "more words are given than the command has";
        if (!take_word(arguments->paths[i], replacement->bytes + 8 * replacement->words++))
            return "a word has sixteen hexadecimal digits";
    }
    return NULL;
}

/* Why the output is not as it should be, or NULL. */
static const char *output_fault(const Arguments *arguments, bool to_output)
{
    if (arguments->in_place && arguments->output != NULL)
        return "edit has one of --in-place and -o";
    if (arguments->in_place && !is_as_it_stands(&arguments->input))
        return "only whole files are edited in place";
    if (arguments->in_place && strcmp(arguments->paths[0], "-") == 0)
        return "standard input is not edited in place";
    return to_output && isatty(STDOUT_FILENO) ? "standard output is a terminal: give -o OUT" : NULL;
}

/* Where no command starts at the place: the command that it is inside, or that it is none of the list's. */
static void print_no_command(FILE *stream, const List *list, size_t place)
{
    Command command;
    size_t at = 0;
    if (place >= list->length / 8) {
        fprintf(stream, "word %zu: the list has %zu %s\n", place, list->length / 8, word_or_words(list->length / 8));
        return;
    }
    while (command_at(list, at, &command) && at + command.words <= place)
        at += command.words;
    fprintf(stream, "word %zu: no command starts there, inside the %s at word %zu\n", place, command_name(command.number), at);
}

/* A refusal of the replacement of a list that is whole. */
static void print_refusal(FILE *stream, const List *list, const Replacement *replacement, Answer answer)
{
    size_t due = words_at(replacement->bytes);
    fprintf(stream, "%u %u\n", answer.number, (unsigned)answer.place);
    switch (answer.number) {
    case LANYARDROVE_NO_ENTRY: fprintf(stream, "the list is empty\n"); break;
    case LANYARDROVE_NO_COMMAND: print_no_command(stream, list, answer.place); break;
    case LANYARDROVE_PAST_END:
        fprintf(stream, "the new command, %s, has %zu words; given: %zu\n", name_of(replacement), due, replacement->words);
        break;
    default: {
        size_t old = words_at(list->bytes + 8 * (size_t)answer.place);
        fprintf(stream, "word %u: %s has %zu %s, the new command, %s, %zu\n", (unsigned)answer.place, name_at(list, answer.place), old,
                word_or_words(old), name_of(replacement), due);
    }
    }
}

/* What stands where, the hazards before it, and what the check says of the list now. */
static void print_replaced(FILE *stream, const List *list, Answer answer, const char *old, unsigned hazards)
{
    char text[32];
    Answer verdict = answer_of(lanyardrove_check(list->bytes, list->length));
    Meaning meaning = meaning_of(list, verdict, FOR_CHECK);
    hazards_text(hazards, text, sizeof text);
    fprintf(stream, "%u %u\nword %u: %s in place of %s, hazards before: %s\nthe list now: %u %u, %s\n", answer.number, (unsigned)answer.place,
            (unsigned)answer.place, name_at(list, answer.place), old, text, verdict.number, (unsigned)verdict.place, meaning.text);
}

/* Replaces the command in a list that was read, and writes it. */
static int edit_list(const Arguments *arguments, FILE *stream, List *list, const Replacement *replacement)
{
    uint32_t entries[LANYARDROVE_INDEX_NUMBERS], place = replacement->place;
    const char *output = arguments->in_place ? arguments->paths[0] : arguments->output != NULL ? arguments->output : "-";
    Answer built = answer_of(lanyardrove_index_build(list->bytes, list->length, entries, LANYARDROVE_INDEX_NUMBERS));
    if (is_refused(built)) {
        print_answer(stream, list, built, FOR_CHECK);
        return STATUS_REFUSED;
    }
    size_t count = LANYARDROVE_ENTRY_NUMBERS * (size_t)built.place;
    uint64_t asked = lanyardrove_index_ask(list->bytes, list->length, entries, count, place);
    const char *old = name_at(list, place);
    Answer answer = answer_of(lanyardrove_index_replace(list->bytes, list->length, entries, count, place, replacement->bytes, 8 * replacement->words));
    if (is_refused(answer)) {
        print_refusal(stream, list, replacement, answer);
        return STATUS_REFUSED;
    }
    if (!file_write(output, list->bytes, list->length))
        return STATUS_ERROR;
    print_replaced(stream, list, answer, old, lanyardrove_hazards_before(asked));
    return STATUS_ACCEPTED;
}

int run_edit(const Arguments *arguments)
{
    bool to_output = !arguments->in_place && (arguments->output == NULL || strcmp(arguments->output, "-") == 0);
    Replacement replacement;
    List list;
    const char *fault = take_replacement(arguments, &replacement);
    if (fault == NULL)
        fault = output_fault(arguments, to_output);
    if (fault != NULL) {
        complain("%s", fault);
        return usage_error(arguments->command);
    }
    if (!list_read(arguments->paths[0], &list, &to_walk, &arguments->input))
        return STATUS_ERROR;
    int status = edit_list(arguments, to_output ? stderr : stdout, &list, &replacement);
    list_free(&list);
    return status;
}
