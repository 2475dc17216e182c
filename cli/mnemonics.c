/* Commands by the names of the text form, encoded by the library: fill_triangle_stz, set_other_modes, unassigned_01. */
#include "asm.h"

#include <ctype.h>
#include <string.h>

/* The name of the command in small letters, with _ between its words; the number of an unassigned one follows in hexadecimal. */
void mnemonic_of(unsigned number, char text[MNEMONIC_ROOM])
{
    bool named = number == LANYARDROVE_NO_OPERATION || does_something(number);
    char *end = text;
    for (const char *at = command_name(number); *at != '\0'; at++)
        if (strchr("()", *at) == NULL)
            *end++ = *at == ' ' ? '_' : (char)tolower((unsigned char)*at);
    *end = '\0';
    if (!named)
        snprintf(end, MNEMONIC_ROOM - (size_t)(end - text), "_%02x", number);
}

/* The number of the command that is named so; false where none is. */
bool number_of(const char *text, size_t length, unsigned *number)
{
    char name[MNEMONIC_ROOM];
    for (*number = 0; *number < 64; ++*number) {
        mnemonic_of(*number, name);
        if (strlen(name) == length && memcmp(name, text, length) == 0)
            return true;
    }
    return false;
}

/* The letters to leave out, put in or exchange that make one name of the other; capital letters count as small ones. */
static size_t distance(const char *given, size_t length, const char *name)
{
    size_t row[MNEMONIC_ROOM];
    size_t count = strlen(name);
    for (size_t j = 0; j <= count; j++)
        row[j] = j;
    for (size_t i = 1; i <= length; i++) {
        size_t corner = row[0]++;
        for (size_t j = 1; j <= count; j++) {
            size_t best = corner + (tolower((unsigned char)given[i - 1]) != name[j - 1]);
            best = best <= row[j] ? best : row[j] + 1;
            best = best <= row[j - 1] ? best : row[j - 1] + 1;
            corner = row[j];
            row[j] = best;
        }
    }
    return row[count];
}

/* The command whose name was perhaps meant, two letters off at most; false where none is. */
bool nearest_of(const char *text, size_t length, unsigned *number)
{
    char name[MNEMONIC_ROOM];
    size_t least = 3;
    for (unsigned i = 0; i < 64 && length > 4 && length < 2 * MNEMONIC_ROOM; i++) {
        mnemonic_of(i, name);
        size_t off = distance(text, length, name);
        *number = off < least ? i : *number;
        least = off < least ? off : least;
    }
    return least < 3;
}

/* The command with this number, all else of it zero: its fields and words are those of the library. */
void plain_command(unsigned number, Command *command)
{
    uint8_t bytes[2 * 8 * LANYARDROVE_MOST_WORDS] = { (uint8_t)number };
    const List list = { .bytes = bytes, .length = 8 * LANYARDROVE_MOST_WORDS };
    command_at(&list, 0, command);
}

/* The words after those that have fields: a triangle's coefficients. */
size_t suffix_count(const Command *command)
{
    return command->words > BASE_WORDS ? command->words - BASE_WORDS : 0;
}

/* Encodes a command with so many words after its fields; false where the library refuses that. */
bool is_encoded(const Command *command, const uint8_t *suffix, size_t words, uint8_t *out)
{
    Answer answer = answer_of(lanyardrove_encode(command->number, command->fields, command->count, suffix, 8 * words, out, 8 * LANYARDROVE_MOST_WORDS));
    return is_accepted(answer);
}
