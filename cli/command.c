/* A list command by command, by the library's lengths and decoding. */
#include "cli.h"

/* The command at a place; false where no whole word is left. The bytes of a list are followed by zeros, so that a cut command is
   decoded too. */
bool command_at(const List *list, size_t place, Command *command)
{
    size_t end = list->length / 8;
    if (place >= end)
        return false;
    command->place = place;
    command->words = (size_t)lanyardrove_words(word_at(list->bytes, place));
    command->whole = command->words <= end - place;
    Answer answer = answer_of(lanyardrove_decode(list->bytes + 8 * place, 8 * command->words, command->fields, LANYARDROVE_MOST_FIELDS));
    command->number = answer.third;
    command->count = answer.place;
    return true;
}

uint64_t word_at(const uint8_t *bytes, size_t place)
{
    uint64_t word = 0;
    for (size_t i = 0; i < 8; i++)
        word = word << 8 | bytes[8 * place + i];
    return word;
}
