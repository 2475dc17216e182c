/* A hint where a refused list looks like one of little-endian words. */
#include "cli.h"

#include <stdlib.h>
#include <string.h>

#define LEAST 4 /* commands that do something; fewer may look well by chance */

/* A list looks well where the check finds nothing but missing syncs, and every word that is not zero begins a command that does something or
   belongs to one: other bytes make many no operations and unassigned numbers. */
static bool looks_well(const List *list)
{
    Command command;
    size_t count = 0;
    Answer answer = answer_of(lanyardrove_check(list->bytes, list->length));
    if (is_refused(answer) && !is_missing_sync(answer))
        return false;
    for (size_t place = 0; command_at(list, place, &command); place += command.words) {
        if (!does_something(command.number) && word_at(list->bytes, place) != 0)
            return false;
        count += does_something(command.number);
    }
    return count >= LEAST;
}

/* Whether a list that no sync mends would look well with the bytes of its words swapped. */
bool looks_swapped(const List *list, const Input *input)
{
    size_t words = (list->length < LIST_LIMIT ? list->length : LIST_LIMIT) / 8;
    if (input->swap || input->display.is_given || !is_beyond_repair(list->verdict))
        return false;
    List swapped = { .bytes = calloc(words + LANYARDROVE_MOST_WORDS, 8), .length = 8 * words };
    if (swapped.bytes == NULL)
        return false;
    memcpy(swapped.bytes, list->bytes, swapped.length);
    swap_words(swapped.bytes, words);
    bool looks = looks_well(&swapped);
    list_free(&swapped);
    return looks;
}

void hint_swapped(const char *path, const List *list, const Input *input)
{
    if (looks_swapped(list, input))
        complain("%s: its words look little-endian: try --swap", path);
}
