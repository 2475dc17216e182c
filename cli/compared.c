/* Two lists compared by the library: the pairs of commands that differ, what of them does, and the rest of the longer list. */
#include "compared.h"

#include <inttypes.h>
#include <stdlib.h>
#include <string.h>

#define ENTRY 4 /* numbers: two places, and 64 bits, the high half first */
#define BASE 4  /* words of a triangle before its suffix */

static size_t commands_from(const List *list, size_t place)
{
    Command command;
    size_t count = 0;
    for (; command_at(list, place, &command); place += command.words)
        count++;
    return count;
}

/* The list that a refusal is of: comparing the first with itself refuses it, too. */
static int refused_list(const List *first)
{
    return is_accepted(answer_of(lanyardrove_compare(first->bytes, first->length, first->bytes, first->length, NULL, 0)));
}

static void read_rest(const List lists[2], size_t numbers, Compared *compared)
{
    Answer rest = answer_of(lanyardrove_rest(lists[0].bytes, lists[0].length, lists[1].bytes, lists[1].length, numbers));
    compared->rest.list = (int)(rest.third & 1);
    compared->rest.place = rest.place / 8;
    compared->rest.commands = commands_from(&lists[compared->rest.list], compared->rest.place);
    compared->pairs = commands_from(&lists[compared->rest.list], 0) - compared->rest.commands;
}

/* Compares two lists; false where memory is short, which is told. A refusal is in the answer. */
bool compared_of(const List lists[2], Compared *compared)
{
    size_t numbers = ENTRY * (LIST_LIMIT / 8); /* a list has no more commands than words */
    uint32_t *entries = calloc(numbers, sizeof *entries);
    *compared = (Compared){ .differences = calloc(LIST_LIMIT / 8, sizeof *compared->differences) };
    bool done = entries != NULL && compared->differences != NULL;
    if (done) {
        compared->answer =
            answer_of(lanyardrove_compare(lists[0].bytes, lists[0].length, lists[1].bytes, lists[1].length, entries, numbers));
        compared->refused = is_refused(compared->answer) ? refused_list(&lists[0]) : 0;
        compared->count = is_accepted(compared->answer) ? compared->answer.place / ENTRY : 0;
        for (size_t i = 0; i < compared->count; i++) {
            const uint32_t *entry = entries + ENTRY * i;
            compared->differences[i] = (Difference){ { entry[0], entry[1] }, (uint64_t)entry[2] << 32 | entry[3] };
        }
        read_rest(lists, numbers, compared);
    } else
        complain("not enough memory to compare lists");
    free(entries);
    return done;
}

bool is_same(const Compared *compared)
{
    return compared->count == 0 && compared->rest.commands == 0;
}

/* The two commands of a difference. */
Pair pair_of(const List lists[2], const Difference *difference)
{
    Pair pair = { .lists = lists, .fields = difference->fields };
    for (int i = 0; i < 2; i++)
        command_at(&lists[i], difference->places[i], &pair.commands[i]);
    return pair;
}

static bool is_marked(const Pair *pair, size_t field)
{
    return pair->fields >> lanyardrove_field_bit(pair->commands[0].number, (uint32_t)field) & 1;
}

/* Whether what is shown from one step to the next differs: its fields do, or an input of the combiner, which is read off the mode. */
static bool is_differing(const Pair *pair, size_t from, size_t to, const Shown shown[2])
{
    if (from >= pair->commands[0].count)
        return strcmp(shown[0].value, shown[1].value) != 0;
    for (; from < to; from++)
        if (is_marked(pair, from))
            return true;
    return false;
}

/* A word of a triangle's suffix, which is one field; false after the last, and where the suffixes are the same. */
static bool show_suffix(const Pair *pair, size_t word, Shown shown[2])
{
    const Command *command = &pair->commands[0];
    if ((pair->fields >> LANYARDROVE_SUFFIX_BIT & 1) == 0 || command->count != LANYARDROVE_TRIANGLE_FIELDS || BASE + word >= command->words)
        return false;
    for (int i = 0; i < 2; i++) {
        snprintf(shown[i].name, sizeof shown[i].name, "%s, word %zu", suffix_name(command, word), BASE + word);
        snprintf(shown[i].value, sizeof shown[i].value, "%016" PRIX64, word_at(pair->lists[i].bytes, pair->commands[i].place + BASE + word));
    }
    return true;
}

/* What differs of two commands of one number, one after the other from `at` 0 on; false after the last. */
bool next_differing(const Pair *pair, size_t *at, Shown shown[2])
{
    const Command *commands = pair->commands;
    while (commands[0].number == commands[1].number) {
        size_t from = *at, other = *at;
        if (next_shown(&commands[0], at, &shown[0]) && next_shown(&commands[1], &other, &shown[1])) {
            if (is_differing(pair, from, *at, shown))
                return true;
        } else if (!show_suffix(pair, from - commands[0].count, shown))
            return false;
        else {
            *at = from + 1;
            if (strcmp(shown[0].value, shown[1].value) != 0)
                return true;
        }
    }
    return false;
}

/* The names of both commands, told apart where they are the same and the numbers are not. */
void pair_names(const Pair *pair, char names[2][NAME_ROOM])
{
    const char *known[2] = { command_name(pair->commands[0].number), command_name(pair->commands[1].number) };
    bool apart = pair->commands[0].number != pair->commands[1].number && strcmp(known[0], known[1]) == 0;
    for (int i = 0; i < 2; i++)
        if (apart)
            snprintf(names[i], NAME_ROOM, "%s 0x%02X", known[i], pair->commands[i].number);
        else
            snprintf(names[i], NAME_ROOM, "%s", known[i]);
}

/* How many commands differ, and which list goes on, in one line. */
void compared_text(const Compared *compared, const char *const paths[2], Text *text)
{
    const Rest *rest = &compared->rest;
    text_add(text, "commands that differ: %zu of %zu", compared->count, compared->pairs);
    if (rest->commands > 0)
        text_add(text, "; %zu more in %s, from word %zu on", rest->commands, paths[rest->list], rest->place);
}

void compared_free(Compared *compared)
{
    free(compared->differences);
    compared->differences = NULL;
}
