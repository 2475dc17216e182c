/* The repair that forgets the syncs of a list and chooses afresh, and what becomes of each sync: found by comparing the two lists, whose other
   commands are the same. */
#include "cli.h"

#include <stdlib.h>
#include <string.h>

static unsigned number_of(uint64_t word)
{
    return (unsigned)(word >> 56 & 63);
}

static bool is_forgotten(unsigned number)
{
    return number == LANYARDROVE_SYNC_LOAD || number == LANYARDROVE_SYNC_TILE || number == LANYARDROVE_SYNC_PIPE;
}

/* The place after the syncs that stand at a place, and the last of them with a number; the last of all where none has it. */
typedef struct {
    size_t end, kept;
} Syncs;

static Syncs syncs_at(const List *list, size_t place, unsigned number)
{
    Command command;
    Syncs syncs = { place, place };
    bool found = false;
    for (; command_at(list, syncs.end, &command) && is_forgotten(command.number); syncs.end++) {
        if (command.number == number || !found)
            syncs.kept = syncs.end;
        found = found || command.number == number;
    }
    return syncs;
}

/* A word of 0 stands for no sync. */
static void add_change(Afresh *afresh, size_t place, uint64_t given, uint64_t written)
{
    if (given != written)
        afresh->changes[afresh->count++] = (Change){ place, number_of(given), number_of(written) };
}

/* What becomes of the syncs at a place of the given list, where the written list has this one, or none. Answers the place after them. */
static size_t add_changes(const List *list, Afresh *afresh, size_t place, uint64_t written)
{
    Syncs syncs = syncs_at(list, place, number_of(written));
    for (size_t at = place; at < syncs.end; at++)
        add_change(afresh, at, word_at(list->bytes, at), at == syncs.kept ? written : 0);
    if (place == syncs.end)
        add_change(afresh, place, 0, written);
    return syncs.end;
}

/* Both lists have the same command at these places, or end there. */
static bool is_same(const List *list, size_t place, const List *other, size_t at, size_t *words)
{
    Command one, two;
    bool here = command_at(list, place, &one), there = command_at(other, at, &two);
    *words = here ? one.words : 0;
    if (!here || !there)
        return !here && !there;
    return one.whole && two.whole && one.words == two.words && memcmp(list->bytes + 8 * place, other->bytes + 8 * at, 8 * one.words) == 0;
}

/* Between two commands the written list has one sync at most. */
static bool find_changes(const List *list, Afresh *afresh)
{
    size_t place = 0, at = 0, words;
    do {
        Command sync;
        bool has = command_at(&afresh->list, at, &sync) && is_forgotten(sync.number);
        place = add_changes(list, afresh, place, has ? word_at(afresh->list.bytes, at) : 0);
        at += has;
        if (!is_same(list, place, &afresh->list, at, &words))
            return false;
        place += words;
        at += words;
    } while (words > 0);
    return true;
}

/* A list has at most one change for each of its words and one for each written sync. */
static bool compare(const List *list, Afresh *afresh)
{
    afresh->changes = calloc((list->length + afresh->list.length) / 8 + 1, sizeof *afresh->changes);
    bool done = afresh->changes != NULL && find_changes(list, afresh);
    if (!done)
        complain("the list with syncs chosen afresh cannot be compared with the given one");
    return done;
}

/* False where memory is short or the lists cannot be compared; a refusal is in the answer, and is that of the first repair. */
bool afresh_of(const List *list, Afresh *afresh)
{
    Repaired repaired;
    *afresh = (Afresh){ 0 };
    if (!repaired_of(list, &repaired))
        return false;
    afresh->answer = repaired.answer;
    afresh->before = repaired.before;
    repaired_free(&repaired);
    if (is_refused(afresh->answer))
        return true;
    bool done = repair_by(lanyardrove_repair_afresh, list, &afresh->answer, &afresh->list) && (is_refused(afresh->answer) || compare(list, afresh));
    afresh->after = afresh->answer.third;
    if (!done)
        afresh_free(afresh);
    return done;
}

/* What becomes of a sync, in one line. */
void change_text(const List *list, const Change *change, char *text, size_t room)
{
    char offset[OFFSET_ROOM];
    offset_text(list, change->place, " (", ")", offset);
    if (change->given == 0)
        snprintf(text, room, "%s comes before word %zu%s, %s", command_name(change->written), change->place, offset, name_at(list, change->place));
    else if (change->written == 0)
        snprintf(text, room, "%s goes at word %zu%s", command_name(change->given), change->place, offset);
    else if (change->written == change->given)
        snprintf(text, room, "%s at word %zu%s loses its other bits", command_name(change->given), change->place, offset);
    else
        snprintf(text, room, "%s at word %zu%s becomes %s", command_name(change->given), change->place, offset, command_name(change->written));
}

/* All changes, in one line. */
void afresh_text(const Afresh *afresh, char *text, size_t room)
{
    size_t go = 0, come = 0;
    for (size_t i = 0; i < afresh->count; i++) {
        go += afresh->changes[i].written == 0;
        come += afresh->changes[i].given == 0;
    }
    snprintf(text, room, "syncs that go: %zu, that come: %zu, that change: %zu; %u words in all; the list waits %u cycles before, %u after", go, come,
             afresh->count - go - come, (unsigned)afresh->answer.place, (unsigned)afresh->before, (unsigned)afresh->after);
}

/* The cycles that a fresh choice would save of an accepted list; false where that is not known, since the list is too long for a repair. */
bool cycles_saved(const List *list, uint32_t *saved)
{
    Afresh afresh;
    if (is_refused(list->verdict) || list->length > REPAIR_LIMIT || !afresh_of(list, &afresh))
        return false;
    bool known = is_accepted(afresh.answer);
    *saved = afresh.before - afresh.after;
    afresh_free(&afresh);
    return known;
}

void afresh_free(Afresh *afresh)
{
    list_free(&afresh->list);
    free(afresh->changes);
    memset(afresh, 0, sizeof *afresh);
}
