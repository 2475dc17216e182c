/* The repair, and the syncs that it inserted: found by comparing the two lists command by command. */
#include "cli.h"

#include <stdlib.h>
#include <string.h>

/* Before each command the repair inserts one sync at most, and none before a sync. */
static bool find_insertions(const List *list, Repaired *repaired)
{
    const List *out = &repaired->list;
    Command command, found;
    size_t at = 0;
    for (size_t place = 0; command_at(list, place, &command) && command.whole; place += command.words) {
        const uint8_t *given = list->bytes + 8 * place;
        if (memcmp(given, out->bytes + 8 * at, 8) != 0) {
            if (!command_at(out, at, &found))
                return false;
            repaired->inserted[repaired->count++] = (Insertion){ place, found.number };
            at++;
        }
        if (8 * (at + command.words) > out->length || memcmp(given, out->bytes + 8 * at, 8 * command.words) != 0)
            return false;
        at += command.words;
    }
    return 8 * at == out->length;
}

/* What a repair answers of a list, and the list that it writes, to be freed. False where memory is short, which is told. */
bool repair_by(RepairFunction *repair, const List *list, Answer *answer, List *written)
{
    size_t words = list->length / 8 + 1;
    uint8_t *work = calloc(words, 16);
    *written = (List){ .bytes = calloc(2 * words + LANYARDROVE_MOST_WORDS, 8) };
    bool done = work != NULL && written->bytes != NULL;
    if (done) {
        *answer = answer_of(repair(list->bytes, list->length, work, 16 * words, written->bytes, 16 * words));
        written->length = is_accepted(*answer) ? 8 * (size_t)answer->place : 0;
    } else
        complain("not enough memory for the repair");
    free(work);
    return done;
}

/* The cycles before and after, and what was inserted. */
static bool compare(const List *list, Repaired *repaired)
{
    repaired->after = cycles_waited(&repaired->list);
    repaired->before = repaired->after - repaired->answer.third; /* every given command stands in the repaired list */
    repaired->inserted = calloc(list->length / 8 + 1, sizeof *repaired->inserted);
    bool done = repaired->inserted != NULL && find_insertions(list, repaired);
    if (!done)
        complain("the repaired list cannot be compared with the given one");
    return done;
}

/* False where memory is short or the lists cannot be compared; a refusal is in the answer. */
static bool repair_whole(const List *list, Repaired *repaired)
{
    bool done = repair_by(lanyardrove_repair, list, &repaired->answer, &repaired->list)
                && (is_refused(repaired->answer) || compare(list, repaired));
    if (!done)
        repaired_free(repaired);
    return done;
}

/* Of a list through a pipe the refusal of a command comes first, and no more may be read of it. */
bool repaired_of(const List *list, Repaired *repaired)
{
    *repaired = (Repaired){ .answer = list->verdict };
    return (list->arrived && is_beyond_repair(list->verdict)) || repair_whole(list, repaired);
}

/* The place in the given list of what stands at a place of the repaired one; of an inserted sync, that of the command after it. */
size_t given_place(const Repaired *repaired, size_t place)
{
    size_t before = 0;
    while (before < repaired->count && repaired->inserted[before].place + before < place)
        before++;
    return place - before;
}

/* What a repair inserted, or would insert, in one line. */
void inserted_text(const Repaired *repaired, bool done, char *text, size_t room)
{
    snprintf(text, room, "%zu %s %sinserted, %u cycles, %u words in all; the list waits %u cycles before, %u after", repaired->count,
             repaired->count == 1 ? "sync" : "syncs", done ? "" : "would be ", (unsigned)repaired->answer.third, (unsigned)repaired->answer.place,
             (unsigned)repaired->before, (unsigned)repaired->after);
}

void repaired_free(Repaired *repaired)
{
    list_free(&repaired->list);
    free(repaired->inserted);
    memset(repaired, 0, sizeof *repaired);
}
