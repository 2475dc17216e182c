/* The refusal of a list, and every sync that it misses: by the library's step, from command to command as if each ran. */
#include "check.h"

#include <stdlib.h>

/* The sync that a command misses after hazards, 0 where it misses none. */
static unsigned missed_after(unsigned hazards, unsigned number)
{
    return lanyardrove_required(lanyardrove_step(hazards, number));
}

/* The place of the command that the sync has to wait for: the latest that alone makes the command miss one. */
static size_t cause_before(const List *list, const Command *refused)
{
    Command command;
    size_t cause = 0;
    for (size_t place = 0; place < refused->place && command_at(list, place, &command); place += command.words)
        if (missed_after(hazards_after(0, &command), refused->number) != 0)
            cause = place;
    return cause;
}

/* As the check answers of a missing sync. */
static Answer missing_sync(const List *list, const Command *command, unsigned missed)
{
    return (Answer){ LANYARDROVE_SYNC_LOAD_MISSING + missed - 1, (uint32_t)cause_before(list, command), (uint32_t)command->place };
}

static void add_missing_syncs(const List *list, Findings *findings)
{
    Command command;
    unsigned hazards = 0;
    for (size_t place = 0; place < LIST_LIMIT / 8 && command_at(list, place, &command) && command.whole; place += command.words) {
        unsigned missed = missed_after(hazards, command.number);
        bool told = is_missing_sync(list->verdict) && list->verdict.place == place;
        if (missed != 0 && !told)
            findings->answers[findings->count++] = missing_sync(list, &command, missed);
        hazards = hazards_after(hazards, &command);
    }
}

/* False where memory is short, which is told. */
bool findings_of(const List *list, bool all, Findings *findings)
{
    *findings = (Findings){ calloc(list->length / 8 + 1, sizeof *findings->answers), 0 };
    if (findings->answers == NULL) {
        complain("not enough memory");
        return false;
    }
    if (is_refused(list->verdict))
        findings->answers[findings->count++] = list->verdict;
    if (all)
        add_missing_syncs(list, findings);
    return true;
}
