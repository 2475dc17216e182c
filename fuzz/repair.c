// lanyardrove_repair: the repaired list is made by adding, has the cycles that are said, passes the check, repairs to itself, and none of its added syncs can
// be left out or be a shorter one. All else is demanded of both repairs (repairs.c).
#include "library.h"
#include "repairs.h"

// new is list with syncs added between its commands, and these have the cycles
static void made_by_adding(const uint8_t *list, size_t length, const uint8_t *new, size_t words, unsigned cycles) {
    size_t from = 0, added = 0;
    unsigned sum = 0;
    for (size_t at = 0; at < words;) {
        const size_t here = whole_at(new, words, at);
        DEMAND(here);
        if (from + 8 * here <= length && same(new + 8 * at, list + from, 8 * here)) {
            from += 8 * here;
            at += here;
            continue;
        }
        const unsigned wait = written_cycles(new + 8 * at);
        DEMAND(wait);
        sum += wait;
        if (added++ < 12) demand_needed(new, words, at, wait);
        note(4, wait * 8 + (added < 7 ? (unsigned)added : 7));
        at++;
    }
    DEMAND(from == length && sum == cycles);
    DEMAND(added == 0 || added < commands_of(list, length / 8)); // none before the first
}

static void repaired(const uint8_t *list, size_t length, const uint8_t *new, size_t words, unsigned cycles) {
    static uint8_t once_more[ROOM];
    made_by_adding(list, length, new, words, cycles);
    DEMAND(passes(new, words));
    DEMAND(passes(list, length / 8) == (cycles == 0));
    if (cycles == 0) DEMAND(8 * words == length && same(new, list, length));
    if (words > 2048) return;
    const uint64_t again = repair_once(lanyardrove_repair, new, 8 * words, once_more);
    DEMAND(number_of(again) == 0 && third_of(again) == 0 && place_of(again) == words && same(once_more, new, 8 * words));
}

int LLVMFuzzerTestOneInput(const uint8_t *data, size_t size) {
    try_repair(read_input(data, size), lanyardrove_repair, repaired);
    return 0;
}
