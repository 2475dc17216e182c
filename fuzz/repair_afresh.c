// lanyardrove_repair_afresh (02, #109): the written list has the given list's commands but for Load, Tile and Pipe syncs, byte for byte, and syncs of its own
// that have the cycles; it passes the check, is chosen again of itself, waits no longer than the first repair's list, is the first repair of what remains, and
// none of its syncs can be left out or be a shorter one. All else is demanded of both repairs (repairs.c).
#include "library.h"
#include "repairs.h"
#include <string.h>

// The commands of a list but for those syncs; answers their bytes, and the cycles of the syncs.
static size_t without_syncs(const uint8_t *list, size_t length, uint8_t *kept, unsigned *cycles) {
    size_t bytes = 0;
    *cycles = 0;
    for (size_t at = 0, here; at < length; at += here) {
        const unsigned wait = cycles_of(command_number(list + at));
        here = 8 * words_of(command_number(list + at));
        *cycles += wait;
        if (wait) continue;
        memcpy(kept + bytes, list + at, here);
        bytes += here;
    }
    return bytes;
}

// Its syncs have no other bits, and each is needed.
static void syncs_are_needed(const uint8_t *new, size_t words) {
    size_t syncs = 0;
    for (size_t at = 0, here; at < words; at += here) {
        here = whole_at(new, words, at);
        DEMAND(here);
        const unsigned wait = cycles_of(command_number(new + 8 * at));
        if (!wait) continue;
        DEMAND(written_cycles(new + 8 * at) == wait);
        if (syncs++ < 12) demand_needed(new, words, at, wait);
        note(4, wait * 8 + (syncs < 7 ? (unsigned)syncs : 7));
    }
}

static void chosen(const uint8_t *list, size_t length, const uint8_t *new, size_t words, unsigned cycles) {
    static uint8_t remains[ROOM], kept[ROOM], other[ROOM];
    unsigned given, total;
    syncs_are_needed(new, words);
    const size_t bytes = without_syncs(list, length, remains, &given);
    DEMAND(without_syncs(new, 8 * words, kept, &total) == bytes && same(kept, remains, bytes) && total == cycles);
    DEMAND(passes(new, words));
    if (passes(list, length / 8)) DEMAND(cycles <= given);
    note(5, (cycles < given) * 2 + (cycles > given));

    const uint64_t first = repair_once(lanyardrove_repair, list, length, other);
    DEMAND(number_of(first) == 0 && cycles <= given + third_of(first));
    uint64_t answer = repair_once(lanyardrove_repair, remains, bytes, other);
    DEMAND(answer == ((uint64_t)cycles << 32 | words) && same(other, new, 8 * words));
    if (words > 2048) return;
    answer = repair_once(lanyardrove_repair_afresh, new, 8 * words, other);
    DEMAND(answer == ((uint64_t)cycles << 32 | words) && same(other, new, 8 * words));
}

int LLVMFuzzerTestOneInput(const uint8_t *data, size_t size) {
    try_repair(read_input(data, size), lanyardrove_repair_afresh, chosen);
    return 0;
}
