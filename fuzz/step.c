// lanyardrove_step: mark by mark what 01 says of a command, from any marks and with any bits above them; along a list, the sync that the check names.
#include "lent.h"
#include "library.h"
#include "lists.h"

enum { PIPE = 1, TILE = 2, DRAW = 4, LOAD = 8 };

static bool sets_mark(unsigned mark, unsigned number) {
    return mark == LOAD ? is_load(number) : mark == TILE ? reads_tile(number) : is_draw(number);
}

// "Each sync clears the marks whose definition names it; Sync Full clears all."
static bool clears_mark(unsigned mark, unsigned number) {
    switch (number) {
    case 0x26: return mark >= DRAW;
    case 0x28: return mark >= TILE;
    default: return number == 0x27 || number == 0x29;
    }
}

// The mark with which a command needs a sync, and that sync.
static unsigned mark_met(unsigned number) {
    return is_draw(number) ? LOAD : is_load(number) ? DRAW : number == 0x35 ? TILE : is_attribute(number) ? PIPE : 0;
}
static unsigned sync_needed(unsigned mark) { return mark == PIPE ? 3 : mark == TILE ? 2 : 1; }

static uint64_t one_step(uint32_t hazards, uint32_t number, uint32_t above) {
    const uint64_t answer = lanyardrove_step(hazards, number);
    const unsigned met = mark_met(number & 63) & hazards;
    DEMAND(number_of(answer) == 0 && place_of(answer) < 16);
    DEMAND(third_of(answer) == (met ? 4 + sync_needed(met) : 0));
    for (unsigned mark = PIPE; mark <= LOAD; mark *= 2)
        DEMAND(!(place_of(answer) & mark) == !(sets_mark(mark, number & 63) || (hazards & mark && !clears_mark(mark, number & 63))));
    DEMAND(lanyardrove_step(hazards ^ above << 4, number ^ above << 6) == answer);
    note(0, (hazards & 15) * 64 + (number & 63));
    return answer;
}

// The first sync that the steps from the start miss is the one for which the check refuses, where it refuses for one.
static void against_check(const uint8_t *list, size_t length) {
    const uint64_t checked = lanyardrove_check(list, length);
    const unsigned number = number_of(checked);
    const size_t end = number == 1 || number == 2 ? 0 : place_of(checked);
    uint32_t hazards = 0;
    for (size_t at = 0; at < end; at += words_of(command_number(list + 8 * at))) {
        const uint64_t answer = lanyardrove_step(hazards, list[8 * at]);
        DEMAND(third_of(answer) == 0);
        hazards = place_of(answer);
    }
    if (number >= 7 && number <= 9) DEMAND(third_of(lanyardrove_step(hazards, list[8 * end])) == number - 6 + 4);
    count_answer(number);
}

int LLVMFuzzerTestOneInput(const uint8_t *data, size_t size) {
    const struct input *in = read_input(data, size);
    const uint32_t above = (uint32_t)in->start;
    uint32_t hazards = in->number;
    one_step(hazards, (uint32_t)(in->start >> 32), above);
    for (size_t at = 0; at < in->length / 8; at += words_of(command_number(in->list + 8 * at)))
        hazards = place_of(one_step(hazards, in->list[8 * at], above));
    against_check(in->list, in->length);
    return 0;
}
