#include "repairs.h"
#include "library.h"
#include <string.h>

static repair_function *repair;
static bool null_if_empty;
static uint8_t work_before[ROOM], work_after[ROOM], out_before[ROOM], out_after[ROOM];

static void fill(uint8_t *bytes, size_t length, uint32_t seed) {
    for (size_t i = 0; i < length; i++) bytes[i] = (uint8_t)((seed += 0x9E3779B9u) >> 24 | 1);  // never zero
}

// One call; the buffers before and after it stand in the four arrays.
static uint64_t repair_at(enum place place, const uint8_t *list, size_t length, size_t work_length, size_t out_length) {
    struct lent given = lend_copy(0, place, list, length, null_if_empty);
    struct lent out = lend_copy(1, place, out_before, out_length, null_if_empty);
    struct lent work = lend_copy(2, place, work_before, work_length, null_if_empty);
    uint64_t answer = repair(given.bytes, given.length, work.bytes, work.length, out.bytes, out.length);
    DEMAND(same(given.bytes, list, length));
    if (work_length) memcpy(work_after, work.bytes, work_length);
    if (out_length) memcpy(out_after, out.bytes, out_length);
    give_back(given);
    give_back(work);
    give_back(out);
    return answer;
}

uint64_t repair_once(repair_function *by, const uint8_t *list, size_t length, uint8_t *out) {
    static uint8_t work[ROOM];
    return by(list, length, work, ROOM, out, ROOM);
}

static bool all_zero(const uint8_t *bytes, size_t length) {
    for (size_t i = 0; i < length; i++)
        if (bytes[i]) return false;
    return true;
}

// What the answer says of the buffers.
static void buffers(const uint8_t *list, size_t length, uint64_t answer, size_t work_length, size_t out_length) {
    const unsigned number = number_of(answer);
    const bool cleared = number == 0 || number == 14;
    const size_t clear = cleared ? 16 * commands_of(list, length / 8) : 0, written = number == 0 ? 8 * (size_t)place_of(answer) : 0;
    DEMAND(clear <= work_length && written <= out_length);
    DEMAND(all_zero(work_after, clear));
    DEMAND(same(work_after + clear, work_before + clear, work_length - clear));
    DEMAND(same(out_after + written, out_before + written, out_length - written));
}

unsigned written_cycles(const uint8_t *word) {
    for (int i = 1; i < 8; i++)
        if (word[i]) return 0;
    return word[0] < 64 ? cycles_of(word[0]) : 0;
}

bool passes(const uint8_t *list, size_t words) {
    const uint64_t check = lanyardrove_check(list, 8 * words);
    return number_of(check) == 0 && place_of(check) == words;
}

// The new list with the sync at a place left out, or with another one there.
static uint8_t other[ROOM];
static bool passes_without(const uint8_t *new, size_t words, size_t at) {
    memcpy(other, new, 8 * at);
    memcpy(other + 8 * at, new + 8 * at + 8, 8 * (words - at - 1));
    return passes(other, words - 1);
}
static bool passes_with(const uint8_t *new, size_t words, size_t at, uint8_t number) {
    memcpy(other, new, 8 * words);
    other[8 * at] = number;
    return passes(other, words);
}

void demand_needed(const uint8_t *new, size_t words, size_t at, unsigned wait) {
    DEMAND(!passes_without(new, words, at));
    if (wait > 25) DEMAND(!passes_with(new, words, at, 0x26));
    if (wait > 33) DEMAND(!passes_with(new, words, at, 0x28));
}

// Buffers at the very limit of 13 and 14
static void limits(const uint8_t *list, size_t length, size_t commands, size_t words, unsigned cycles) {
    uint64_t answer = repair_at(BEFORE_GUARD, list, length, 16 * commands, 8 * words);
    DEMAND(number_of(answer) == 0 && place_of(answer) == words && third_of(answer) == cycles);
    buffers(list, length, answer, 16 * commands, 8 * words);
    if (words > 0) {
        answer = repair_at(BEFORE_GUARD, list, length, 16 * commands, 8 * words - 1);
        DEMAND(answer == ((uint64_t)14 << 56 | words));
        buffers(list, length, answer, 16 * commands, 8 * words - 1);
    }
    if (commands == 0) return;
    answer = repair_at(BEFORE_GUARD, list, length, 16 * commands - 1, 8 * words);
    DEMAND(answer == ((uint64_t)13 << 56 | commands));
    buffers(list, length, answer, 16 * commands - 1, 8 * words);
}

static bool is_of_command(unsigned number) { return (number >= 3 && number <= 6) || number == 19; }
static bool is_of_room(unsigned number) { return number == 13 || number == 14; }

// The check's own answer for the same list, where both limits hold
static void beside_check(uint64_t check, unsigned number, size_t place) {
    const unsigned of_check = number_of(check);
    if (of_check == 0) DEMAND(number == 0 || is_of_room(number));
    else if (of_check <= 6 || of_check == 19) DEMAND(number == of_check && place == place_of(check));
    else DEMAND(number == 0 || is_of_room(number) || (is_of_command(number) && place > place_of(check)));
}

void try_repair(const struct input *in, repair_function *by, written_function *written) {
    repair = by;
    null_if_empty = in->choice & 1;
    const uint8_t *list = in->list;
    const size_t length = in->length, words = length / 8;
    const uint64_t check = lanyardrove_check(list, length);
    size_t commands = 0;  // of a list that is not too long
    for (size_t at = 0, here; length <= 16384 && at < words && (here = whole_at(list, words, at)); at += here) commands++;
    const size_t work_length = chosen_length(in, 0, 16 * commands, 40960), out_length = chosen_length(in, 1, length, 40960);

    // room for the call, and for any repair of this list
    const size_t roomy_length = length + 8 * commands;
    const size_t work_room = work_length > 16 * commands ? work_length : 16 * commands, out_room = out_length > roomy_length ? out_length : roomy_length;
    fill(work_before, work_room, in->choice);
    fill(out_before, out_room, in->number);
    const uint64_t answer = repair_at(HEAP, list, length, work_length, out_length);
    const unsigned number = number_of(answer), cycles = third_of(answer);
    const size_t place = place_of(answer);
    static uint8_t first[ROOM];
    memcpy(first, out_after, out_length);
    count_answer(number);
    note(0, number * 32 + number_of(check));
    note(1, number * 16 + (unsigned)(64 - __builtin_clzll(place + 1)));

    DEMAND(number <= 2 || is_of_command(number) || is_of_room(number));
    DEMAND(number == 0 || cycles == 0);
    DEMAND((number == 1) == (length > 16384));
    DEMAND((number == 2) == (length <= 16384 && length % 8 != 0));
    if (number == 1) DEMAND(place == 2048);
    if (number == 2) DEMAND(place == words);
    if (is_of_command(number)) DEMAND(place < words);
    if (number != 1 && number != 2) DEMAND(keeps_to_19(list, words, number, place));
    if (number == 13) DEMAND(place == commands);
    if (number == 0 || is_of_room(number)) DEMAND((number == 13) == (work_length < 16 * commands));
    if (number == 14) DEMAND(8 * place > out_length);
    if (number == 0) DEMAND(8 * place <= out_length);
    if (length <= 16384) beside_check(check, number, place);
    buffers(list, length, answer, work_length, out_length);

    fill(work_before, work_room, ~in->number);
    fill(out_before, out_room, in->choice + 77u);
    for (int p = BEFORE_GUARD; p < PLACES; p++) {
        DEMAND(repair_at(p, list, length, work_length, out_length) == answer);
        buffers(list, length, answer, work_length, out_length);
        if (number == 0) DEMAND(same(out_after, first, 8 * place));
    }
    if (number == 0 || number == 14) {
        const uint64_t roomy = repair_at(HEAP, list, length, 16 * commands, roomy_length);
        DEMAND(number_of(roomy) == 0 && place_of(roomy) == place && (number || roomy == answer));
        if (number == 0) DEMAND(same(out_after, first, 8 * place));
        buffers(list, length, roomy, 16 * commands, roomy_length);
        memcpy(first, out_after, 8 * place);
        written(list, length, first, place, third_of(roomy));
        limits(list, length, commands, place, third_of(roomy));
    }
}
