// lanyardrove_draw: the answer by what 01 and 02 (#106) say of each number, the list unchanged, memory and texture memory unchanged at a refusal. Small lists
// are drawn pixel by pixel too (acts.c). Of a list that only fills every byte at 0 is either what it was or a byte of a fill colour of the list, chosen by its
// address, and the shortest memory that is enough ends and begins with a byte that is painted.
#include "acts.h"
#include "lent.h"
#include "library.h"
#include "lists.h"
#include <string.h>

enum { ROOM = 65536 };
static bool null_if_empty;
static uint8_t before[ROOM], after[ROOM], turned[ROOM];
static uint8_t texture_before[ROOM], texture_after[ROOM];
static size_t texture_length;

static uint64_t draw_at(enum place place, const uint8_t *list, size_t length, const uint8_t *memory, size_t memory_length, uint64_t start, uint8_t *result) {
    struct lent given = lend_copy(0, place, list, length, null_if_empty);
    struct lent lent = lend_copy(1, place, memory, memory_length, null_if_empty);
    struct lent texture = lend_copy(2, place, texture_before, texture_length, null_if_empty);
    uint64_t answer = lanyardrove_draw(given.bytes, given.length, lent.bytes, lent.length, start, texture.bytes, texture.length);
    DEMAND(same(given.bytes, list, length));
    if (number_of(answer)) DEMAND(same(lent.bytes, memory, memory_length) && same(texture.bytes, texture_before, texture_length));
    if (memory_length) memcpy(result, lent.bytes, memory_length);
    if (texture_length) memcpy(texture_after, texture.bytes, texture_length);
    give_back(given);
    give_back(lent);
    give_back(texture);
    return answer;
}

// Whether a list has neither loads nor texture rectangles: what is drawn then does not go by what was in memory.
static bool only_fills(const uint8_t *list, size_t words) {
    for (size_t at = 0; at < words; at += words_of(command_number(list + 8 * at)))
        if (reads_tile(command_number(list + 8 * at))) return false;
    return true;
}

// The fill colours that are set where the list has a Fill Rectangle, zero before the first is set: allowed[k] has byte k of each.
static bool allowed[4][256];
static void colours(const uint8_t *list, size_t words) {
    uint8_t colour[4] = {0};
    memset(allowed, 0, sizeof allowed);
    for (size_t at = 0; at < words; at += words_of(command_number(list + 8 * at))) {
        const uint8_t *word = list + 8 * at;
        if (command_number(word) == 0x37) memcpy(colour, word + 4, 4);
        for (int k = 0; k < 4 && command_number(word) == 0x36; k++) allowed[k][colour[k]] = true;
    }
}

// A byte is painted if it is the same after drawing on some memory and on that memory with all bits turned over; else it is what it was in both.
static bool painted(size_t i) { return after[i] == turned[i]; }
static size_t paint_of(uint64_t start, size_t memory_length) {
    size_t count = 0;
    for (size_t i = 0; i < memory_length; i++) {
        if (painted(i)) {
            DEMAND(allowed[(start + i) % 4][after[i]]);
            count++;
        } else DEMAND(after[i] == before[i] && turned[i] == (uint8_t)~before[i]);
    }
    return count;
}

static uint64_t draw_both(const uint8_t *list, size_t length, uint64_t start, size_t offset, size_t memory_length) {
    static uint8_t inverse[ROOM];
    for (size_t i = 0; i < memory_length; i++) inverse[i] = (uint8_t)~before[offset + i];
    uint64_t answer = draw_at(BEFORE_GUARD, list, length, before + offset, memory_length, start + offset, after);
    DEMAND(draw_at(AFTER_GUARD, list, length, inverse, memory_length, start + offset, turned) == answer);
    return answer;
}

static unsigned number_with(const uint8_t *list, size_t length, uint64_t start, size_t offset, size_t memory_length) {
    static uint8_t result[ROOM];
    return number_of(draw_at(BEFORE_GUARD, list, length, before + offset, memory_length, start + offset, result));
}

// The shortest memory that begins at start and is enough, and then the latest beginning
static void shortest(const uint8_t *list, size_t length, uint64_t start, size_t enough) {
    size_t low = 0, high = enough;
    while (low < high) {
        const size_t middle = low + (high - low) / 2;
        const unsigned number = number_with(list, length, start, 0, middle);
        DEMAND(number == 0 || number == 12);
        if (number) low = middle + 1;
        else high = middle;
    }
    const size_t end = high;
    low = 0, high = end;
    while (low < high) {
        const size_t middle = low + (high - low + 1) / 2;
        const unsigned number = number_with(list, length, start, middle, end - middle);
        DEMAND(number == 0 || number == 12);
        if (number) high = middle - 1;
        else low = middle;
    }
    DEMAND(number_of(draw_both(list, length, start, low, end - low)) == 0);
    if (end > low && only_fills(list, length / 8)) DEMAND(painted(0) && painted(end - low - 1));
}

// An address near the list's last colour image, or any
static uint64_t chosen_start(const struct input *in) {
    uint64_t address = 0;
    for (size_t at = 0, here, words = in->length / 8; at < words && (here = whole_at(in->list, words, at)); at += here) {
        const uint8_t *word = in->list + 8 * at;
        if (command_number(word) == 0x3F) address = (uint64_t)(word[4] & 3) << 24 | (uint64_t)word[5] << 16 | (uint64_t)word[6] << 8 | word[7];
    }
    const uint64_t near = in->start % 256;
    switch (in->choice / 4 % 8) {
    case 0: return in->start;
    case 1: return UINT64_MAX - near;
    case 2: return address + near;
    case 3: return 0;
    default: return address > near ? address - near : 0;
    }
}

// The answer and both memories, as they are pixel by pixel
static void against_acts(const uint8_t *list, size_t words, size_t memory_length, uint64_t start, uint64_t answer, const uint8_t *drawn) {
    static uint8_t memory[ROOM], texture[TEXTURE_BYTES];
    const struct machine machine = {memory, memory_length, start, texture};
    uint64_t due;
    memcpy(memory, before, memory_length);
    memcpy(texture, texture_before, TEXTURE_BYTES);
    if (!draw_slowly(list, words, &machine, &due)) return;
    DEMAND(answer == due);
    DEMAND(same(drawn, memory, memory_length) && same(texture_after, texture, TEXTURE_BYTES));
    note(3, (memcmp(texture, texture_before, TEXTURE_BYTES) != 0) * 2u + (memory_length && memcmp(memory, before, memory_length) != 0));
}

// A refusal after the check: what comes after the refused command doesn't count, and the commands before it are drawn.
static void refused_at(const uint8_t *list, size_t place, size_t memory_length, uint64_t start, uint64_t answer) {
    const unsigned number = number_of(answer), command = command_number(list + 8 * place);
    note(0, number * 64 + command);
    DEMAND((number >= 10 && number <= 12) || number == 17 || number == 18);
    DEMAND(is_draw(command) || (is_load(command) && number != 10 && number != 11));
    if (is_draw(command) && command != 0x36 && command != 0x24) DEMAND(number == 10);
    if (command == 0x36) DEMAND(number <= 12);
    DEMAND(draw_at(HEAP, list, 8 * (place + words_of(command)), before, memory_length, start, after) == answer);
    DEMAND(draw_at(HEAP, list, 8 * place, before, memory_length, start, after) == place);
}

// Every place that a call is made in gives the same.
static uint64_t draw_everywhere(const uint8_t *list, size_t length, size_t memory_length, uint64_t start, uint8_t *drawn) {
    static uint8_t beside[ROOM], texture[ROOM];
    const uint64_t answer = draw_at(HEAP, list, length, before, memory_length, start, drawn);
    memcpy(texture, texture_after, texture_length);
    DEMAND(draw_at(SIDE_BY_SIDE, list, length, before, memory_length, start, beside) == answer && same(drawn, beside, memory_length));
    DEMAND(same(texture, texture_after, texture_length));
    DEMAND(draw_both(list, length, start, 0, memory_length) == answer && same(drawn, after, memory_length));
    DEMAND(draw_at(BEFORE_GUARD, list, length, before, memory_length, start, beside) == answer && same(texture, texture_after, texture_length));
    return answer;
}

// What only fills is drawn again with no change.
static void filled(const uint8_t *list, size_t length, size_t memory_length, uint64_t start, const uint8_t *drawn) {
    colours(list, length / 8);
    const size_t count = paint_of(start, memory_length);
    note(2, count ? (unsigned)(64 - __builtin_clzll(count)) : 0);
    DEMAND(same(texture_after, texture_before, texture_length));
    DEMAND(draw_at(HEAP, list, length, drawn, memory_length, start, after) == length / 8 && same(after, drawn, memory_length));
}

static void fill_any(uint8_t *bytes, size_t length, uint32_t seed) {
    for (size_t i = 0; i < length; i++) bytes[i] = (uint8_t)((seed = seed * 1664525u + 1013904223u) >> 24);
}

int LLVMFuzzerTestOneInput(const uint8_t *data, size_t size) {
    const struct input *in = read_input(data, size);
    static uint8_t drawn[ROOM];
    null_if_empty = in->choice & 1;
    const uint8_t *list = in->list;
    const size_t length = in->length, words = length / 8;
    const uint64_t check = lanyardrove_check(list, length), start = chosen_start(in);
    const size_t memory_length = chosen_length(in, 0, in->choice & 128 ? 40000 : 8192, ROOM);
    texture_length = in->spare[0] % 8 == 7 ? chosen_length(in, 1, TEXTURE_BYTES, ROOM) : TEXTURE_BYTES;
    fill_any(before, memory_length, in->number);
    fill_any(texture_before, texture_length, ~in->number);

    const uint64_t answer = draw_everywhere(list, length, memory_length, start, drawn);
    const unsigned number = number_of(answer);
    const size_t place = place_of(answer);
    count_answer(number);
    DEMAND(third_of(answer) == 0);
    note(1, number * 16 + (unsigned)(64 - __builtin_clzll(place + 1)));
    if (number != 1 && number != 2) DEMAND(keeps_to_19(list, words, number, place));
    if (number_of(check)) DEMAND(number == number_of(check) && place == place_of(check));
    else if (texture_length != TEXTURE_BYTES) DEMAND(number == 16 && place == 0);
    else {
        against_acts(list, words, memory_length, start, answer, drawn);
        if (number) refused_at(list, place, memory_length, start, answer);
        else DEMAND(place == words);
        if (number == 0 && only_fills(list, words)) filled(list, length, memory_length, start, drawn);
        if (number == 0 && in->choice & 2 && start <= UINT64_MAX - memory_length) shortest(list, length, start, memory_length);
    }
    return 0;
}
