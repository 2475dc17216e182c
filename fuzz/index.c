// lanyardrove_index_build, _ask and _replace: the answers, the list and every number of the entries, as walks of its own give them (02, #111); with the entries
// of the list, with some of them changed, and with any numbers.
#include "fields.h"
#include "lent.h"
#include "library.h"
#include "lists.h"
#include <string.h>

enum { MOST = 4096, EVERY = 64, NUMBERS = 1024 };
static bool null_if_empty;
static uint8_t list[LONGEST_LIST], list_after[LONGEST_LIST];
static uint32_t given[NUMBERS], after[NUMBERS], built[2 * MOST / EVERY + 2];
static size_t length;

static uint64_t refusal(uint64_t number, uint64_t place) { return number << 56 | place; }

// ---- the walks

// The marks after a command (P 1, T 2, D 4, G 8), as 01 says of each
static unsigned marks_after(unsigned marks, unsigned number) {
    static const uint8_t clears[4] = {0x0C, 0x0F, 0x0E, 0x0F};  // by Load, Pipe, Tile and Full
    if (number >= 0x26 && number <= 0x29) return marks & ~clears[number - 0x26] & 15u;
    return marks | (is_draw(number) ? 5u : 0) | (reads_tile(number) ? 2u : 0) | (is_load(number) ? 8u : 0);
}

// 1, 2 and 3, or the number of entries of the list, which it notes
static uint64_t due_index(void) {
    const size_t words = length / 8;
    size_t at = 0, commands = 0;
    unsigned marks = 0;
    if (length > 8 * MOST) return refusal(1, MOST);
    if (length % 8) return refusal(2, words);
    for (size_t here; at < words; at += here, commands++) {
        if (!(here = whole_at(list, words, at))) return refusal(3, at);
        if (commands % EVERY == 0) built[commands / EVERY * 2] = (uint32_t)at, built[commands / EVERY * 2 + 1] = marks;
        marks = marks_after(marks, command_number(list + 8 * at));
    }
    return (commands + EVERY - 1) / EVERY;
}

static uint64_t due_build(size_t count) {
    const uint64_t index = due_index();
    return number_of(index) == 0 && place_of(index) > count / 2 ? index | (uint64_t)14 << 56 : index;
}

static uint64_t due_ask(size_t count, uint32_t place) {
    const size_t words = length / 8;
    if (length > 8 * MOST) return refusal(1, MOST);
    if (length % 8) return refusal(2, words);
    size_t entry = count / 2;
    while (entry > 0 && given[2 * entry - 2] > place) entry--;
    if (entry == 0 || given[2 * entry - 1] > 15) return refusal(26, place);
    size_t at = given[2 * entry - 2];
    unsigned marks = given[2 * entry - 1];
    for (unsigned read = 1; read <= EVERY && at <= place && at < words; read++) {
        const size_t here = whole_at(list, words, at);
        if (!here) return refusal(3, place);
        if (at == place) return (uint64_t)(marks + 16 * read) << 32 | place;
        marks = marks_after(marks, command_number(list + 8 * at));
        at += here;
    }
    return refusal(24, place);
}

static uint64_t due_replace(size_t count, uint32_t place, const uint8_t *command, size_t command_length) {
    const uint64_t build = due_build(count), ask = due_ask(count, place);
    if (number_of(build)) return build;
    if (number_of(ask)) return ask;
    size_t at = 0;
    while (at < place) at += whole_at(list, length / 8, at);
    if (at > place) return refusal(24, place);
    const size_t words = command_length < 8 ? 0 : whole_at(command, command_length / 8, 0);
    if (words == 0) return refusal(3, place);
    return words == whole_at(list, length / 8, at) ? place : refusal(25, place);
}

// ---- the calls

static uint64_t build_at(enum place where, size_t count) {
    struct lent lent = lend_copy(0, where, list, length, null_if_empty);
    struct lent entries = lend_copy(1, where, (const uint8_t *)given, 4 * count, null_if_empty);
    const uint64_t answer = lanyardrove_index_build(lent.bytes, length, (uint32_t *)(void *)entries.bytes, count);
    DEMAND(same(lent.bytes, list, length));
    if (count) memcpy(after, entries.bytes, 4 * count);
    give_back(lent);
    give_back(entries);
    return answer;
}

static uint64_t ask_at(enum place where, size_t count, uint32_t place) {
    struct lent lent = lend_copy(0, where, list, length, null_if_empty);
    struct lent entries = lend_copy(1, where, (const uint8_t *)given, 4 * count, null_if_empty);
    const uint64_t answer = lanyardrove_index_ask(lent.bytes, length, (const uint32_t *)(const void *)entries.bytes, count, place);
    DEMAND(same(lent.bytes, list, length) && same(entries.bytes, given, 4 * count));
    give_back(lent);
    give_back(entries);
    return answer;
}

static uint64_t replace_at(enum place where, size_t count, uint32_t place, const uint8_t *command, size_t command_length) {
    struct lent lent = lend_copy(0, where, list, length, null_if_empty);
    struct lent entries = lend_copy(1, where, (const uint8_t *)given, 4 * count, null_if_empty);
    struct lent new = lend_copy(2, where, command, command_length, null_if_empty);
    const uint64_t answer = lanyardrove_index_replace(lent.bytes, length, (uint32_t *)(void *)entries.bytes, count, place, new.bytes, new.length);
    DEMAND(same(new.bytes, command, command_length));
    if (length) memcpy(list_after, lent.bytes, length);
    if (count) memcpy(after, entries.bytes, 4 * count);
    give_back(lent);
    give_back(entries);
    give_back(new);
    return answer;
}

// ---- what is asked

// The entries that are lent: those of the list, with one number changed, or any
static void choose_entries(const struct input *in, size_t numbers) {
    uint64_t seed = in->start | 1;
    for (size_t i = 0; i < NUMBERS; i++) {
        seed = seed * 6364136223846793005u + 1442695040888963407u;
        given[i] = i % 2 ? (uint32_t)(seed >> 60) + (seed >> 40 & 63 ? 0 : 16) : (uint32_t)(seed >> 33) % (uint32_t)(length / 8 + 3);
    }
    if (in->spare[0] % 4 == 3) return;
    memcpy(given, built, 4 * numbers);
    if (in->spare[0] % 4 == 2 && numbers) given[in->number % numbers] = (uint32_t)(in->start >> 20) % (in->number & 1 ? 17 : MOST);
}

static void replacement(const struct input *in, size_t count, uint32_t place) {
    uint8_t command[8 * 22 + 7];
    const size_t words = place < length / 8 ? words_of(command_number(list + 8 * (size_t)place)) : 1;
    const size_t command_length = in->choice & 8 ? 8 * words : in->lengths[1] % sizeof command;
    for (size_t i = 0; i < sizeof command; i++) command[i] = (uint8_t)(in->start >> (i % 8 * 8)) ^ (uint8_t)i;
    if (in->choice & 16 && words > 2) command[0] = (uint8_t)(8 | (command_number(list + 8 * (size_t)place) & 7));
    if (in->choice & 16 && words == 2) command[0] = 0x24;
    const uint64_t due = due_replace(count, place, command, command_length);
    static uint8_t old[LONGEST_LIST];
    memcpy(old, list, length);
    for (int p = HEAP; p < PLACES; p++) {
        DEMAND(replace_at(p, count, place, command, command_length) == due);
        if (number_of(due)) DEMAND(same(list_after, list, length) && same(after, given, 4 * count));
    }
    count_answer(number_of(due));
    note(2, number_of(due) * 8 + (unsigned)words % 8);
    if (number_of(due)) return;
    size_t before = 0;
    for (size_t at = 0; at < place; at += words_of(command_number(list + 8 * at))) before++;
    memcpy(list + 8 * place, command, 8 * words);
    DEMAND(same(list_after, list, length));
    const size_t numbers = 2 * (size_t)place_of(due_index()), kept = 2 * (before / EVERY + 1);
    DEMAND(same(after, given, 4 * kept) && same(after + kept, built + kept, 4 * (numbers - kept)));
    DEMAND(same(after + numbers, given + numbers, 4 * (count - numbers)));
    memcpy(list, old, length);
}

int LLVMFuzzerTestOneInput(const uint8_t *data, size_t size) {
    const struct input *in = read_input(data, size);
    null_if_empty = in->choice & 1;
    length = in->length;
    memcpy(list, in->list, length);
    const uint64_t index = due_index();
    const size_t numbers = number_of(index) ? 0 : 2 * (size_t)place_of(index), count = chosen_length(in, 0, numbers, NUMBERS - 1);
    choose_entries(in, numbers);
    const uint64_t due = due_build(count);
    for (int p = HEAP; p < PLACES; p++) {
        const size_t written = number_of(due) ? 0 : numbers;
        DEMAND(build_at(p, count) == due);
        DEMAND(same(after, built, 4 * written) && same(after + written, given + written, 4 * (count - written)));
    }
    count_answer(number_of(due));
    note(0, number_of(due) * 16 + (unsigned)(64 - __builtin_clzll(numbers + 1)));
    const uint32_t places[] = {(uint32_t)in->start, (uint32_t)(in->start % (length / 8 + 2)), in->number % 256, built[in->spare[1] % 8 * 2], 0};
    for (size_t i = 0; i < sizeof places / sizeof *places; i++) {
        const uint64_t asked = due_ask(count, places[i]);
        for (int p = HEAP; p < PLACES; p++) DEMAND(ask_at(p, count, places[i]) == asked);
        count_answer(number_of(asked));
        note(1, number_of(asked) * 64 + third_of(asked) / 16);
        replacement(in, count, places[i]);
    }
    return 0;
}
