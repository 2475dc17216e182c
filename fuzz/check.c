// lanyardrove_check: number and place by what 01 says of each, the cause by what 02 says (#101), the list unchanged, and what must follow for lists made
// from this one.
#include "lent.h"
#include "library.h"
#include "lists.h"
#include <string.h>

static bool null_if_empty;

static uint64_t check_at(enum place place, const uint8_t *list, size_t length) {
    struct lent lent = lend_copy(0, place, list, length, null_if_empty);
    uint64_t answer = lanyardrove_check(lent.bytes, lent.length);
    DEMAND(same(lent.bytes, list, length));
    give_back(lent);
    return answer;
}

static bool answers(const uint8_t *list, size_t words, unsigned number, size_t place, size_t cause) {
    uint64_t answer = check_at(BEFORE_GUARD, list, 8 * words);
    return number_of(answer) == number && place_of(answer) == place && third_of(answer) == cause;
}

static bool accepts(const uint8_t *list, size_t words) { return answers(list, words, 0, words, words); }

// The list of so many words with one more before a place.
static uint8_t longer[LONGEST_LIST + 8];
static size_t with_word(const uint8_t *list, size_t words, size_t place, uint8_t number) {
    memcpy(longer, list, 8 * place);
    memset(longer + 8 * place, 0, 8);
    longer[8 * place] = number;
    memcpy(longer + 8 * place + 8, list + 8 * place, 8 * (words - place));
    return words + 1;
}

static bool is_missing_sync(unsigned number) { return number >= 7 && number <= 9; }

// Whether a command sets the mark that the refused one needs cleared, and whether a sync clears it.
static bool sets_mark(unsigned number, unsigned refused) {
    return refused == 0x35 ? reads_tile(number) : is_draw(refused) ? is_load(number) : is_draw(number);
}
static bool clears_mark(unsigned number, unsigned refusal) {
    return number == 0x27 || (number == 0x28 && refusal <= 8) || (number == 0x26 && refusal == 7);
}

// The cause is a command that set the mark, and after it neither another one nor a sync that clears the mark stands before the refused one.
static void cause_of(const uint8_t *list, unsigned number, size_t place, size_t cause) {
    const unsigned refused = command_number(list + 8 * place);
    bool met = false;
    for (size_t at = 0; at < place; at += words_of(command_number(list + 8 * at))) {
        const unsigned here = command_number(list + 8 * at);
        if (at == cause) met = true, DEMAND(sets_mark(here, refused));
        if (at > cause) DEMAND(!sets_mark(here, refused) && !clears_mark(here, number));
    }
    DEMAND(met);
    note(2, number * 16 + (unsigned)(64 - __builtin_clzll(place - cause)));
}

// A missing sync, in the list up to the refused command: with it, or a longer one, before the command or right after the cause, the command passes. A
// shorter one does not serve, nor does one that stands before the cause.
static void missing_sync(const uint8_t *list, size_t words, unsigned number, size_t place, size_t cause) {
    const size_t after = cause + words_of(command_number(list + 8 * cause)), all = with_word(list, words, place, 0x26);
    DEMAND(number == 7 ? accepts(longer, all) : answers(longer, all, number, place + 1, cause));
    with_word(list, words, place, 0x28);
    DEMAND(number <= 8 ? accepts(longer, all) : answers(longer, all, number, place + 1, cause));
    with_word(list, words, place, 0x27);
    DEMAND(accepts(longer, all));
    with_word(list, words, after, number == 7 ? 0x26 : number == 8 ? 0x28 : 0x27);
    DEMAND(accepts(longer, all));
    with_word(list, words, cause, 0x27);
    DEMAND(answers(longer, all, number, place + 1, cause + 1));
}

static void refused_command(const uint8_t *list, size_t words, unsigned number, size_t place, size_t cause) {
    DEMAND(place < words);
    const unsigned command = command_number(list + 8 * place);
    const size_t here = whole_at(list, words, place);
    note(0, number * 64 + command);
    DEMAND((number == 3) == (here == 0));
    DEMAND(accepts(list, place));  // nothing is refused before it
    if (number == 3) return;
    const size_t end = place + here;
    DEMAND(answers(list, end, number, place, is_missing_sync(number) ? cause : end));  // nor does what follows count
    if (number == 4) DEMAND(place > 0 && command_number(list + 8 * place - 8) == 0x29);
    if (number == 5 || number == 6) DEMAND(is_draw(command));
    if (!is_missing_sync(number)) return;
    const bool needs_load = is_load(command) || is_draw(command);
    DEMAND(number == (needs_load ? 7u : command == 0x35 ? 8u : 9u));
    if (number == 9) DEMAND(is_attribute(command));
    cause_of(list, number, place, cause);
    if (end < 4096) missing_sync(list, end, number, place, cause);
}

// A no operation may follow, an unassigned number may not.
static void accepted(const uint8_t *list, size_t words, unsigned more) {
    bool ended = false;
    for (size_t at = 0; at < words; at += words_of(command_number(list + 8 * at))) {
        DEMAND(!ended && whole_at(list, words, at));
        ended = command_number(list + 8 * at) == 0x29;
    }
    if (words == 4096) return;
    with_word(list, words, words, 0);
    DEMAND(ended ? answers(longer, words + 1, 4, words, words + 1) : accepts(longer, words + 1));
    with_word(list, words, words, (uint8_t)more);
    if (is_unassigned(more)) DEMAND(answers(longer, words + 1, ended ? 4 : 19, words, words + 1));
}

// Bits 63:62 of every command's first word, turned over
static void ignored_bits(const uint8_t *list, size_t length, uint64_t answer) {
    memcpy(longer, list, length);
    for (size_t at = 0; at < length / 8; at += words_of(command_number(list + 8 * at))) longer[8 * at] ^= 0xC0;
    DEMAND(check_at(BEFORE_GUARD, longer, length) == answer);
}

int LLVMFuzzerTestOneInput(const uint8_t *data, size_t size) {
    const struct input *in = read_input(data, size);
    null_if_empty = in->choice & 1;
    const uint8_t *list = in->list;
    const size_t length = in->length, words = length / 8;
    const uint64_t answer = check_at(HEAP, list, length);
    DEMAND(check_at(BEFORE_GUARD, list, length) == answer);
    DEMAND(check_at(AFTER_GUARD, list, length) == answer);
    const unsigned number = number_of(answer);
    const size_t place = place_of(answer);
    count_answer(number);
    DEMAND(number <= 9 || number == 19);
    if (!is_missing_sync(number)) DEMAND(third_of(answer) == words);
    note(1, number * 16 + (unsigned)(64 - __builtin_clzll(place + 1)));
    DEMAND((number == 1) == (length > 32768));
    DEMAND((number == 2) == (length <= 32768 && length % 8 != 0));
    if (number == 0) DEMAND(place == words), accepted(list, words, in->spare[0] % 64);
    if (number == 1) DEMAND(place == 4096);
    if (number == 2) DEMAND(place == words);
    if (number != 1 && number != 2) DEMAND(keeps_to_19(list, words, number, place));
    if (number > 2) refused_command(list, words, number, place, third_of(answer));
    if (in->choice & 2) ignored_bits(list, length, answer);
    return 0;
}
