// lanyardrove_decode: 3 exactly where the command's words are not all there, 14 exactly where there is no room for its fields, nothing written at a refusal and
// nothing beyond the fields; encoding what was decoded gives the words with unused bits zero, and decoding those gives the same fields.
#include "fields.h"
#include "lent.h"
#include "library.h"
#include "lists.h"
#include <string.h>

enum { ROOM = 2048 };
static bool null_if_empty;
static uint64_t before[ROOM], after[ROOM];

static uint64_t decode_at(enum place place, const uint8_t *list, size_t length, size_t count) {
    struct lent given = lend_copy(0, place, list, length, null_if_empty);
    struct lent lent = lend_copy(1, place, (const uint8_t *)before, 8 * count, null_if_empty);
    uint64_t answer = lanyardrove_decode(given.bytes, given.length, (uint64_t *)(void *)lent.bytes, count);
    DEMAND(same(given.bytes, list, length));
    if (count) memcpy(after, lent.bytes, 8 * count);
    give_back(given);
    give_back(lent);
    return answer;
}

static void back_again(const uint8_t *list, unsigned number, const uint64_t *fields) {
    const struct shape *shape = shape_of(number);
    const size_t base = 8 * shape->base, whole = 8 * shape->words;
    struct lent given = lend_copy(1, BEFORE_GUARD, (const uint8_t *)fields, 8 * shape->count, false);
    struct lent suffix = lend_copy(2, BEFORE_GUARD, list + base, whole - base, false);
    struct lent out = lend(3, BEFORE_GUARD, whole, false);
    const uint64_t answer =
        lanyardrove_encode(number, (const uint64_t *)(const void *)given.bytes, shape->count, suffix.bytes, suffix.length, out.bytes, out.length);
    DEMAND(answer == shape->words);
    for (size_t i = 0; i < shape->base; i++) DEMAND(word_at(out.bytes + 8 * i) == (word_at(list + 8 * i) & shape->used[i]));
    DEMAND(same(out.bytes + base, list + base, whole - base));
    uint64_t again[MOST_FIELDS];
    DEMAND(lanyardrove_decode(out.bytes, whole, again, MOST_FIELDS) == ((uint64_t)number << 32 | shape->count));
    DEMAND(same(again, fields, 8 * shape->count));
    give_back(given);
    give_back(suffix);
    give_back(out);
}

int LLVMFuzzerTestOneInput(const uint8_t *data, size_t size) {
    const struct input *in = read_input(data, size);
    null_if_empty = in->choice & 1;
    const uint8_t *list = in->list;
    const unsigned first = in->length ? command_number(list) : 0;
    const size_t need = 8 * words_of(first);
    // setting: all of the list, or exactly the command, or a byte less
    size_t length = in->length;
    if (in->choice & 2 && length > need) length = need;
    if (in->choice & 4 && length >= need) length = need - 1;
    const bool whole = length >= need;
    const size_t fields = shape_of(first)->count, count = chosen_length(in, 0, fields, ROOM);
    for (size_t i = 0; i < count; i++) before[i] = in->start * (i + 1) + in->number;

    const uint64_t answer = decode_at(HEAP, list, length, count);
    const unsigned number = number_of(answer);
    const size_t written = number == 0 ? fields : 0;
    count_answer(number);
    note(0, number * 64 + first);
    note(1, whole * 64 + first);
    if (!whole) DEMAND(answer == (uint64_t)3 << 56);
    else if (count < fields) DEMAND(answer == ((uint64_t)14 << 56 | fields));
    else DEMAND(answer == ((uint64_t)first << 32 | fields));
    DEMAND(same(after + written, before + written, 8 * (count - written)));
    for (size_t i = 0; i < written; i++) DEMAND(fits(shape_of(first), i, after[i]));

    static uint64_t found[ROOM];
    memcpy(found, after, 8 * count);
    for (size_t i = 0; i < count; i++) before[i] = ~before[i];
    for (int p = BEFORE_GUARD; p < PLACES; p++) {
        DEMAND(decode_at(p, list, length, count) == answer);
        DEMAND(same(after, found, 8 * written));
        DEMAND(same(after + written, before + written, 8 * (count - written)));
    }
    if (number == 0) {
        // bytes beyond the command don't count
        DEMAND(decode_at(BEFORE_GUARD, list, need, fields) == answer && same(after, found, 8 * fields));
        back_again(list, first, found);
    }
    return 0;
}
