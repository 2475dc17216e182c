// lanyardrove_encode: 15 exactly where a field is outside the range that decoding shows, a count or the suffix is wrong or a number is none, then 14 exactly
// where there is no room; nothing written at a refusal and nothing beyond the words; decoding what was written gives the number, the fields and the suffix.
#include "fields.h"
#include "lent.h"
#include "library.h"
#include "lists.h"
#include <string.h>

enum { ROOM = 4096 };
static bool null_if_empty;
static uint8_t before[ROOM], after[ROOM];

struct call {
    uint32_t number;
    uint64_t fields[MOST_FIELDS];
    size_t count;
    uint8_t suffix[ROOM];
    size_t suffix_length, out_length;
};

static uint64_t encode_at(enum place place, const struct call *call) {
    struct lent fields = lend_copy(0, place, (const uint8_t *)call->fields, 8 * call->count, null_if_empty);
    struct lent suffix = lend_copy(1, place, call->suffix, call->suffix_length, null_if_empty);
    struct lent out = lend_copy(2, place, before, call->out_length, null_if_empty);
    uint64_t answer = lanyardrove_encode(call->number, (const uint64_t *)(const void *)fields.bytes, call->count, suffix.bytes, suffix.length, out.bytes,
                                         out.length);
    DEMAND(same(fields.bytes, call->fields, 8 * call->count));
    DEMAND(same(suffix.bytes, call->suffix, call->suffix_length));
    if (out.length) memcpy(after, out.bytes, out.length);
    give_back(fields);
    give_back(suffix);
    give_back(out);
    return answer;
}

// A value at or beside an end of a field's range, or any
static uint64_t some_value(const struct shape *shape, size_t field, uint8_t way, uint64_t raw) {
    const uint64_t low = (uint64_t)shape->lowest[field], high = (uint64_t)shape->highest[field];
    switch (way % 8) {
    case 0: return low;
    case 1: return high;
    case 2: return low - 1;
    case 3: return high + 1;
    case 4: return raw & high;
    case 5: return (uint64_t)1 << raw % 64;
    case 6: return (uint64_t)0 - raw % 4096;
    default: return raw;
    }
}

// The input's list is the words whose fields are given, if they are there; the settings change one of them, the counts and the number.
static void read_call(const struct input *in, struct call *call) {
    const uint8_t *list = in->list;
    const unsigned first = in->length ? command_number(list) : 0;
    const struct shape *shape = shape_of(first);
    uint8_t padded[8 * MOST_WORDS] = {0};
    memcpy(padded, list, in->length < sizeof padded ? in->length : sizeof padded);
    memset(call->fields, 0, sizeof call->fields);
    lanyardrove_decode(padded, sizeof padded, call->fields, MOST_FIELDS);
    call->number = in->choice & 8 ? in->number : in->choice & 16 ? in->number % 80 : first;
    call->count = in->choice & 32 ? in->lengths[1] % MOST_FIELDS : shape->count;
    if (in->choice & 2 && shape->count) {
        const size_t field = in->spare[0] % shape->count;
        call->fields[field] = some_value(shape, field, in->spare[1], in->start);
    }
    // as many suffix bytes as are due, or by the setting
    const size_t due = call->number < 64 ? 8 * (shape_of(call->number)->words - shape_of(call->number)->base) : 0;
    call->suffix_length = in->choice & 4 ? chosen_length(in, 1, due, ROOM) : due;
    for (size_t i = 0; i < call->suffix_length; i++) call->suffix[i] = in->length ? list[(32 + i) % in->length] : (uint8_t)i;
    call->out_length = chosen_length(in, 0, call->number < 64 ? 8 * words_of(call->number) : 8, ROOM);
}

static bool encodable(const struct call *call) {
    if (call->number >= 64) return false;
    const struct shape *shape = shape_of(call->number);
    if (call->count != shape->count || call->suffix_length != 8 * (shape->words - shape->base)) return false;
    for (size_t i = 0; i < call->count; i++)
        if (!fits(shape, i, call->fields[i])) return false;
    return true;
}

static void decodes_back(const struct call *call) {
    const struct shape *shape = shape_of(call->number);
    const size_t whole = 8 * shape->words;
    uint64_t again[MOST_FIELDS];
    struct lent list = lend_copy(3, BEFORE_GUARD, after, whole, false);
    DEMAND(lanyardrove_decode(list.bytes, whole, again, MOST_FIELDS) == ((uint64_t)call->number << 32 | shape->count));
    give_back(list);
    DEMAND(same(again, call->fields, 8 * call->count));
    DEMAND(same(after + 8 * shape->base, call->suffix, call->suffix_length));
    for (size_t i = 0; i < shape->base; i++) DEMAND((word_at(after + 8 * i) & ~shape->used[i]) == 0);
}

int LLVMFuzzerTestOneInput(const uint8_t *data, size_t size) {
    static struct call call;
    const struct input *in = read_input(data, size);
    null_if_empty = in->choice & 1;
    read_call(in, &call);
    for (size_t i = 0; i < call.out_length; i++) before[i] = (uint8_t)(in->start >> 8 * (i % 8)) ^ (uint8_t)i;

    const uint64_t answer = encode_at(HEAP, &call);
    const unsigned number = number_of(answer);
    const bool right = encodable(&call);
    count_answer(number);
    note(0, number * 64 + call.number % 64);
    note(1, (unsigned)(call.number < 64) * 512 + number * 32 + (in->choice & 2 ? 1 + in->spare[1] % 8 : 0));
    const size_t words = right ? words_of(call.number) : 0, written = number == 0 ? 8 * words : 0;
    if (!right) DEMAND(answer == (uint64_t)15 << 56);
    else if (call.out_length < 8 * words) DEMAND(answer == ((uint64_t)14 << 56 | words));
    else DEMAND(answer == words);
    DEMAND(same(after + written, before + written, call.out_length - written));
    if (number == 0) decodes_back(&call);

    static uint8_t found[ROOM];
    memcpy(found, after, call.out_length);
    for (size_t i = 0; i < call.out_length; i++) before[i] = (uint8_t)~before[i];
    for (int p = BEFORE_GUARD; p < PLACES; p++) {
        DEMAND(encode_at(p, &call) == answer);
        DEMAND(same(after, found, written));
        DEMAND(same(after + written, before + written, call.out_length - written));
    }
    return 0;
}
