#include "fields.h"
#include "lent.h"
#include "library.h"
#include "lists.h"
#include <string.h>

uint64_t word_at(const uint8_t *bytes) {
    uint64_t word = 0;
    for (int i = 0; i < 8; i++) word = word << 8 | bytes[i];
    return word;
}

// The field that one bit belongs to: it adds the bit to the field's greatest value, or, as its sign, makes the field's least value.
static void learn_bit(struct shape *shape, const uint64_t *none, const uint64_t *some) {
    size_t changed = 0;
    for (size_t i = 0; i < shape->count; i++) {
        if (some[i] == none[i]) continue;
        changed++;
        if (some[i] >> 63) shape->lowest[i] = (int64_t)some[i];
        else shape->highest[i] |= (int64_t)some[i];
    }
    DEMAND(changed <= 1);
}

static void learn(unsigned number, struct shape *shape) {
    uint8_t list[8 * MOST_WORDS] = {(uint8_t)number};
    uint64_t none[MOST_FIELDS], some[MOST_FIELDS];
    const uint64_t answer = lanyardrove_decode(list, sizeof list, none, MOST_FIELDS);
    DEMAND(number_of(answer) == 0 && third_of(answer) == number && place_of(answer) <= MOST_FIELDS);
    *shape = (struct shape){.words = words_of(number), .count = place_of(answer), .used = {(uint64_t)63 << 56}};
    shape->base = shape->words < BASE_WORDS ? shape->words : BASE_WORDS;
    // fields that no bit but those of the number changes: a triangle's three flags
    for (size_t i = 0; i < shape->count; i++) shape->lowest[i] = shape->highest[i] = (int64_t)none[i];
    for (size_t word = 0; word < shape->base; word++)
        for (int bit = 0; bit < (word ? 64 : 56); bit++) {
            uint8_t *byte = &list[8 * word + 7 - (size_t)bit / 8];
            *byte ^= (uint8_t)(1 << bit % 8);
            DEMAND(lanyardrove_decode(list, sizeof list, some, MOST_FIELDS) == answer);
            *byte ^= (uint8_t)(1 << bit % 8);
            learn_bit(shape, none, some);
            if (memcmp(none, some, 8 * shape->count)) shape->used[word] |= (uint64_t)1 << bit;
        }
    for (size_t i = 0; i < shape->count; i++) {
        const int64_t low = shape->lowest[i], high = shape->highest[i];
        DEMAND(low < high || (number / 8 == 1 && i < 3));
        DEMAND(low == high || (high & (high + 1)) == 0);
        DEMAND(low >= 0 || low == -high - 1);
    }
}

const struct shape *shape_of(unsigned number) {
    static struct shape shapes[64];
    static bool known[64];
    if (!known[number]) {
        learn(number, &shapes[number]);
        known[number] = true;
    }
    return &shapes[number];
}

bool fits(const struct shape *shape, size_t field, uint64_t value) {
    return shape->lowest[field] <= (int64_t)value && (int64_t)value <= shape->highest[field];
}
