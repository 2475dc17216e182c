// lanyardrove_compare and lanyardrove_rest (02, #110): two lists, by a walk of its own over the table of words and the library's decoding; every number of the
// buffer, both lists unchanged, and the rest told to the byte.
#include "lent.h"
#include "library.h"
#include "lists.h"
#include <string.h>

enum { FIELDS = 64, TRIANGLE_BASE = 32, MOST_NUMBERS = 16384 };
static bool null_if_empty;

struct list {
    const uint8_t *bytes;
    size_t length;
};

// 1, 2 and 3, as an answer; 0 where the list decodes
static uint64_t ground_of(struct list list) {
    if (list.length > 32768) return 1ull << 56 | 4096;
    if (list.length % 8) return 2ull << 56 | list.length / 8;
    for (size_t at = 0, here; at < list.length / 8; at += here)
        if (!(here = whole_at(list.bytes, list.length / 8, at))) return 3ull << 56 | at;
    return 0;
}

// The fields of two commands of one number that differ
static uint64_t differing(unsigned number, const uint8_t *one, const uint8_t *two) {
    uint64_t first[FIELDS], second[FIELDS], mask = 0;
    const size_t bytes = 8 * words_of(number), count = place_of(lanyardrove_decode(one, bytes, first, FIELDS));
    lanyardrove_decode(two, bytes, second, FIELDS);
    for (uint32_t field = 0; field < count; field++)
        if (first[field] != second[field]) mask |= 1ull << lanyardrove_field_bit(number, field);
    if (number / 8 == 1 && !same(one + TRIANGLE_BASE, two + TRIANGLE_BASE, bytes - TRIANGLE_BASE)) mask |= 1ull << LANYARDROVE_SUFFIX_BIT;
    return mask;
}

// What comparing has to answer and to write, and the rest
struct expected {
    uint64_t answer;  // where there is room
    uint32_t numbers[MOST_NUMBERS];
    size_t count;
    unsigned list;  // the rest
    size_t byte;
};

static void walk(struct list one, struct list two, struct expected *due) {
    size_t i = 0, k = 0;
    while (i < one.length && k < two.length) {
        const unsigned number = command_number(one.bytes + i), other = command_number(two.bytes + k);
        const uint64_t mask = number == other ? differing(number, one.bytes + i, two.bytes + k) : 0;
        if (mask || number != other) {
            const uint32_t entry[4] = {(uint32_t)(i / 8), (uint32_t)(k / 8), (uint32_t)(mask >> 32), (uint32_t)mask};
            memcpy(due->numbers + due->count, entry, sizeof entry);
            due->count += 4;
            if (mask) note(2, number * 32 + (unsigned)__builtin_ctzll(mask) % 32);
        }
        i += 8 * words_of(number);
        k += 8 * words_of(other);
    }
    due->list = i >= one.length && k < two.length;
    due->byte = due->list ? k : i;
    due->answer = due->count;
}

static const struct expected *expect(struct list one, struct list two) {
    static struct expected due;
    due.count = due.list = 0;
    due.byte = one.length;
    due.answer = ground_of(one);
    if (!due.answer) due.answer = ground_of(two);
    if (!due.answer) walk(one, two, &due);
    return &due;
}

static void compare_at(enum place place, struct list one, struct list two, size_t count, const struct expected *due) {
    static uint8_t before[4 * MOST_NUMBERS];
    for (size_t i = 0; i < 4 * count; i++) before[i] = (uint8_t)(i * 37 + 11);
    struct lent first = lend_copy(0, place, one.bytes, one.length, null_if_empty), second = lend_copy(1, place, two.bytes, two.length, null_if_empty);
    struct lent entries = lend_copy(2, place, before, 4 * count, null_if_empty);
    const uint64_t answer = lanyardrove_compare(first.bytes, one.length, second.bytes, two.length, (uint32_t *)(void *)entries.bytes, count);
    const uint64_t rest = lanyardrove_rest(first.bytes, one.length, second.bytes, two.length, count);
    const bool decodes = number_of(due->answer) == 0, fits = decodes && due->count <= count;
    DEMAND(answer == (decodes && !fits ? 14ull << 56 | due->count : due->answer));
    const size_t written = fits ? 4 * due->count : 0;
    DEMAND(same(entries.bytes, due->numbers, written));
    DEMAND(same(entries.bytes + written, before + written, 4 * count - written));
    DEMAND(number_of(rest) == number_of(answer));
    DEMAND(third_of(rest) == (fits ? due->list : 0) && place_of(rest) == (fits ? due->byte : one.length));
    DEMAND(same(first.bytes, one.bytes, one.length) && same(second.bytes, two.bytes, two.length));
    give_back(first);
    give_back(second);
    give_back(entries);
}

// The second list: what follows a cut of the first, or the first with a bit or more turned over in one word, and a word left out or one more
static struct list second_of(const struct input *in, struct list *first) {
    static uint8_t other[LONGEST_LIST + 8];
    const unsigned way = in->choice >> 1;
    const size_t words = in->length / 8, at = words ? in->number % words : 0;
    size_t length = in->length;
    if (way % 4 == 0 && words) {
        const size_t cut = 8 * at;
        *first = (struct list){in->list, cut};
        return (struct list){in->list + cut, in->length - cut};
    }
    const uint64_t turned = way & 4 ? in->start : 1ull << (in->ways[1] % 64);
    memcpy(other, in->list, length);
    for (int i = 0; words && i < 8; i++) other[8 * at + i] ^= (uint8_t)(turned >> (8 * i));
    if (way % 4 == 2 && words) {
        memmove(other + 8 * at, other + 8 * at + 8, length - 8 * at - 8);
        length -= 8;
    } else if (way % 4 == 3) {
        memset(other + length, in->ways[1], 8);
        length += 8;
    }
    return (struct list){other, length};
}

int LLVMFuzzerTestOneInput(const uint8_t *data, size_t size) {
    const struct input *in = read_input(data, size);
    null_if_empty = in->choice & 1;
    struct list first = {in->list, in->length};
    const struct list second = second_of(in, &first);
    const struct expected *due = expect(first, second);
    const size_t count = chosen_length(in, 0, 4 * due->count, 4 * MOST_NUMBERS) / 4;
    count_answer(number_of(due->answer) == 0 && due->count > count ? 14 : number_of(due->answer));
    note(0, number_of(due->answer) * 4 + due->list * 2 + (due->byte == (due->list ? second : first).length));
    note(1, (unsigned)(64 - __builtin_clzll(due->count + 1)));
    for (int p = HEAP; p < PLACES; p++) compare_at(p, first, second, count, due);
    compare_at(BEFORE_GUARD, first, second, due->count, due);
    if (due->count + 4 <= MOST_NUMBERS) compare_at(AFTER_GUARD, first, second, due->count + 4, due);
    if (due->count) compare_at(BEFORE_GUARD, first, second, due->count - 1, due);
    return 0;
}
