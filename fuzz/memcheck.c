// For valgrind: every function on every list that is named, on lists at the limits of length, on lists that end inside a command, with buffers from nothing to
// more than enough, and with null pointers of length 0. Buffers that are only written are lent undefined; what is written must be defined.
#include "fields.h"
#include "library.h"
#include "lists.h"
#include "record.h"
#include <stdio.h>
#include <stdlib.h>
#include <string.h>
#include <valgrind/memcheck.h>

static unsigned long calls, undefined;

// An exact buffer on the heap; NULL for length 0 where null says so
static uint8_t *exact(size_t length, bool null) { return length == 0 && null ? NULL : malloc(length); }

static uint8_t *copy(const void *bytes, size_t length, bool null) {
    uint8_t *made = exact(length, null);
    if (length) memcpy(made, bytes, length);
    return made;
}

static void written(const void *bytes, size_t length) {
    if (length && VALGRIND_CHECK_MEM_IS_DEFINED(bytes, length)) undefined++;
}

typedef uint64_t repair_function(const uint8_t *list, size_t list_length, uint8_t *work, size_t work_length, uint8_t *out, size_t out_length);

static void one_repair(repair_function *repair, const uint8_t *list, size_t length, size_t work_length, size_t out_length, bool null) {
    uint8_t *work = exact(work_length, null), *out = exact(out_length, null);
    const uint64_t answer = repair(list, length, work, work_length, out, out_length);
    calls++;
    written(&answer, sizeof answer);
    const unsigned number = number_of(answer);
    if (number == 0) written(out, 8 * (size_t)place_of(answer));
    if (number == 0 || number == 14) written(work, 16 * commands_of(list, length / 8));
    free(work);
    free(out);
}

// Both memories are lent undefined: no answer and no branch goes by what they hold
static void one_draw(const uint8_t *list, size_t length, size_t memory_length, uint64_t start, size_t texture_length, bool null) {
    uint8_t *memory = exact(memory_length, null), *texture = exact(texture_length, null);
    const uint64_t answer = lanyardrove_draw(list, length, memory, memory_length, start, texture, texture_length);
    calls++;
    written(&answer, sizeof answer);
    free(memory);
    free(texture);
}

// Memory is lent undefined: no answer and no branch goes by what it holds. Of pixels of 8 bits alpha is defined all the same
static void one_view(size_t length, uint64_t start, uint64_t address, uint32_t width, uint32_t height, uint32_t size, size_t out_length, bool null) {
    uint8_t *memory = exact(length, null), *out = exact(out_length, null);
    const uint64_t answer = lanyardrove_view(memory, length, start, address, width, height, size, out, out_length);
    calls++;
    written(&answer, sizeof answer);
    for (size_t at = 3; size == 1 && number_of(answer) == 0 && at < place_of(answer); at += 4) written(out + at, 1);
    free(memory);
    free(out);
}

// Sides at the limits, each size, memory and output that are just enough, a byte short and longer
static void views(void) {
    const uint32_t sides[] = {0, 1, 3, 40, 1024, 1025, UINT32_MAX};
    const uint64_t starts[] = {0, 5, UINT64_MAX - 3, UINT64_MAX};
    for (size_t w = 0; w < sizeof sides / sizeof *sides; w++)
        for (size_t h = 0; h < sizeof sides / sizeof *sides; h++)
            for (uint32_t size = 0; size < 5; size++)
                for (size_t s = 0; s < sizeof starts / sizeof *starts; s++)
                    for (size_t more = 0; more < 9; more++) {
                        const uint64_t pixels = (uint64_t)sides[w] * sides[h];
                        const size_t small = pixels < 65536 ? pixels : 65536;
                        one_view((small << (size + 3) % 4) + more % 3 - (small > 0), starts[s], starts[s] + (more == 4), sides[w], sides[h], size,
                                 4 * small + more / 3 - (small > 0), more % 2);
                    }
}

// The bytes as a memory with a display list, the numbers' two high bits set
static void one_translate(const uint8_t *list, size_t length, uint32_t start, size_t out_length, bool null) {
    uint8_t *memory = copy(list, length, null), *out = exact(out_length, null);
    for (size_t at = 0; at < length; at += 8) memory[at] |= 0xC0;
    if (length > 7) memory[(length - 8) / 8 * 8] = 0xDF;
    const uint64_t answer = lanyardrove_translate(memory, length, start, out, out_length);
    calls++;
    written(&answer, sizeof answer);
    if (number_of(answer) == 0) written(out, 8 * (size_t)place_of(answer));
    free(memory);
    free(out);
}

// The list beside itself with one byte turned over, and less its last word
static void one_compare(const uint8_t *list, size_t length, size_t count, bool null) {
    uint8_t *other = copy(list, length, null);
    uint32_t *entries = (uint32_t *)(void *)exact(4 * count, null);
    if (length) other[length / 2] ^= 0xFF;
    for (size_t less = 0; less <= length && less <= 8; less += 8) {
        const uint64_t answer = lanyardrove_compare(list, length, other, length - less, entries, count);
        const uint64_t rest = lanyardrove_rest(list, length, other, length - less, count);
        calls += 2;
        written(&answer, sizeof answer);
        written(&rest, sizeof rest);
        if (number_of(answer) == 0) written(entries, 4 * (size_t)place_of(answer));
    }
    free(other);
    free(entries);
}

// Built, asked at a place, and the command there replaced by the list's first, with room for so many numbers; the numbers beyond the entries stay undefined
static void one_index(const uint8_t *bytes, size_t length, size_t count, uint32_t place, bool null) {
    uint8_t *list = copy(bytes, length, null);
    uint32_t *entries = (uint32_t *)(void *)exact(4 * count, null);
    uint64_t answer = lanyardrove_index_build(list, length, entries, count);
    const size_t numbers = number_of(answer) ? 0 : 2 * (size_t)place_of(answer);
    written(&answer, sizeof answer);
    written(entries, 4 * numbers);
    answer = lanyardrove_index_ask(list, length, entries, numbers, place);
    written(&answer, sizeof answer);
    answer = lanyardrove_index_replace(list, length, entries, numbers, place, bytes, length);
    calls += 3;
    written(&answer, sizeof answer);
    written(entries, 4 * numbers);
    written(list, length);
    free(list);
    free(entries);
}

static void one_decode(const uint8_t *list, size_t length, size_t count, bool null) {
    uint64_t *fields = (uint64_t *)(void *)exact(8 * count, null);
    const uint64_t answer = lanyardrove_decode(list, length, fields, count);
    calls++;
    written(&answer, sizeof answer);
    if (number_of(answer) == 0) written(fields, 8 * (size_t)place_of(answer));
    free(fields);
}

// All of a record is defined, but the bytes that hold nothing
static void written_record(const uint8_t *record) {
    written(record, SPARE);
    written(record + WAITED, RECORD - WAITED);
}

// A list in portions of a length, each in an exact buffer, closed again and again; the record is defined, and stays so when it is damaged. The bytes that
// hold nothing are not: no answer, no other byte and no branch goes by them
static void one_stream(const uint8_t *list, size_t length, size_t portion, bool null) {
    static const uint32_t damage[][2] = {{WAITED, MOST_WAITED}, {WAITED, UINT32_MAX}, {WAITED, 0}, {HELD_COUNT, 175}, {HELD_COUNT, UINT32_MAX}};
    const size_t times = sizeof damage / sizeof *damage;
    struct lanyardrove_stream *stream = calloc(1, sizeof *stream);
    VALGRIND_MAKE_MEM_UNDEFINED((uint8_t *)stream + SPARE, WAITED - SPARE);
    uint64_t answer = lanyardrove_stream_feed(stream, exact(0, true), 0);
    for (size_t at = 0, here; at < length; at += here) {
        here = length - at < portion ? length - at : portion;
        uint8_t *bytes = copy(list + at, here, null);
        answer = lanyardrove_stream_feed(stream, bytes, here);
        calls++;
        written(&answer, sizeof answer);
        free(bytes);
    }
    for (size_t time = 0; time <= times; time++) {
        answer = lanyardrove_stream_close(stream);
        calls++;
        written(&answer, sizeof answer);
        written_record((uint8_t *)stream);
        if (time < times) put_number((uint8_t *)stream, (int)damage[time][0], damage[time][1]);
    }
    free(stream);
}

static void one_list(const uint8_t *bytes, size_t length) {
    for (int null = 0; null < 2; null++) {
        uint8_t *list = copy(bytes, length, null);
        const uint64_t check = lanyardrove_check(list, length);
        calls++;
        written(&check, sizeof check);
        const size_t room[] = {0, 1, 15, 16, length, 2 * length, 2 * length + 8, 40000};
        for (size_t w = 0; w < sizeof room / sizeof *room; w++)
            for (size_t o = 0; o < sizeof room / sizeof *room; o++) {
                one_repair(lanyardrove_repair, list, length, room[w], room[o], null);
                one_repair(lanyardrove_repair_afresh, list, length, room[w], room[o], null);
            }
        const uint64_t starts[] = {0, 1, 18, 64, 0x3FFFFC0, UINT64_MAX - 3, UINT64_MAX};
        const size_t memories[] = {0, 1, 4, 37, 38, 64, 4099}, textures[] = {4096, 0, 4095, 4097};
        for (size_t s = 0; s < sizeof starts / sizeof *starts; s++)
            for (size_t m = 0; m < sizeof memories / sizeof *memories; m++)
                for (size_t t = 0; t < sizeof textures / sizeof *textures; t++) one_draw(list, length, memories[m], starts[s], textures[t], null);
        const uint32_t offsets[] = {0, 4, 8, (uint32_t)length, UINT32_MAX - 7};
        for (size_t s = 0; s < sizeof offsets / sizeof *offsets; s++)
            for (size_t o = 0; o < sizeof room / sizeof *room; o++) one_translate(list, length, offsets[s], room[o], null);
        for (size_t o = 0; o < sizeof room / sizeof *room; o++) one_compare(list, length, room[o], null);
        const size_t numbers[] = {0, 1, 2, 3, 128, 129};
        const uint32_t asked[] = {0, 1, 3, 64, (uint32_t)(length / 8), UINT32_MAX};
        for (size_t n = 0; n < sizeof numbers / sizeof *numbers; n++)
            for (size_t p = 0; p < sizeof asked / sizeof *asked; p++) one_index(list, length, numbers[n], asked[p], null);
        for (size_t count = 0; count < MOST_FIELDS; count++) one_decode(list, length, count, null);
        const size_t portions[] = {1, 7, 64, 175, 176, 40000};
        for (size_t p = 0; p < sizeof portions / sizeof *portions; p++) one_stream(list, length, portions[p], null);
        free(list);
    }
}

// Its length, and its step from each of the hazards
static void one_length(unsigned number) {
    const uint64_t words = lanyardrove_words((uint64_t)number << 56);
    calls++;
    written(&words, sizeof words);
    for (uint32_t hazards = 0; hazards < 16; hazards++) {
        const uint64_t step = lanyardrove_step(hazards, number);
        calls++;
        written(&step, sizeof step);
    }
}

// Each command number, with all bits set, cut at every byte, decoded and encoded again
static void one_number(unsigned number) {
    const struct shape *shape = shape_of(number);
    one_length(number);
    uint8_t bytes[8 * MOST_WORDS + 8];
    memset(bytes, 0xFF, sizeof bytes);
    bytes[0] = (uint8_t)number;
    for (size_t length = 0; length <= 8 * shape->words + 8; length++) {
        uint8_t *list = copy(bytes, length, true);
        const uint64_t check = lanyardrove_check(list, length);
        calls++;
        written(&check, sizeof check);
        one_decode(list, length, shape->count, false);
        free(list);
    }
    uint64_t fields[MOST_FIELDS + 1] = {0};
    lanyardrove_decode(bytes, 8 * shape->words, fields, MOST_FIELDS);
    const size_t suffix_length = 8 * (shape->words - shape->base);
    for (size_t count = shape->count ? shape->count - 1 : 0; count <= shape->count + 1; count++)
        for (size_t more = 0; more < 2; more++)
            for (size_t out_length = 0; out_length <= 8 * shape->words + 8; out_length += 1 + out_length % 8) {
                uint8_t *given = copy(fields, 8 * count, true), *suffix = copy(bytes + 8, suffix_length + more, true), *out = exact(out_length, true);
                const uint64_t answer = lanyardrove_encode(number, (uint64_t *)(void *)given, count, suffix, suffix_length + more, out, out_length);
                calls++;
                written(&answer, sizeof answer);
                if (number_of(answer) == 0) written(out, 8 * (size_t)place_of(answer));
                free(given);
                free(suffix);
                free(out);
            }
}

int main(int count, char **names) {
    static uint8_t list[LONGEST_LIST];
    for (int i = 1; i < count; i++) {
        FILE *file = fopen(names[i], "rb");
        if (!file) return 2;
        const size_t length = fread(list, 1, sizeof list, file);
        fclose(file);
        one_list(list, length);
        if (length) one_list(list, length - 1);
    }
    memset(list, 0, sizeof list);
    const size_t limits[] = {16376, 16384, 16385, 16392, 32760, 32768, 32769, 32776};
    for (size_t i = 0; i < sizeof limits / sizeof *limits; i++) one_list(list, limits[i]);
    for (unsigned number = 0; number < 64; number++) one_number(number);
    views();
    lanyardrove_encode(64, NULL, 0, NULL, 0, NULL, 0);
    lanyardrove_encode(UINT32_MAX, NULL, 0, NULL, 0, NULL, 0);
    printf("%lu calls, %lu with undefined bytes written\n", calls + 2, undefined);
    return undefined != 0;
}
