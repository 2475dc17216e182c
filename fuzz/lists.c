#include "lists.h"
#include "library.h"
#include <stdio.h>
#include <string.h>

enum { NOTES = 16384 };
__attribute__((section("__libfuzzer_extra_counters"))) static uint8_t notes[NOTES];

void note(unsigned what, unsigned value) { notes[(what * 2048 + value) % NOTES] = 1; }

static unsigned long given[256];

void count_answer(unsigned number) { given[number]++; }

void answers_given(void) {
    fprintf(stderr, "answers by number:");
    for (int i = 0; i < 256; i++)
        if (given[i]) fprintf(stderr, " %d: %lu", i, given[i]);
    fprintf(stderr, "\n");
}

unsigned command_number(const uint8_t *word) { return word[0] & 63; }

static bool is_triangle(unsigned number) { return number / 8 == 1; }

static bool is_texture_rectangle(unsigned number) { return number == 0x24 || number == 0x25; }

bool is_draw(unsigned number) { return is_triangle(number) || is_texture_rectangle(number) || number == 0x36; }

bool is_load(unsigned number) { return number == 0x30 || number == 0x33 || number == 0x34; }

bool reads_tile(unsigned number) { return is_load(number) || is_texture_rectangle(number) || (is_triangle(number) && number & 2); }

bool is_attribute(unsigned number) {
    static const uint8_t those[] = {0x2A, 0x2B, 0x2C, 0x2F, 0x37, 0x38, 0x39, 0x3B, 0x3C, 0x3E, 0x3F};
    return memchr(those, (int)number, sizeof those) != NULL;
}

bool is_unassigned(unsigned number) { return (number > 0x00 && number < 0x08) || (number > 0x0F && number < 0x24) || number == 0x31; }

size_t words_of(unsigned number) {
    if (is_triangle(number)) return 4 + (number & 4 ? 8 : 0) + (number & 2 ? 8 : 0) + (number & 1 ? 2 : 0);
    return is_texture_rectangle(number) ? 2 : 1;
}

unsigned cycles_of(unsigned number) { return number == 0x26 ? 25 : number == 0x28 ? 33 : number == 0x27 ? 50 : 0; }

size_t whole_at(const uint8_t *list, size_t words, size_t place) {
    size_t need = words_of(command_number(list + 8 * place));
    return need <= words - place ? need : 0;
}

bool keeps_to_19(const uint8_t *list, size_t words, unsigned number, size_t place) {
    size_t at = 0, here;
    bool ended = false;
    while (at < words && !is_unassigned(command_number(list + 8 * at)) && (here = whole_at(list, words, at))) {
        ended |= command_number(list + 8 * at) == 0x29;
        at += here;
    }
    if (at >= words || !is_unassigned(command_number(list + 8 * at))) return number != 19;
    if (number == 19) return place == at && !ended;
    return number >= 3 && number <= 9 && (number == 4 ? place <= at : place < at);
}

size_t commands_of(const uint8_t *list, size_t words) {
    size_t count = 0;
    for (size_t at = 0; at < words; at += words_of(command_number(list + 8 * at))) count++;
    return count;
}

// ---- the form of an input

static uint64_t little(const uint8_t *bytes, int count) {
    uint64_t value = 0;
    for (int i = 0; i < count; i++) value |= (uint64_t)bytes[i] << (8 * i);
    return value;
}

const struct input *read_input(const uint8_t *data, size_t size) {
    static const size_t limits[] = {32768, 32769, 32760, 16384, 16385, 16392, 16376, 33000};
    static struct input in;
    uint8_t settings[SETTINGS] = {0};
    size_t given = size < SETTINGS ? size : SETTINGS;
    if (given) memcpy(settings, data, given);
    in.choice = settings[0];
    in.ways[0] = settings[3];
    in.ways[1] = settings[4];
    in.lengths[0] = (uint16_t)little(settings + 5, 2);
    in.lengths[1] = (uint16_t)little(settings + 7, 2);
    in.start = little(settings + 9, 8);
    in.number = (uint32_t)little(settings + 17, 4);
    memcpy(in.spare, settings + 21, 3);
    size_t length = size - given;
    if (length > LONGEST_LIST) length = LONGEST_LIST;
    if (length) memcpy(in.list, data + given, length);
    // setting 1: the list again and again, to a length at a limit, or so many times
    if (length && settings[1]) {
        size_t whole = settings[1] >= 248 ? limits[settings[1] - 248] : length * (settings[1] % 64 + 1u);
        if (whole > LONGEST_LIST) whole = LONGEST_LIST;
        for (size_t i = length; i < whole; i++) in.list[i] = in.list[i - length];
        if (whole > length) length = whole;
    }
    size_t cut = settings[2] % 16;
    in.length = cut < length ? length - cut : length;
    return &in;
}

size_t chosen_length(const struct input *in, int k, size_t enough, size_t most) {
    size_t raw = in->lengths[k], length;
    switch (in->ways[k] % 8) {
    case 0: length = enough; break;
    case 1: length = enough - 1; break;
    case 2: length = enough + 1; break;
    case 3: length = enough + raw % 64; break;
    case 4: length = enough - raw % 64; break;
    case 5: length = raw % 257; break;
    case 6: length = 0; break;
    default: length = raw; break;
    }
    return length > most ? (length > SIZE_MAX / 2 ? 0 : most) : length;
}
