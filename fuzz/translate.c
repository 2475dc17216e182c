// lanyardrove_translate: the answer and all of the output, as a walk of its own gives them (02, #108); memory unchanged, the output unchanged at a refusal and
// beyond what is written. The walk has a stack of offsets to return to, where the library's functions call each other.
#include "fields.h"
#include "lent.h"
#include "library.h"
#include "lists.h"
#include <string.h>

enum { ROOM = 65536, MOST_READ = 4096, MOST_DEEP = 8 };
static bool null_if_empty;
static uint8_t memory[ROOM], before[ROOM], after[ROOM];
static size_t memory_length;

static void put_word(uint8_t *at, uint64_t word) {
    for (int i = 0; i < 8; i++) at[i] = (uint8_t)(word >> (56 - 8 * i));
}

// ---- the memory: a list of the mutator's as commands of a display list

// A no operation, or any command that is none of a display list: one that leads through the lists, or sets the other modes, by its bits
static uint64_t control(uint64_t word, size_t words) {
    const uint64_t target = 8 * (word % words), shift = word >> 16 & 31, count = (word >> 21 & 31) % (33 - shift);
    switch (word >> 32 & 15) {
    case 0: case 1: case 2: case 3: return 0xDEull << 56 | target;
    case 4: case 5: return 0xDE01ull << 48 | target;
    case 6: return 0xDEull << 56 | (word & 0x03000000FF00000F) | target;
    case 7: case 8: return 0xE2ull << 56 | shift << 40 | count << 32 | (uint32_t)word;
    case 9: case 10: return 0xE3ull << 56 | shift << 40 | count << 32 | (uint32_t)word;
    case 11: return word;
    default: return 0xDFull << 56;
    }
}

// All of the input's list, and at last an end; or its bytes as they are.
static void unfold(const struct input *in) {
    const size_t words = in->length / 8;
    memory_length = 0;
    for (size_t at = 0, here; at < words && (here = whole_at(in->list, words, at)) && memory_length + 32 <= ROOM; at += here) {
        const uint64_t word = word_at(in->list + 8 * at) | 3ull << 62;
        const unsigned number = command_number(in->list + 8 * at);
        const bool straight = number >= 0x24 && number != 0x31;
        put_word(memory + memory_length, straight ? word : control(word, words));
        memory_length += 8;
        for (unsigned half = 0; here == 2 && half < 2 && word % 32; half++, memory_length += 8)  // seldom without half-words
            put_word(memory + memory_length, (half ? 0xF1ull : 0xE1ull) << 56 | (uint32_t)(word_at(in->list + 8 * at + 8) >> (half ? 0 : 32)));
    }
    put_word(memory + memory_length, 0xDFull << 56);
    memory_length += in->choice & 4 ? 0 : 8;
    if (in->choice & 8) memory_length -= in->spare[0] % (memory_length < 32 ? memory_length + 1 : 32);
    if (in->choice % 64 > 59) memcpy(memory, in->list, memory_length = in->length);
}

// ---- the walk

struct walk {
    uint64_t answer;
    size_t words;
    uint8_t written[8 * MOST_READ];
};

// The refusal of 0xDE, of 0xFD to 0xFF, of 0xE2 and 0xE3 by 23, with so many calls open
static bool invalid(uint64_t word, size_t deep) {
    const unsigned number = word >> 56, parameter = word >> 48 & 255;
    if (number == 0xE2 || number == 0xE3) return (word >> 40 & 255) + (word >> 32 & 255) + 1 > 32;
    if (number < 0xFD && number != 0xDE) return false;
    return (word >> 24 & 255) || (number == 0xDE && (parameter > 1 || (parameter == 0 && deep == MOST_DEEP)));
}

// A word of the other modes with the bits of a command, bit by bit
static uint32_t with_bits(uint32_t mode, uint64_t word) {
    const unsigned count = (word >> 32 & 255) + 1, shift = 32 - (word >> 40 & 255) - count;
    for (unsigned k = 0; k < count; k++) mode &= ~(1u << (shift + k));
    return mode | (uint32_t)word;
}

static void put(struct walk *walk, uint64_t word) { put_word(walk->written + 8 * walk->words++, word); }

// Writes what a command becomes, where it becomes something
static void become(struct walk *walk, uint64_t word, uint32_t *high, uint32_t *low) {
    const unsigned number = word >> 56;
    if (number == 0xEF) *high = word >> 32 & 0xFFFFFF, *low = (uint32_t)word;
    if (number == 0xE2) *low = with_bits(*low, word);
    if (number == 0xE3) *high = with_bits(*high, word);
    if (number == 0xE2 || number == 0xE3) put(walk, 0x2Full << 56 | (uint64_t)(*high & 0xFFFFFF) << 32 | *low);
    else if (number >= 0xE4) put(walk, word & ~(3ull << 62));
}

// What may stand at an offset: 0xE1 or 0xF1 where it is due, else any that 02 names
static bool named(unsigned number, unsigned due) { return due ? number == due : number >= 0xDE && number != 0xE0 && number != 0xE1 && number != 0xF1; }

static void walk_from(uint64_t at, struct walk *walk) {
    uint64_t returns[MOST_DEEP], half = 0;
    uint32_t high = 0, low = 0;
    size_t deep = 0, read = 0;
    unsigned due = 0, refusal = 0;
    walk->words = 0;
    for (;; read++) {
        if (at % 8 || at + 8 > memory_length) refusal = 20;
        else if (read == MOST_READ) refusal = 21;
        else if (!named(memory[at], due)) refusal = 22;
        else if (invalid(word_at(memory + at), deep)) refusal = 23;
        if (refusal) break;
        const uint64_t word = word_at(memory + at);
        const unsigned number = memory[at];
        at += 8;
        if (due == 0xE1) half = word << 32;
        else if (due == 0xF1) put(walk, half | (uint32_t)word);
        else become(walk, word, &high, &low);
        due = number == 0xE4 || number == 0xE5 ? 0xE1 : due == 0xE1 ? 0xF1 : 0;
        if (number == 0xDE && !memory[at - 7]) returns[deep++] = at;
        if (number == 0xDE) at = (uint32_t)word;
        if (number == 0xDF && deep == 0) break;
        if (number == 0xDF) at = returns[--deep];
    }
    walk->answer = refusal ? (uint64_t)refusal << 56 | (uint64_t)read << 32 | at : (uint64_t)(read + 1) << 32 | walk->words;
}

// ---- the calls

static uint64_t translate_at(enum place place, uint32_t start, size_t out_length) {
    struct lent given = lend_copy(0, place, memory, memory_length, null_if_empty);
    struct lent out = lend_copy(1, place, before, out_length, null_if_empty);
    const uint64_t answer = lanyardrove_translate(given.bytes, given.length, start, out.bytes, out.length);
    DEMAND(same(given.bytes, memory, memory_length));
    if (out_length) memcpy(after, out.bytes, out_length);
    give_back(given);
    give_back(out);
    return answer;
}

static uint32_t chosen_offset(const struct input *in) {
    switch (in->spare[1] % 8) {
    case 1: return UINT32_MAX - in->start % 16;
    case 2: return (uint32_t)(in->start % (memory_length + 16));
    case 3: return (uint32_t)(in->start % (memory_length / 8 + 1)) * 8;
    case 4: return (uint32_t)in->start;
    default: return 0;
    }
}

int LLVMFuzzerTestOneInput(const uint8_t *data, size_t size) {
    static struct walk walk;
    const struct input *in = read_input(data, size);
    null_if_empty = in->choice & 1;
    unfold(in);
    const uint32_t start = chosen_offset(in);
    walk_from(start, &walk);
    const size_t needed = 8 * walk.words, out_length = chosen_length(in, 0, needed, ROOM);
    const bool fits = needed <= out_length;
    uint64_t due = walk.answer;
    if (number_of(due) == 0 && !fits) due |= (uint64_t)14 << 56;
    const size_t written = number_of(due) ? 0 : needed;
    for (int p = HEAP; p < PLACES; p++) {
        for (size_t i = 0; i < out_length; i++) before[i] = (uint8_t)(in->number * (i + 1) >> 3) ^ (p % 2 ? 0xFF : 0);
        DEMAND(translate_at(p, start, out_length) == due);
        DEMAND(same(after, walk.written, written) && same(after + written, before + written, out_length - written));
    }
    count_answer(number_of(due));
    note(0, number_of(due) * 64 + (number_of(due) > 21 ? memory[place_of(due)] & 63u : 0));
    note(1, number_of(due) * 16 + (unsigned)(64 - __builtin_clzll(third_of(due) + 1)));
    note(2, (unsigned)(64 - __builtin_clzll(walk.words + 1)));
    if (number_of(due)) return 0;
    // what is written is whole commands, bits 63:62 zero
    for (size_t at = 0, here; at < walk.words; at += here) DEMAND((here = whole_at(walk.written, walk.words, at)) && !(walk.written[8 * at] >> 6));
    return 0;
}
