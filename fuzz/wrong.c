// Wrong versions of the library, to see that the drivers find faults: WRONG=1.. chooses one. The functions right_.. are the library's own, renamed.
#include "fields.h"
#include "lists.h"
#include "record.h"
#include <stddef.h>
#include <stdint.h>
#include <stdlib.h>
#include <string.h>

uint64_t right_check(const uint8_t *list, size_t length);
uint64_t right_repair(const uint8_t *list, size_t length, uint8_t *work, size_t work_length, uint8_t *out, size_t out_length);
uint64_t right_repair_afresh(const uint8_t *list, size_t length, uint8_t *work, size_t work_length, uint8_t *out, size_t out_length);
uint64_t right_draw(const uint8_t *list, size_t length, uint8_t *memory, size_t memory_length, uint64_t start, uint8_t *texture, size_t texture_length);
uint64_t right_compare(const uint8_t *first, size_t first_length, const uint8_t *second, size_t second_length, uint32_t *entries, size_t count);
uint64_t right_rest(const uint8_t *first, size_t first_length, const uint8_t *second, size_t second_length, size_t count);
uint64_t right_view(const uint8_t *memory, size_t length, uint64_t start, uint64_t address, uint32_t width, uint32_t height, uint32_t size, uint8_t *out,
                    size_t out_length);
uint64_t right_translate(const uint8_t *memory, size_t memory_length, uint32_t start, uint8_t *out, size_t out_length);
uint64_t right_decode(const uint8_t *list, size_t length, uint64_t *fields, size_t count);
uint64_t right_encode(uint32_t number, const uint64_t *fields, size_t count, const uint8_t *suffix, size_t suffix_length, uint8_t *out, size_t out_length);
uint64_t right_words(uint64_t first_word);
uint64_t right_index_build(const uint8_t *list, size_t length, uint32_t *entries, size_t count);
uint64_t right_index_ask(const uint8_t *list, size_t length, const uint32_t *entries, size_t count, uint32_t place);
uint64_t right_index_replace(uint8_t *list, size_t length, uint32_t *entries, size_t count, uint32_t place, const uint8_t *command, size_t command_length);
uint64_t right_step(uint32_t hazards, uint32_t number);
uint64_t right_stream_feed(uint8_t *record, const uint8_t *portion, size_t length);
uint64_t right_stream_close(uint8_t *record);

static volatile uint8_t read;

static int wrong(int version) {
    static int chosen = -1;
    if (chosen < 0) chosen = getenv("WRONG") ? atoi(getenv("WRONG")) : 0;
    return chosen == version;
}

// An answer with another third number: cause or cycles.
static uint64_t with_third(uint64_t answer, uint64_t third) { return (answer & ~(0xFFFFFFull << 32)) | third << 32; }

// The first or the latest draw before a place.
static size_t draw_before(const uint8_t *list, size_t place, bool latest) {
    size_t found = place;
    for (size_t at = 0; at < place; at += words_of(command_number(list + 8 * at)))
        if (is_draw(command_number(list + 8 * at)) && (latest || found == place)) found = at;
    return found;
}

// The first command of a number before a place; the place where there is none.
static size_t first_before(const uint8_t *list, size_t place, unsigned number) {
    size_t at = 0;
    while (at < place && command_number(list + 8 * at) != number) at += words_of(command_number(list + 8 * at));
    return at;
}

// The check of a list with no operations in place of an unassigned number.
static uint64_t check_without(const uint8_t *list, size_t length, unsigned number) {
    static uint8_t other[LONGEST_LIST + 8];
    const size_t words = length / 8;
    if (length) memcpy(other, list, length);
    for (size_t at; (at = first_before(other, words, number)) < words;) other[8 * at] = 0x00;
    return right_check(other, length);
}

// Refusal 19 as a wrong version gives it; the right answer where it is not wrong.
static uint64_t misjudged(const uint8_t *list, size_t length, uint64_t right) {
    const uint64_t number = right >> 56, unassigned = with_third(19ull << 56, length / 8);
    const size_t place = (uint32_t)right;
    if (number == 1 || number == 2) return right;
    if (wrong(17) && number == 4 && is_unassigned(command_number(list + 8 * place))) return unassigned | place;     // 19 before 4
    if (wrong(18) && first_before(list, place, 0x00) < place) return unassigned | first_before(list, place, 0x00);  // 0x00 refused
    if (wrong(19)) return check_without(list, length, 0x31);                                                        // 0x31 let through
    return right;
}

uint64_t lanyardrove_check(const uint8_t *list, size_t length) {
    if (wrong(1)) read = list[length];
    if (wrong(2) && length > 100) read = list[-1];
    const uint64_t a = right_check(list, length), number = a >> 56;
    const size_t place = (uint32_t)a;
    if (wrong(3) && number == 7) return a + (1ull << 32);                                    // the word after the cause
    if (wrong(4) && number == 8) return with_third(length / 8, length / 8);                  // accepts
    if (wrong(5) && number == 6) return a + 1;                                               // place
    if (wrong(6) && number == 0 && length > 200) return with_third(9ull << 56 | 3, 2);       // refuses
    if (wrong(7) && number == 9) return with_third(a, draw_before(list, place, false));      // the first draw instead of the latest
    if (wrong(8) && number == 8) return with_third(a, draw_before(list, place, true));       // a draw for what reads the tile
    if (wrong(9) && number >= 7 && number <= 9) return with_third(a, place);                 // the refused command's own place
    if (wrong(10) && number == 0) return with_third(a, 0);                                   // no words at acceptance
    return misjudged(list, length, a);
}

uint64_t lanyardrove_repair(const uint8_t *list, size_t length, uint8_t *work, size_t work_length, uint8_t *out, size_t out_length) {
    const uint64_t a = right_repair(list, length, work, work_length, out, out_length), number = a >> 56, cycles = a >> 32 & 0xFFFFFF;
    const size_t words = (uint32_t)a;
    if (wrong(11) && number == 14 && work_length) work[0] = 1;               // work buffer not zero
    if (wrong(12) && number == 14 && out_length) out[out_length - 1] ^= 1;   // writes and refuses
    if (wrong(13) && number == 0 && cycles > 100) return a + (1ull << 32);   // invented cycles
    if (wrong(14) && number == 0)                                            // Pipe where Load is enough
        for (size_t i = 0; i < words; i++)
            if (memcmp(out + 8 * i, "\x26\0\0\0\0\0\0", 8) == 0) {
                out[8 * i] = 0x27;
                return a + (25ull << 32);
            }
    if (wrong(15) && number == 0 && 8 * words < out_length) out[8 * words] ^= 1;  // beyond what is written
    if (wrong(16) && number == 13) return a + 1;                             // place
    if (wrong(20) && number == 19 && work_length < 16) return 13ull << 56 | 1;  // 13 before 19
    return a;
}

// The commands of a list but for the syncs that a repair afresh forgets; their bytes.
static size_t without_syncs(const uint8_t *list, size_t length, uint8_t *kept) {
    size_t bytes = 0;
    for (size_t at = 0, here; at < length; at += here) {
        here = 8 * words_of(command_number(list + at));
        if (at + here > length) here = length - at;
        if (cycles_of(command_number(list + at))) continue;
        memcpy(kept + bytes, list + at, here);
        bytes += here;
    }
    return bytes;
}

// The list with its first sync that has other bits kept, as if it were none.
static uint64_t odd_sync_kept(const uint8_t *list, size_t length, uint8_t *work, size_t work_length, uint8_t *out, size_t out_length) {
    for (size_t at = 0; at < length; at += 8 * words_of(command_number(list + at)))
        if (cycles_of(command_number(list + at)) && list[at + 7]) return right_repair(list, length, work, work_length, out, out_length);
    return right_repair_afresh(list, length, work, work_length, out, out_length);
}

uint64_t lanyardrove_repair_afresh(const uint8_t *list, size_t length, uint8_t *work, size_t work_length, uint8_t *out, size_t out_length) {
    static uint8_t kept[LONGEST_LIST];
    const bool usual = length <= 16384 && length % 8 == 0;
    if (wrong(101)) return right_repair(list, length, work, work_length, out, out_length);                          // the first repair's list
    if (wrong(102) && usual) {                                                                                      // 13 by what remains
        const size_t bytes = without_syncs(list, length, kept);
        return right_repair(kept, bytes, work, work_length, out, out_length);
    }
    if (wrong(103) && usual && length) return odd_sync_kept(list, length, work, work_length, out, out_length);      // a sync with other bits stays
    const uint64_t a = right_repair_afresh(list, length, work, work_length, out, out_length), number = a >> 56;
    const size_t words = (uint32_t)a;
    if (wrong(104) && number == 0 && (a >> 32)) return with_third(a, 0);                                            // only what was added, of none
    if (wrong(105) && number == 14 && out_length) out[0] ^= 1;                                                      // writes and refuses
    if (wrong(106) && number == 0 && words && out[8 * words - 8] == 0x29) return a - 1;                             // Sync Full dropped
    if (wrong(107) && number == 0)                                                                                  // Pipe where Load is enough
        for (size_t i = 0; i < words; i++)
            if (memcmp(out + 8 * i, "\x26\0\0\0\0\0\0", 8) == 0) {
                out[8 * i] = 0x27;
                return a + (25ull << 32);
            }
    return a;
}

static void swap(uint32_t *numbers) {
    const uint32_t first = numbers[0];
    numbers[0] = numbers[1];
    numbers[1] = first;
}

uint64_t lanyardrove_compare(const uint8_t *first, size_t first_length, const uint8_t *second, size_t second_length, uint32_t *entries, size_t count) {
    if (wrong(115)) {  // the second list's grounds first
        const uint64_t of_second = right_compare(second, second_length, second, second_length, NULL, 0);
        if (of_second >> 56) return of_second;
    }
    const uint64_t a = right_compare(first, first_length, second, second_length, entries, count), number = a >> 56;
    const size_t numbers = (uint32_t)a;
    if (wrong(114) && number == 0 && numbers && numbers == count) return 14ull << 56 | numbers;          // room for one more
    if (wrong(119) && number == 14 && count) entries[count - 1] ^= 1;                                     // writes and refuses
    if (wrong(118) && number == 0 && numbers == 0 && count >= 4 && first_length == second_length && first_length && memcmp(first, second, first_length)) {
        memset(entries, 0, 16);  // bits of no field count
        return 4;
    }
    for (size_t i = 0; number == 0 && i < numbers; i += 4) {
        if (wrong(111)) swap(entries + i + 2);  // low half first
        if (wrong(112)) swap(entries + i);      // places
        if (wrong(113) && command_number(first + 8 * entries[i]) / 8 == 1 && entries[i + 3] >> 21) entries[i + 3] ^= 3u << 21;  // the suffix is bit 22
    }
    return a;
}

uint64_t lanyardrove_rest(const uint8_t *first, size_t first_length, const uint8_t *second, size_t second_length, size_t count) {
    const uint64_t a = right_rest(first, first_length, second, second_length, count), number = a >> 56;
    if (wrong(116) && number == 0 && (uint32_t)a < first_length) return a ^ 1ull << 32;       // the other list
    if (wrong(117) && number == 14) return right_rest(first, first_length, second, second_length, SIZE_MAX) | 14ull << 56;  // the rest at 14
    return a;
}

// A list's settings with one command behind them: no draws, no syncs, and of a load only the size that it leaves.
static size_t settings_and(const uint8_t *list, size_t place, const uint8_t *command, uint8_t *out) {
    size_t length = 0;
    for (size_t at = 0, here; at < place; at += here) {
        const unsigned number = command_number(list + 8 * at);
        here = words_of(number);
        if (is_draw(number) || number == 0x29 || cycles_of(number)) continue;
        memcpy(out + length, list + 8 * at, 8);
        if (is_load(number)) out[length] = 0x32;
        length += 8;
    }
    memcpy(out + length, command, 16);
    return length + 16;
}

// The first row of a list's last texture rectangle drawn again, as if it were written after the others.
static void first_row_last(const uint8_t *list, size_t words, uint8_t *memory, size_t memory_length, uint64_t start, uint8_t *texture) {
    static uint8_t other[LONGEST_LIST + 16];
    uint8_t command[16];
    size_t last = words;
    for (size_t at = 0; at < words; at += words_of(command_number(list + 8 * at)))
        if (command_number(list + 8 * at) == 0x24) last = at;
    if (last == words) return;
    memcpy(command, list + 8 * last, 16);
    command[2] = (command[2] & 0xF0) | (command[6] & 0x0F), command[3] = command[7];  // its bottom is its top
    right_draw(other, settings_and(list, last, command, other), memory, memory_length, start, texture, 4096);
}

// What a list up to the refused command answers with the whole of the console's memory: 18, where that holds too.
static uint64_t with_all_memory(const uint8_t *list, size_t place, uint64_t right) {
    static uint8_t all[80u << 20], texture[4096];
    const uint64_t a = right_draw(list, 8 * (place + words_of(command_number(list + 8 * place))), all, sizeof all, 0, texture, sizeof texture);
    return a >> 56 == 18 ? a : right;
}

// A list with perspective, look-up and alpha compare off in each Set Other Modes.
static const uint8_t *plain_modes(const uint8_t *list, size_t length) {
    static uint8_t other[LONGEST_LIST];
    if (length) memcpy(other, list, length);
    for (size_t at = 0, here, words = length / 8; at < words && (here = whole_at(list, words, at)); at += here)
        if (command_number(list + 8 * at) == 0x2F) other[8 * at + 1] &= 0xF7, other[8 * at + 2] &= 0x7F, other[8 * at + 7] &= 0xFE;
    return other;
}

// The halves of the first word of texture memory that a load changed, in each other's place.
static void turn_a_word(const uint8_t *before, uint8_t *texture) {
    size_t at = 0;
    while (at < 4096 && memcmp(before + at, texture + at, 8) == 0) at += 8;
    for (size_t i = at; at < 4096 && i < at + 4; i++) {
        const uint8_t byte = texture[i];
        texture[i] = texture[i + 4];
        texture[i + 4] = byte;
    }
}

// The byte after the last texel of the last Load Block, in the half of a word that it does not fill, changed: a console fills its last word.
static void fill_the_last_word(const uint8_t *list, size_t words, uint8_t *texture) {
    size_t tmem[8] = {0}, at_byte = 0;
    for (size_t at = 0; at < words; at += words_of(command_number(list + 8 * at))) {
        const uint64_t word = word_at(list + 8 * at);
        const size_t tile = word >> 24 & 7, texels = ((word >> 12 & 0xFFF) + 1 - (word >> 44 & 0xFFF)) & 0xFFF;
        if (command_number(list + 8 * at) == 0x35) tmem[tile] = word >> 32 & 0x1FF;
        if (command_number(list + 8 * at) == 0x33) at_byte = texels % 4 == 2 ? 8 * tmem[tile] + 2 * texels : 0;
    }
    if (at_byte) texture[at_byte % 4096] ^= 1;
}

// The first byte that was painted, in another colour.
static void paint_otherwise(const uint8_t *before, uint8_t *memory, size_t memory_length) {
    size_t i = 0;
    while (i < memory_length && memory[i] == before[i]) i++;
    if (i < memory_length) memory[i] ^= 0x10;
}

// What a wrong version makes of textures; the right answer where it is not wrong.
static uint64_t mistextured(const uint8_t *list, size_t length, uint64_t start, uint8_t *memory, size_t memory_length, uint8_t *texture, uint64_t right,
                            const uint8_t *before) {
    const uint64_t number = right >> 56;
    if (wrong(27) && number == 0) turn_a_word(before, texture);                                              // turned where it isn't due, or not where it is
    if (wrong(28) && number == 0) first_row_last(list, length / 8, memory, memory_length, start, texture);  // an earlier pixel stays
    if (wrong(29) && number == 12) return with_all_memory(list, (uint32_t)right, right);                     // 18 before 12
    if (wrong(30) && number == 18) texture[4095] ^= 1;                                                       // loads and refuses
    if (wrong(36) && number == 17)  // the modes not asked
        return right_draw(plain_modes(list, length), length, memory, memory_length, start, texture, 4096);
    if (wrong(39) && number == 0) fill_the_last_word(list, length / 8, texture);                             // more than a block's texels
    if (wrong(37) && number == 17 && is_load(command_number(list + 8 * (uint32_t)right))) return length / 8;  // 17 not asked of loads
    return right;
}

uint64_t lanyardrove_draw(const uint8_t *list, size_t length, uint8_t *memory, size_t memory_length, uint64_t start, uint8_t *texture, size_t texture_length) {
    static uint8_t before[65536], texture_before[65536];
    if (memory_length) memcpy(before, memory, memory_length);
    if (texture_length) memcpy(texture_before, texture, texture_length);
    const uint64_t a = right_draw(list, length, memory, memory_length, start, texture, texture_length), number = a >> 56;
    if (wrong(21) && number == 0) memory[memory_length] = 1;
    if (wrong(22) && number == 12 && memory_length) memory[memory_length / 2] ^= 1;  // paints and refuses
    if (wrong(23) && number == 0 && memory_length > 5) memory[5] ^= 0x10;            // a byte that no fill covers
    if (wrong(24) && number == 11) return a + 1;                                     // place
    if (wrong(25) && number == 0) paint_otherwise(before, memory, memory_length);    // another colour
    if (wrong(26) && number == 19) return length / 8;                                // unassigned numbers let through
    if (wrong(38) && number == 16 && texture_length > 4096) return length / 8;       // more texture memory taken
    return mistextured(list, length, start, memory, memory_length, texture, a, texture_before);
}

// The half-words read, by the rectangles that were written.
static uint64_t half_words(const uint8_t *out, size_t words) {
    uint64_t count = 0;
    for (size_t at = 0; at < words; at += words_of(command_number(out + 8 * at))) count += words_of(command_number(out + 8 * at)) == 2 ? 2 : 0;
    return count;
}

// The second of two Set Other Modes that follow each other, without the low word that the first left.
static void forget_modes(uint8_t *out, size_t words) {
    for (size_t at = 0, before = 0; at < words; before = at, at += words_of(command_number(out + 8 * at)))
        if (at && out[8 * at] == 0x2F && out[8 * before] == 0x2F) memset(out + 8 * at + 4, 0, 4);
}

uint64_t lanyardrove_view(const uint8_t *memory, size_t length, uint64_t start, uint64_t address, uint32_t width, uint32_t height, uint32_t size, uint8_t *out,
                          size_t out_length) {
    const uint32_t low = wrong(136) ? size & 3 : size, high = wrong(135) && height == 1025 ? 1024 : height;  // of the size two bits; 1,025 rows
    const uint64_t a = right_view(memory, length, start, address, width, high, low, out, out_length), number = a >> 56, bytes = (uint32_t)a;
    if (wrong(131) && number == 0 && size == 2) out[0] &= 0xF8;                      // a channel becomes 8v
    if (wrong(132) && number == 0 && size == 2) out[bytes - 1] &= 1;                 // the alpha bit becomes 0 or 1
    if (wrong(133) && number == 0 && size == 1) out[3] = out[0];                     // the alpha of an 8-bit value is that value
    if (wrong(134) && number == 0 && address - start + ((uint64_t)width * height << (size - 1)) == length) return 12ull << 56;  // the end of memory refused
    if (wrong(137) && number == 14 && out_length > 3) out[0] ^= 1;                   // 14 after work
    if (wrong(138) && number == 0 && bytes < out_length) out[bytes] = 0;             // beyond what is written
    if (wrong(139) && number == 0) read = memory[length];                            // beyond memory
    return a;
}

uint64_t lanyardrove_translate(const uint8_t *memory, size_t memory_length, uint32_t start, uint8_t *out, size_t out_length) {
    if (wrong(91)) read = memory[memory_length];
    const uint64_t a = right_translate(memory, memory_length, start, out, out_length), number = a >> 56;
    const uint32_t place = (uint32_t)a, count = a >> 32 & 0xFFFFFF;
    if (wrong(92) && number == 23 && memory[place] == 0xDE && !memory[place + 1] && !memory[place + 4])  // a ninth call
        return right_translate(memory, memory_length, (uint32_t)memory[place + 5] << 16 | memory[place + 6] << 8 | memory[place + 7], out, out_length);
    if (wrong(93) && number == 21) return with_third(a, 4097);                                           // one more command read
    if (wrong(94) && number == 0) return with_third(a, count - half_words(out, place));                  // half-words not counted
    if (wrong(95) && number == 0) forget_modes(out, place);                                              // the mode word not kept
    if (wrong(96) && number > 19 && out_length) out[0] ^= 1;                                             // writes and refuses
    if (wrong(97) && number == 20 && place % 8) return with_third(22ull << 56 | place, count);           // 22 before 20
    if (wrong(98) && number == 0 && 8 * place < out_length) out[8 * place] ^= 1;                         // beyond what is written
    if (wrong(99) && number == 14) return with_third(a, 0);                                              // nothing read at 14
    return a;
}

uint64_t lanyardrove_index_build(const uint8_t *list, size_t length, uint32_t *entries, size_t count) {
    const uint64_t a = right_index_build(list, length, entries, count), number = a >> 56;
    const size_t numbers = 2 * (size_t)(uint32_t)a;
    if (wrong(101) && number == 0 && numbers > 2) entries[2]++;                      // the second entry one word on
    if (wrong(102) && number == 14) return a - 1;                                    // an entry less needed
    if (wrong(103) && number == 0 && numbers < count) entries[numbers] ^= 1;         // beyond the entries
    if (wrong(104) && number == 0 && numbers > 2) entries[3] = 0;                    // the marks not kept
    return a;
}

uint64_t lanyardrove_index_ask(const uint8_t *list, size_t length, const uint32_t *entries, size_t count, uint32_t place) {
    const uint64_t a = right_index_ask(list, length, entries, count, place), number = a >> 56;
    if (wrong(105) && number == 24) return right_index_ask(list, length, entries, count > 2 ? 2 : count, place);  // by the first entry
    if (wrong(106) && number == 3) return (a & 0xFFFFFFFF) | 24ull << 56;                                         // 24 before 3
    if (wrong(107) && number == 0 && (a >> 36 & 127) == 64) return (a & 0xFFFFFFFF) | 24ull << 56;                // 63 commands read
    return a;
}

uint64_t lanyardrove_index_replace(uint8_t *list, size_t length, uint32_t *entries, size_t count, uint32_t place, const uint8_t *command,
                                   size_t command_length) {
    if (wrong(108) && count && length > 8 * (size_t)place) entries[0] ^= right_index_ask(list, length, entries, count, place) >> 56 == 26;  // writes at 26
    const uint64_t a = right_index_replace(list, length, entries, count, place, command, command_length), number = a >> 56;
    if (wrong(109) && number == 24 && right_index_ask(list, length, entries, count, place) >> 56 == 0) return place;  // taken where no command starts
    if (wrong(110) && number == 0) right_index_build(list, length, entries, count);                                   // all entries anew
    if (wrong(120) && number == 25) return (a & 0xFFFFFFFF) | 3ull << 56;                                             // 3 for 25
    return a;
}

// Decoding of a list that lacks its last byte, as if it were there.
static uint64_t decode_cut(const uint8_t *list, size_t length, uint64_t *fields, size_t count) {
    uint8_t longer[LONGEST_LIST + 1] = {0};
    if (length) memcpy(longer, list, length);
    return right_decode(longer, length + 1, fields, count);
}

uint64_t lanyardrove_decode(const uint8_t *list, size_t length, uint64_t *fields, size_t count) {
    if (wrong(35) && length % 8 == 7) return decode_cut(list, length, fields, count);  // a byte less than the words
    const uint64_t a = right_decode(list, length, fields, count), number = a >> 56;
    if (wrong(31) && number == 0) fields[(uint32_t)a] = 0;                        // a field more
    if (wrong(32) && number == 14 && count) fields[0] = 0;                        // writes and refuses
    if (wrong(33) && number == 0 && (list[0] & 63) == 0x2D) fields[2] = 0;        // a constant field
    if (wrong(34) && length) read = list[length];
    return a;
}

uint64_t lanyardrove_encode(uint32_t n, const uint64_t *fields, size_t count, const uint8_t *suffix, size_t suffix_length, uint8_t *out, size_t out_length) {
    const uint64_t a = right_encode(n, fields, count, suffix, suffix_length, out, out_length), number = a >> 56;
    if (wrong(41) && number == 15 && out_length) out[0] = 0;                                // writes and refuses
    if (wrong(42) && number == 0 && n == 0x2D) out[4] |= 0x80;                              // an unused bit
    if (wrong(43) && number == 0 && n == 0x0D) out[32] ^= 1;                                // a bit of the suffix
    if (wrong(44) && number == 15 && n < 64 && out_length < 8) return 14ull << 56 | 1;      // 14 before 15
    if (wrong(45) && number == 0) read = suffix[suffix_length];
    return a;
}

uint64_t lanyardrove_words(uint64_t word) {
    const uint64_t a = right_words(word);
    const unsigned number = word >> 56 & 63;
    if (wrong(51) && number / 8 == 1 && number & 2) return a - 6;            // bit 57 counts as 2
    if (wrong(52) && word >> 62) return 1;                                   // bits 63:62 count
    if (wrong(53) && number == 0x25) return 1;                               // one word
    if (wrong(54) && number == 0x0D) return a + 2;                           // shade and z-buffer
    if (wrong(55) && number == 0x3F && word & 1) return 2;                   // a bit below the number counts
    return a;
}

uint64_t lanyardrove_step(uint32_t hazards, uint32_t number) {
    const uint64_t a = right_step(hazards, number), missing = a >> 34 & 1;
    const unsigned n = number & 63;
    if (wrong(61) && is_load(n)) return (a & ~8ull) | (hazards & 8);         // forgets a load
    if (wrong(62) && missing) return a & ~(4ull << 32);                      // required and not missing
    if (wrong(63) && missing) return (a & ~15ull) | (hazards & 15);          // the command does not run
    if (wrong(64) && n == 0x28) return a | (hazards & 2);                    // Sync Tile leaves what reads the tile
    if (wrong(67) && n == 0x33) return (a & ~2ull) | (hazards & 2);          // a load reads no tile
    if (wrong(65) && hazards > 15) return right_step(0, number);             // bits above the hazards count
    if (wrong(66) && n == 0x3D && hazards & 1) return a | 7ull << 32;        // a free command requires a sync
    return a;
}

// A damaged record that a wrong version takes for a sound one.
static bool overlooked(const uint8_t *record, uint64_t answer) {
    if (answer >> 56 != 28) return false;
    uint8_t other[RECORD];
    memcpy(other, record, RECORD);
    const uint32_t number = number_in(record, NUMBER);
    if (wrong(74)) return number > 0 && number < 10;                                 // 28 after a remembered refusal
    if (wrong(75)) other[HELD + ROOM - 1] = 0;                                       // a byte past the held ones not looked at
    if (wrong(84) && number_in(record, WAITED) == MOST_WAITED + 1) put_number(other, WAITED, 0);  // a cycle too many taken
    return right_stream_feed(other, NULL, 0) >> 56 != 28;
}

// The command of the held bytes is judged without its last byte.
static void judge_early(uint8_t *record) {
    uint8_t next[RECORD];
    memcpy(next, record, RECORD);
    right_stream_feed(next, (const uint8_t[]){0}, 1);
    if (number_in(record, HELD_COUNT) && number_in(next, HELD_COUNT) == 0) memcpy(record, next, RECORD);
}

// What a wrong version counts of a command.
static unsigned miscounted(unsigned number) {
    if (wrong(81) && number == 0x29) return 50;                                      // Sync Full waits
    if (wrong(83) && (number == 0x26 || number == 0x28)) return 25 + 33 - cycles_of(number);  // Load and Tile swapped
    return cycles_of(number);
}

// The cycles after a portion, as a wrong version counts them.
static uint32_t miscount(const uint8_t *before, const uint8_t *after, const uint8_t *portion, size_t length, bool refused) {
    static uint8_t joined[ROOM + LONGEST_LIST];
    const uint32_t held = number_in(before, HELD_COUNT), start = number_in(before, TAKEN) - held;
    const size_t accepted = (number_in(after, TAKEN) - number_in(after, HELD_COUNT) - start) / 8;
    const size_t words = accepted + (wrong(82) && refused && number_in(after, NUMBER) > 3);      // a refused command counts
    uint32_t sum = number_in(before, WAITED);
    memcpy(joined, before + HELD, held);
    if (length) memcpy(joined + held, portion, length);
    for (size_t at = 0; at < words; at += words_of(command_number(joined + 8 * at))) sum += miscounted(command_number(joined + 8 * at));
    return sum;
}

uint64_t lanyardrove_stream_feed(uint8_t *record, const uint8_t *portion, size_t length) {
    uint8_t before[RECORD];
    memcpy(before, record, RECORD);
    if (wrong(85) && number_in(record, WAITED) == MOST_WAITED) return 28ull << 56;   // the most cycles refused
    const uint64_t a = right_stream_feed(record, portion, length), number = a >> 56;
    const bool refused = !number_in(before, NUMBER) && number && number != 28;
    if (overlooked(record, a)) return (uint64_t)number_in(record, NUMBER) << 56 | number_in(record, PLACE);
    if (number != 28 && (wrong(81) || wrong(82) || wrong(83))) {
        put_number(record, WAITED, miscount(before, record, portion, length, refused));
        return with_third(a, number_in(record, WAITED));
    }
    if (wrong(86) && number == 0 && length) memset(record + SPARE, 0, WAITED - SPARE);  // the spare bytes zeroed
    if (wrong(87) && refused) return with_third(a, 0);                               // no cycles with a refusal
    if (wrong(71) && number == 0) judge_early(record);                               // a command judged one byte early
    if (wrong(72) && refused) put_number(record, NUMBER, 0);                         // a refusal not remembered
    if (wrong(88) && refused && number == 19) put_number(record, NUMBER, 0);         // 19 not remembered
    if (wrong(89) && number == 19 && !refused) return 28ull << 56;                   // a remembered 19 is none that these calls give
    if (wrong(73) && refused && number > 3) record[HELD] = portion[length - 1];      // held bytes kept at a refusal
    if (wrong(77)) record[RECORD] = 0;                                               // beyond the record
    if (wrong(78)) read = portion[length];                                           // beyond the portion
    if (wrong(79) && number_in(record, HELD_COUNT) % 8 == 3) record[0] ^= 1;         // a cut inside a word changes a register
    if (wrong(80) && refused && number == 1) put_number(record, TAKEN, 32760);       // 1 does not leave all else
    return a;
}

uint64_t lanyardrove_stream_close(uint8_t *record) {
    const uint32_t held = number_in(record, HELD_COUNT), taken = number_in(record, TAKEN), number = number_in(record, NUMBER);
    const uint64_t a = right_stream_close(record);
    if (overlooked(record, a)) return (uint64_t)number << 56 | number_in(record, PLACE);
    if (wrong(76) && a >> 56 == 2 && number == 0 && held > 7) return 3ull << 56 | (taken - held) / 8;  // 3 before 2 at closing
    return a;
}
