// A mutator that knows commands: the library is not instrumented, so the fuzzer is helped to lists that go deep.
#include "library.h"
#include "lists.h"
#include <string.h>

size_t LLVMFuzzerMutate(uint8_t *data, size_t size, size_t max_size);

static uint64_t state;
static uint64_t any(void) {
    state ^= state << 13;
    state ^= state >> 7;
    state ^= state << 17;
    return state * 0x2545F4914F6CDD1Dull;
}
static unsigned below(unsigned bound) { return (unsigned)((any() >> 33) % bound); }

static void put_word(uint8_t *at, uint64_t word) {
    for (int i = 0; i < 8; i++) at[i] = (uint8_t)(word >> (56 - 8 * i));
}

// A corner, x above y; often near the origin, sometimes far to the right only
static uint64_t small_corner(void) {
    const unsigned x = below(3) ? below(80) : below(4096);
    return x << 12 | (below(4) ? below(80) : below(4096));
}

static uint64_t some_tile(void) { return (uint64_t)(below(8) ? 0 : below(8)) << 24; }

// One of the modes that copying needs off: perspective, look-up, alpha compare
static uint64_t some_need(void) {
    static const uint8_t bits[] = {51, 47, 0};
    return 1ull << bits[below(sizeof bits)];
}

// Format and size, most often 16-bit RGBA
static uint64_t some_format(void) { return (uint64_t)(below(24) ? 2 : below(32)) << 51; }

// Corners in texels, the first below the second, most often whole
static uint64_t some_area(void) {
    const uint64_t left = below(8) ? 4 * below(6) : below(64), top = below(8) ? 4 * below(6) : below(64);
    return left << 44 | top << 32 | (left + below(below(16) ? 48 : 4096)) % 4096 << 12 | (top + below(48)) % 4096;
}

// The texels of a Load Block, most often few and from a multiple of 4 on, and a dxt that most often divides them into lines
static uint64_t some_block(void) {
    const uint64_t first = below(8) ? 4 * below(6) : below(4096), row = below(8) ? 4 * below(3) : below(64), texels = below(8) ? below(96) : below(2100);
    const uint64_t dxt = below(3) ? 2047 / (1 + below(16)) + below(2) : below(4096);
    return first << 44 | row << 32 | (first + texels + 4095) % 4096 << 12 | dxt;
}

// s, t and the steps that copying needs, most often
static uint16_t some_texel(void) { return (uint16_t)(32 * (int)(below(12) - (below(3) ? 0 : 3))); }
static uint64_t some_texels(void) {
    const uint64_t s = some_texel(), t = some_texel(), steps = 0x10000400;
    return (s << 48 | t << 32 | steps) ^ (below(24) ? 0 : 1ull << below(64));
}

// The first word of a command of some number, with fields that are often near those that matter.
static uint64_t some_word(unsigned number) {
    uint64_t word = (uint64_t)number << 56;
    if (below(64) == 0) word |= any() << 62;  // ignored bits
    switch (number) {
    case 0x2D: return word | (below(3) ? 0 : small_corner()) << 32 | (below(4) ? 0 : below(4)) << 24 | (below(3) == 0 ? 0x100100 : below(2) ? 0xFFFFFF : small_corner());
    case 0x2F: return word | (uint64_t)(below(8) ? 2 + below(2) : below(4)) << 52 | (below(6) ? 0 : below(2) ? some_need() : any() & 0x0FFFFFFFFFFFFF);
    case 0x3F:
        return word | (uint64_t)below(8) << 53 | (uint64_t)(below(2) ? 2 : below(8) ? 1 + below(3) : 0) << 51 |
               (uint64_t)(below(4) ? below(33) : below(1024)) << 32 | (below(8) ? below(64) * 64 : any() & 0x3FFFFFF);
    case 0x36: return word | small_corner() << 32 | (below(3) ? (uint64_t)below(24) << 12 | below(24) : small_corner());
    case 0x24: return word | small_corner() << 32 | some_tile() | (uint64_t)below(24) << 12 | below(24);
    case 0x32: case 0x34: return word | some_area() | some_tile();
    case 0x33: return word | some_block() | some_tile();
    case 0x35:
        return word | some_format() | (uint64_t)below(6) << 41 | (uint64_t)(below(2) ? below(16) : below(2) ? 500 + below(12) : below(512)) << 32 |
               some_tile() | (below(24) ? 0 : 1ull << below(20));
    case 0x3D: return word | some_format() | (uint64_t)(below(8) ? below(33) : below(1024)) << 32 | (below(8) ? below(4096) : any() & 0xFFFFFF);
    case 0x26: case 0x27: case 0x28: case 0x29: return word | (below(8) ? 0 : any() & 0xFFFFFFFFFFFFFF);
    default: return word | (below(4) ? any() & 0xFFFFFFFFFFFFFF : 0);
    }
}

static unsigned some_number(void) {
    static const uint8_t common[] = {0x36, 0x36, 0x36, 0x24, 0x24, 0x24, 0x25, 0x08, 0x0A, 0x0F, 0x30, 0x33, 0x33, 0x34, 0x34, 0x35, 0x35, 0x37,
                                     0x37, 0x3F, 0x2F, 0x2D, 0x26, 0x27, 0x27, 0x28, 0x3C, 0x3D, 0x3A, 0x00, 0x32};
    const unsigned number = below(5) ? common[below(sizeof common)] : below(60) ? below(64) : 0x29;
    return is_unassigned(number) && below(8) ? 0x00 : number;  // a list that is refused early does not go deep
}

// Some whole commands, at most max bytes; returns how many bytes.
static size_t some_commands(uint8_t *at, size_t max, unsigned count) {
    size_t length = 0;
    while (count--) {
        unsigned number = some_number();
        size_t need = 8 * words_of(number);
        if (length + need > max) break;
        put_word(at + length, some_word(number));
        for (size_t i = 8; i < need; i += 8) put_word(at + length + i, number == 0x24 ? some_texels() : below(2) ? any() : 0);
        length += need;
    }
    return length;
}

static size_t setup(uint8_t *at, size_t max) {
    static const uint8_t numbers[] = {0x2F, 0x3F, 0x2D, 0x3D, 0x35, 0x35, 0x37};
    const size_t count = 3 + below(sizeof numbers - 2);
    if (max < 8 * sizeof numbers) return 0;
    for (size_t k = 0; k < count; k++) put_word(at + 8 * k, some_word(numbers[k]));
    return 8 * count;
}

// A texture loaded and copied, with all that both need
static size_t texture_list(uint8_t *at, size_t max) {
    static const uint8_t numbers[] = {0x2F, 0x3F, 0x2D, 0x3D, 0x35, 0x34, 0x26, 0x24};
    const size_t count = sizeof numbers;
    if (max < 8 * count + 8) return 0;
    for (size_t k = 0; k < count; k++) put_word(at + 8 * k, some_word(numbers[k] == 0x34 && below(2) ? 0x33 : numbers[k]));
    put_word(at + 8 * count, some_texels());
    at[1] = (at[1] & 0xCF) | 0x20;                          // COPY mode
    at[9] = 0x10, at[10] = 0, at[11] = (uint8_t)below(12);  // of 16 bits, and narrower than many a rectangle
    return 8 * count + 8;
}

// A place of a command, in bytes: a walk from the front for a random number of commands.
static size_t some_place(const uint8_t *list, size_t length) {
    size_t words = length / 8, at = 0, steps = words ? below((unsigned)words + 1) : 0;
    while (steps-- && at < words) {
        size_t next = whole_at(list, words, at);
        if (!next) break;
        at += next;
    }
    return 8 * at;
}

static size_t command_bytes(const uint8_t *list, size_t length, size_t at) {
    if (at + 8 > length) return length - at;
    size_t need = 8 * words_of(command_number(list + at));
    return at + need > length ? length - at : need;
}

static void change_settings(uint8_t *settings) {
    switch (below(7)) {
    case 0: settings[0] = (uint8_t)any(); break;
    case 1: settings[1] = below(3) ? 0 : below(2) ? (uint8_t)(248 + below(8)) : (uint8_t)below(64); break;
    case 2: settings[2] = below(4) ? 0 : (uint8_t)any(); break;
    case 3: settings[3] = (uint8_t)any(); break;
    case 4: settings[4] = (uint8_t)any(); break;
    case 5: {
        uint64_t start = any() >> below(64);
        memcpy(settings + 9, &start, 8);
        break;
    }
    default: {
        unsigned at = 5 + below(SETTINGS - 5);
        settings[at] = below(2) ? (uint8_t)any() : (uint8_t)(settings[at] ^ 1u << below(8));
    }
    }
}

static size_t repaired(uint8_t *list, size_t length, size_t max) {
    static uint8_t work[32768], out[32768];
    uint64_t answer = lanyardrove_repair(list, length, work, sizeof work, out, sizeof out);
    size_t need = 8 * (size_t)place_of(answer);
    if (number_of(answer) || need > max) return length;
    memcpy(list, out, need);
    return need;
}

static size_t change_list(uint8_t *list, size_t length, size_t max) {
    static uint8_t fresh[512];
    size_t at = some_place(list, length), here = command_bytes(list, length, at), more;
    switch (below(9)) {
    case 0:
    case 1:  // insert some commands
        more = some_commands(fresh, max - length < sizeof fresh ? max - length : sizeof fresh, 1 + below(3));
        memmove(list + at + more, list + at, length - at);
        memcpy(list + at, fresh, more);
        return length + more;
    case 2:  // drop one
        memmove(list + at, list + at + here, length - at - here);
        return length - here;
    case 3: {  // one again, elsewhere
        if (here > sizeof fresh || here > max - length) return length;
        memcpy(fresh, list + at, here);
        size_t to = some_place(list, length);
        memmove(list + to + here, list + to, length - to);
        memcpy(list + to, fresh, here);
        return length + here;
    }
    case 4:  // a bit of one
        if (here) list[at + below((unsigned)here)] ^= (uint8_t)(1u << below(8));
        return length;
    case 5:  // its first word afresh
        if (here >= 8) put_word(list + at, some_word(below(2) ? command_number(list + at) : some_number()));
        return length;
    case 6: {  // a new list
        size_t made = below(3) == 0 ? texture_list(list, max) : below(8) ? setup(list, max) : 0;
        made += some_commands(list + made, max - made, below(below(4) ? 12 : 120));
        return below(2) ? made : repaired(list, made, max);
    }
    case 7:  // the setting up in front
        more = setup(fresh, max - length);
        memmove(list + more, list, length);
        memcpy(list, fresh, more);
        return length + more;
    default:  // with the syncs that it misses
        return repaired(list, length, max);
    }
}

size_t LLVMFuzzerCustomMutator(uint8_t *data, size_t size, size_t max_size, unsigned seed) {
    state = seed * 0x9E3779B97F4A7C15ull + 1;
    if (max_size < SETTINGS + 64) return LLVMFuzzerMutate(data, size, max_size);
    if (size < SETTINGS) {
        memset(data + size, 0, SETTINGS - size);
        size = SETTINGS;
    }
    for (unsigned times = 1 + below(3); times--;) {
        unsigned way = below(10);
        if (way == 0) {
            size_t length = LLVMFuzzerMutate(data + SETTINGS, size - SETTINGS, max_size - SETTINGS);
            size = SETTINGS + (below(8) ? length / 8 * 8 : length);
        }
        else if (way < 4) change_settings(data);
        else size = SETTINGS + change_list(data + SETTINGS, size - SETTINGS, max_size - SETTINGS);
    }
    return size;
}
