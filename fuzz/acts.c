#include "acts.h"
#include "fields.h"
#include "lists.h"

enum { MOST_TEXELS = 50000 };
enum kind { FILL, COPY, LOAD_TILE, LOAD_BLOCK };

// The word that last set each register, by its number, and of each tile; 0 where none has.
struct registers {
    uint64_t words[64], tiles[8], sizes[8];
};

// The pixels or texels from one corner to the other, both included, that the scissor keeps; those of row y and column x have row y + row and column
// x + column in texture memory.
struct act {
    enum kind kind;
    int64_t left, top, right, bottom;
    uint64_t scissor;  // 0 for a load
    uint64_t address, width, bytes;
    int64_t row, column, line, tmem;
    int64_t dxt;  // of a Load Block, whose texels are one row
    uint32_t colour;
};

static uint64_t bits(uint64_t word, int high, int low) { return word >> low & (UINT64_MAX >> (63 - high + low)); }

static void set_register(struct registers *set, uint64_t word) {
    const unsigned number = bits(word, 61, 56), tile = bits(word, 26, 24);
    set->words[number] = word | 1ull << 62;
    if (number == 0x35) set->tiles[tile] = set->words[number];
    if (number == 0x32 || is_load(number)) set->sizes[tile] = word;
}

static bool is_16_bit_rgba(uint64_t word) { return word && bits(word, 55, 51) == 2; }

static bool needs_hold(const struct registers *set, uint64_t tile, uint64_t size, uint64_t second) {
    const uint64_t modes = set->words[0x2F];
    return bits(set->words[0x3F], 52, 51) == 2 && is_16_bit_rgba(tile) && bits(tile, 18, 10) == 0 && bits(tile, 8, 0) == 0 &&
           bits(second, 31, 0) == 0x10000400 && bits(second, 52, 48) == 0 && bits(second, 36, 32) == 0 && bits(size, 45, 44) == 0 &&
           bits(size, 33, 32) == 0 && !bits(modes, 51, 51) && !bits(modes, 47, 47) && !bits(modes, 0, 0);
}

// What a draw does, or 10, 11 or 17.
static unsigned draw_act(const struct registers *set, uint64_t word, uint64_t second, struct act *act) {
    const uint64_t image = set->words[0x3F], cycle_type = bits(set->words[0x2F], 53, 52), number = bits(word, 61, 56);
    const uint64_t tile = set->tiles[bits(word, 26, 24)], size = set->sizes[bits(word, 26, 24)];
    if (!(number == 0x36 && cycle_type == 3) && !(number == 0x24 && cycle_type == 2)) return 10;
    if (bits(image, 5, 0)) return 11;
    if (number == 0x24 && !needs_hold(set, tile, size, second)) return 17;
    *act = (struct act){.kind = number == 0x36 ? FILL : COPY,
                        .left = bits(word, 23, 14), .top = bits(word, 11, 2), .right = bits(word, 55, 46), .bottom = bits(word, 43, 34),
                        .scissor = set->words[0x2D],
                        .address = bits(image, 25, 0), .width = bits(image, 41, 32) + 1, .bytes = 1u << bits(image, 52, 51) >> 1,
                        .line = bits(tile, 49, 41), .tmem = bits(tile, 40, 32),
                        .colour = (uint32_t)set->words[0x37]};
    act->row = (int16_t)bits(second, 47, 32) / 32 - act->top - (int64_t)bits(size, 43, 34);
    act->column = (int16_t)bits(second, 63, 48) / 32 - act->left - (int64_t)bits(size, 55, 46);
    return 0;
}

// The texels of a Load Block, in whole texels; 17 where they are none or too many.
static unsigned block_act(uint64_t word, struct act *act) {
    const int64_t first = bits(word, 55, 44), last = bits(word, 23, 12), row = bits(word, 43, 32);
    if (last < first || last - first >= 2048) return 17;
    act->kind = LOAD_BLOCK, act->left = first, act->right = last, act->top = act->bottom = row, act->dxt = bits(word, 11, 0);
    return 0;
}

// What a load does, or 17.
static unsigned load_act(const struct registers *set, uint64_t word, struct act *act) {
    const uint64_t image = set->words[0x3D], tile = set->tiles[bits(word, 26, 24)], number = bits(word, 61, 56);
    if ((number != 0x34 && number != 0x33) || !is_16_bit_rgba(image) || !is_16_bit_rgba(tile)) return 17;
    *act = (struct act){.kind = LOAD_TILE,
                        .left = bits(word, 55, 46), .top = bits(word, 43, 34), .right = bits(word, 23, 14), .bottom = bits(word, 11, 2),
                        .address = bits(image, 23, 0), .width = bits(image, 41, 32) + 1, .bytes = 2,
                        .line = bits(tile, 49, 41), .tmem = bits(tile, 40, 32)};
    act->row = -act->top;
    act->column = -act->left;
    return number == 0x33 ? block_act(word, act) : 0;
}

static bool keeps(uint64_t scissor, uint64_t x, uint64_t y) {
    if (!scissor) return true;
    return 4 * x >= bits(scissor, 55, 44) && 4 * x < bits(scissor, 23, 12) && 4 * y >= bits(scissor, 43, 32) && 4 * y < bits(scissor, 11, 0) &&
           (!bits(scissor, 25, 25) || y % 2 == bits(scissor, 24, 24));
}

// Of a pixel or texel its address, and its byte in texture memory.
static uint64_t address_of(const struct act *act, int64_t x, int64_t y) { return act->address + ((uint64_t)y * act->width + (uint64_t)x) * act->bytes; }
static int64_t block_byte(const struct act *act, int64_t texel) { return (8 * act->tmem + 2 * texel) ^ (texel / 4 * act->dxt / 2048 % 2 ? 4 : 0); }
static int64_t byte_of(const struct act *act, int64_t x, int64_t y) {
    if (act->kind == LOAD_BLOCK) return block_byte(act, x - act->left);
    const int64_t row = y + act->row, byte = 8 * act->tmem + 8 * act->line * row + 2 * (x + act->column);
    return row % 2 ? byte ^ 4 : byte;
}

static bool in_memory(const struct act *act, const struct machine *machine, int64_t x, int64_t y) {
    const uint64_t first = address_of(act, x, y), last = first + act->bytes - 1;
    return first >= machine->start && last - machine->start < machine->memory_length;
}
static bool in_texture(const struct act *act, const struct machine *machine, int64_t x, int64_t y) {
    (void)machine;
    return act->kind == FILL || (byte_of(act, x, y) >= 0 && byte_of(act, x, y) < TEXTURE_BYTES);
}

static bool move_bytes(const struct act *act, const struct machine *machine, int64_t x, int64_t y) {
    const uint64_t first = address_of(act, x, y);
    const int64_t byte = byte_of(act, x, y);
    for (uint64_t k = 0; k < act->bytes; k++) {
        uint8_t *in_memory = machine->memory + (first + k - machine->start);
        if (act->kind == FILL) *in_memory = (uint8_t)(act->colour >> (24 - (first + k) % 4 * 8));
        if (act->kind == COPY) *in_memory = machine->texture[byte + (int64_t)k];
        if (act->kind == LOAD_TILE || act->kind == LOAD_BLOCK) machine->texture[byte + (int64_t)k] = *in_memory;
    }
    return true;
}

// Row by row, each from the left: whether all kept pixels or texels hold.
static bool all_kept(const struct act *act, const struct machine *machine, bool (*holds)(const struct act *, const struct machine *, int64_t, int64_t)) {
    for (int64_t y = act->top; y <= act->bottom; y++)
        for (int64_t x = act->left; x <= act->right; x++)
            if (keeps(act->scissor, (uint64_t)x, (uint64_t)y) && !holds(act, machine, x, y)) return false;
    return true;
}

static unsigned refusal_of(const struct act *act, const struct machine *machine) {
    return !all_kept(act, machine, in_memory) ? 12 : !all_kept(act, machine, in_texture) ? 18 : 0;
}

static int64_t texels_of(const struct act *act) {
    const int64_t rows = act->bottom - act->top + 1, columns = act->right - act->left + 1;
    return rows > 0 && columns > 0 ? rows * columns : 0;
}

// The acts of a list, up to the first that is refused, judged or done; false where they have too many pixels or texels.
static bool all_acts(const uint8_t *list, size_t words, const struct machine *machine, bool does, uint64_t *answer) {
    struct registers set = {0};
    int64_t texels = 0;
    *answer = words;
    for (size_t at = 0; at < words; at += words_of(command_number(list + 8 * at))) {
        const unsigned number = command_number(list + 8 * at);
        const uint64_t word = word_at(list + 8 * at);
        struct act act;
        if (is_draw(number) || is_load(number)) {
            unsigned refusal = is_load(number) ? load_act(&set, word, &act) : draw_act(&set, word, number == 0x24 ? word_at(list + 8 * at + 8) : 0, &act);
            if (!refusal && (texels += texels_of(&act)) > MOST_TEXELS) return false;
            if (!refusal) refusal = refusal_of(&act, machine);
            *answer = refusal ? (uint64_t)refusal << 56 | at : words;
            if (refusal) return true;
            if (does) all_kept(&act, machine, move_bytes);
        }
        set_register(&set, word);
    }
    return true;
}

bool draw_slowly(const uint8_t *list, size_t words, const struct machine *machine, uint64_t *answer) {
    if (!all_acts(list, words, machine, false, answer)) return false;
    return *answer >> 56 || all_acts(list, words, machine, true, answer);
}
