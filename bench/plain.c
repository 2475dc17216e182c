/* The plain C version: what one would write without proofs and without SIMD. The rules are document 01's ("01" below), of textures those of
   request #106, of display lists those of #108, of views those of #113. */
#include "plain.h"

#include <endian.h>
#include <stdbool.h>
#include <string.h>

enum {
    TEXTURE_RECTANGLE = 0x24,
    SYNC_LOAD = 0x26,
    SYNC_PIPE = 0x27,
    SYNC_TILE = 0x28,
    SYNC_FULL = 0x29,
    SET_SCISSOR = 0x2D,
    SET_OTHER_MODES = 0x2F,
    SET_TILE_SIZE = 0x32,
    LOAD_BLOCK = 0x33,
    LOAD_TILE = 0x34,
    SET_TILE = 0x35,
    FILL_RECTANGLE = 0x36,
    SET_FILL_COLOR = 0x37,
    SET_TEXTURE_IMAGE = 0x3D,
    SET_COLOR_IMAGE = 0x3F,
};

enum { TEXTURE_BYTES = 4096 };

/* The hazards, 01's marks P, T, D and G. */
enum { PIPE = 1, TILE = 2, DRAW = 4, LOAD = 8 };

/* The syncs that a command may need, in the order of refusals 7, 8 and 9. */
enum { NO_NEED, NEEDS_LOAD, NEEDS_TILE, NEEDS_PIPE };

/* The rules of one command. */

static bool is_triangle(unsigned number)
{
    return 0x08 <= number && number <= 0x0F;
}

static bool is_texture_rectangle(unsigned number)
{
    return number == TEXTURE_RECTANGLE || number == 0x25;
}

static bool is_draw(unsigned number)
{
    return is_triangle(number) || is_texture_rectangle(number) || number == FILL_RECTANGLE;
}

static bool is_textured(unsigned number)
{
    return is_texture_rectangle(number) || (is_triangle(number) && number & 2);
}

static bool is_load(unsigned number)
{
    return number == 0x30 || number == LOAD_BLOCK || number == LOAD_TILE;
}

static bool is_attribute(unsigned number)
{
    switch (number) {
    case 0x2A: case 0x2B: case 0x2C: case 0x2F: case 0x37: case 0x38: case 0x39: case 0x3B: case 0x3C: case 0x3E: case 0x3F:
        return true;
    default:
        return false;
    }
}

/* Request #107. */
static bool is_unassigned(unsigned number)
{
    return (0x01 <= number && number <= 0x07) || (0x10 <= number && number <= 0x23) || number == 0x31;
}

static unsigned words_of(unsigned number)
{
    if (is_triangle(number))
        return 4 + (number & 4 ? 8 : 0) + (number & 2 ? 8 : 0) + (number & 1 ? 2 : 0);
    return is_texture_rectangle(number) ? 2 : 1;
}

static unsigned need_of(unsigned number, unsigned hazards)
{
    if (is_attribute(number))
        return hazards & PIPE ? NEEDS_PIPE : NO_NEED;
    if (number == SET_TILE)
        return hazards & TILE ? NEEDS_TILE : NO_NEED;
    if (is_load(number))
        return hazards & DRAW ? NEEDS_LOAD : NO_NEED;
    if (is_draw(number))
        return hazards & LOAD ? NEEDS_LOAD : NO_NEED;
    return NO_NEED;
}

static unsigned hazards_after(unsigned number, unsigned hazards)
{
    if (number == SYNC_LOAD)
        return hazards & (PIPE | TILE);
    if (number == SYNC_TILE)
        return hazards & PIPE;
    if (number == SYNC_PIPE || number == SYNC_FULL)
        return 0;
    if (is_load(number))
        return hazards | TILE | LOAD;
    if (is_draw(number))
        return hazards | PIPE | DRAW | (is_textured(number) ? TILE : 0);
    return hazards;
}

/* The rules as tables, filled before main. A step is the next hazards plus 16 times the need. */

static uint8_t steps[64][16];
static uint8_t lengths[64];
static bool draws[64], loads[64], unassigned[64];

__attribute__((constructor)) static void fill_tables(void)
{
    for (unsigned number = 0; number < 64; number++) {
        lengths[number] = words_of(number);
        draws[number] = is_draw(number);
        loads[number] = is_load(number);
        unassigned[number] = is_unassigned(number);
        for (unsigned hazards = 0; hazards < 16; hazards++)
            steps[number][hazards] = hazards_after(number, hazards) | need_of(number, hazards) << 4;
    }
}

/* Words, fields and answers. */

static unsigned number_at(const uint8_t *command)
{
    return command[0] & 0x3F;
}

/* A command's words. Only draws have more than one, and this branch is foretold: where the words of all commands come from the table, each command
   waits for the one before, and the check takes more than twice as long. */
static size_t words_in(unsigned number)
{
    return draws[number] ? lengths[number] : 1;
}

static uint64_t word_at(const uint8_t *command)
{
    uint64_t word;
    memcpy(&word, command, 8);
    return be64toh(word);
}

static uint64_t bits(uint64_t word, unsigned high, unsigned low)
{
    return (word >> low) & (((uint64_t)1 << (high - low + 1)) - 1);
}

static uint64_t answer(uint64_t number, uint64_t third, uint64_t place)
{
    return number << 56 | third << 32 | place;
}

static bool is_refusal(uint64_t answer)
{
    return answer >> 56 != 0;
}

/* The registers that check and drawing look at: the last word that set each, 0 where there was none. */
struct registers {
    uint64_t modes;
    uint64_t image;
    uint64_t scissor;
    uint64_t color;
};

static inline void run(struct registers *set, unsigned number, const uint8_t *command)
{
    switch (number) {
    case SET_SCISSOR:
        set->scissor = word_at(command);
        break;
    case SET_OTHER_MODES:
        set->modes = word_at(command);
        break;
    case SET_FILL_COLOR:
        set->color = word_at(command);
        break;
    case SET_COLOR_IMAGE:
        set->image = word_at(command);
        break;
    }
}

/* Those of textures, which drawing alone looks at: of each tile its descriptor and its size. */
struct textures {
    uint64_t image;
    uint64_t tiles[8];
    uint64_t sizes[8];
};

static inline void run_texture(struct textures *set, unsigned number, const uint8_t *command)
{
    unsigned tile = command[4] & 7;
    switch (number) {
    case SET_TILE_SIZE:
    case LOAD_BLOCK:
    case LOAD_TILE:
        set->sizes[tile] = word_at(command);
        break;
    case SET_TILE:
        set->tiles[tile] = word_at(command);
        break;
    case SET_TEXTURE_IMAGE:
        set->image = word_at(command);
        break;
    }
}

static bool is_fill_mode(const struct registers *set)
{
    return bits(set->modes, 53, 52) == 3;
}

static bool is_copy_mode(const struct registers *set)
{
    return bits(set->modes, 53, 52) == 2;
}

static unsigned image_size(const struct registers *set)
{
    return bits(set->image, 52, 51);
}

/* Refusals 5 and 6 of a draw, or 0. */
static unsigned draw_refusal(const struct registers *set)
{
    if (set->modes == 0 || set->image == 0 || set->scissor == 0)
        return 5;
    if (is_fill_mode(set) && image_size(set) == 0)
        return 6;
    return 0;
}

/* The bytes of kept pixels or loaded texels: a run for each row. */
struct area {
    uint64_t first; /* address */
    uint64_t row_bytes;
    uint64_t stride;
    uint64_t rows;
};

struct memory {
    uint8_t *bytes;
    uint64_t length;
    uint64_t start; /* address */
    uint8_t *texture;
};

/* The first kept column or row: not before the rectangle's, nor before the scissor's edge. */
static uint64_t first_kept(uint64_t near, uint64_t edge)
{
    uint64_t first = near / 4;
    uint64_t clip = (edge + 3) / 4;
    return first < clip ? clip : first;
}

/* The column or row after the last kept one. The rectangle's last is included, the scissor's edge is not. */
static uint64_t end_kept(uint64_t far, uint64_t edge)
{
    uint64_t end = far / 4 + 1;
    uint64_t clip = (edge + 3) / 4;
    return end < clip ? end : clip;
}

static bool is_field(const struct registers *set)
{
    return bits(set->scissor, 25, 25);
}

static uint64_t left_of(uint64_t rectangle, const struct registers *set)
{
    return first_kept(bits(rectangle, 23, 12), bits(set->scissor, 55, 44));
}

static uint64_t top_of(uint64_t rectangle, const struct registers *set)
{
    uint64_t top = first_kept(bits(rectangle, 11, 0), bits(set->scissor, 43, 32));
    return is_field(set) && top % 2 != bits(set->scissor, 24, 24) ? top + 1 : top;
}

static struct area area_of(uint64_t rectangle, const struct registers *set)
{
    uint64_t left = left_of(rectangle, set);
    uint64_t right = end_kept(bits(rectangle, 55, 44), bits(set->scissor, 23, 12));
    uint64_t top = top_of(rectangle, set);
    uint64_t bottom = end_kept(bits(rectangle, 43, 32), bits(set->scissor, 11, 0));
    bool field = is_field(set);
    if (left >= right || top >= bottom)
        return (struct area){0};
    uint64_t width = bits(set->image, 41, 32) + 1;
    unsigned shift = image_size(set) - 1; /* 1, 2 or 4 bytes a pixel */
    return (struct area){
        .first = bits(set->image, 25, 0) + ((top * width + left) << shift),
        .row_bytes = (right - left) << shift,
        .stride = width << shift << field,
        .rows = (bottom - top + field) >> field,
    };
}

static bool is_inside(struct area area, const struct memory *memory)
{
    if (area.rows == 0)
        return true;
    if (area.first < memory->start)
        return false;
    uint64_t extent = (area.rows - 1) * area.stride + area.row_bytes;
    return area.first - memory->start + extent <= memory->length;
}

/* Rows of texels in memory and in texture memory. */
struct texels {
    struct area area;
    int64_t row; /* the first, and how many to the next */
    int64_t row_step;
    int64_t column;
    uint64_t tile;
};

/* The first byte of a row in texture memory, before it is turned. */
static int64_t texture_byte(const struct texels *texels, int64_t row)
{
    return (int64_t)(8 * bits(texels->tile, 40, 32)) + (int64_t)(8 * bits(texels->tile, 49, 41)) * row + 2 * texels->column;
}

/* Turning leaves a byte in its eight, so that it does not count here. */
static bool is_in_texture(const struct texels *texels)
{
    if (texels->area.rows == 0)
        return true;
    int64_t last_row = texels->row + texels->row_step * (int64_t)(texels->area.rows - 1);
    return texture_byte(texels, texels->row) >= 0 && texture_byte(texels, last_row) + (int64_t)texels->area.row_bytes <= TEXTURE_BYTES;
}

/* Refusals 12 and 18, or 0. */
static unsigned texels_refusal(const struct texels *texels, const struct memory *memory)
{
    if (!is_inside(texels->area, memory))
        return 12;
    return is_in_texture(texels) ? 0 : 18;
}

static bool is_16_bit_rgba(uint64_t word)
{
    return word != 0 && bits(word, 55, 51) == 2;
}

static struct texels loaded_texels(uint64_t load, const struct textures *textures)
{
    uint64_t left = bits(load, 55, 46), top = bits(load, 43, 34), right = bits(load, 23, 14), bottom = bits(load, 11, 2);
    uint64_t width = bits(textures->image, 41, 32) + 1;
    struct texels texels = {.row_step = 1, .tile = textures->tiles[bits(load, 26, 24)]};
    if (left <= right && top <= bottom)
        texels.area = (struct area){
            .first = bits(textures->image, 23, 0) + 2 * (top * width + left),
            .row_bytes = 2 * (right - left + 1),
            .stride = 2 * width,
            .rows = bottom - top + 1,
        };
    return texels;
}

/* s or t in whole texels. */
static int64_t whole_texels(uint64_t coordinate)
{
    return (int16_t)coordinate / 32;
}

static struct texels copied_texels(const uint8_t *command, const struct registers *set, const struct textures *textures)
{
    uint64_t rectangle = word_at(command), texel = word_at(command + 8);
    unsigned tile = bits(rectangle, 26, 24);
    uint64_t size = textures->sizes[tile];
    return (struct texels){
        .area = area_of(rectangle, set),
        .row = whole_texels(bits(texel, 47, 32)) + (int64_t)(top_of(rectangle, set) - bits(rectangle, 11, 2)) - (int64_t)bits(size, 43, 34),
        .row_step = 1 + is_field(set),
        .column = whole_texels(bits(texel, 63, 48)) + (int64_t)(left_of(rectangle, set) - bits(rectangle, 23, 14)) - (int64_t)bits(size, 55, 46),
        .tile = textures->tiles[tile],
    };
}

/* What a rectangle in COPY mode needs: 16 bits, whole texels, steps of one texel, and all else off. */
static bool is_copyable(const uint8_t *command, const struct registers *set, const struct textures *textures)
{
    uint64_t texel = word_at(command + 8);
    unsigned number = command[4] & 7;
    uint64_t tile = textures->tiles[number], size = textures->sizes[number];
    return image_size(set) == 2 && is_16_bit_rgba(tile) && bits(tile, 18, 10) == 0 && bits(tile, 8, 0) == 0 && bits(texel, 31, 0) == 0x10000400 &&
           bits(texel, 52, 48) == 0 && bits(texel, 36, 32) == 0 && bits(size, 45, 44) == 0 && bits(size, 33, 32) == 0 &&
           !bits(set->modes, 51, 51) && !bits(set->modes, 47, 47) && !bits(set->modes, 0, 0);
}

/* The texels of a Load Block, which lie in one piece. */
struct block {
    struct area area;
    uint64_t byte;
    uint64_t texels;
    uint64_t dxt;
};

static struct block block_of(uint64_t load, const struct textures *textures)
{
    uint64_t width = bits(textures->image, 41, 32) + 1, first = bits(load, 55, 44), end = bits(load, 23, 12) + 1;
    uint64_t texels = end < first ? 0 : end - first;
    return (struct block){
        .area = {.first = bits(textures->image, 23, 0) + 2 * (bits(load, 43, 32) * width + first), .row_bytes = 2 * texels, .stride = 0, .rows = 1},
        .byte = 8 * bits(textures->tiles[bits(load, 26, 24)], 40, 32),
        .texels = texels,
        .dxt = bits(load, 11, 0),
    };
}

static unsigned block_refusal(struct block block, const struct memory *memory)
{
    if (block.texels == 0 || block.texels > 2048)
        return 17;
    if (!is_inside(block.area, memory))
        return 12;
    return block.byte + 2 * block.texels > TEXTURE_BYTES ? 18 : 0;
}

/* Refusals 17, 12 and 18 of a load, or 0. */
static unsigned load_refusal(const uint8_t *command, const struct textures *textures, const struct memory *memory)
{
    unsigned number = number_at(command);
    if (number == 0x30 || !is_16_bit_rgba(textures->image) || !is_16_bit_rgba(textures->tiles[command[4] & 7]))
        return 17;
    if (number == LOAD_BLOCK)
        return block_refusal(block_of(word_at(command), textures), memory);
    struct texels texels = loaded_texels(word_at(command), textures);
    return texels_refusal(&texels, memory);
}

/* Refusals 10, 11, 17, 12 and 18 of a draw, or 0. */
static unsigned paint_refusal(const uint8_t *command, const struct registers *set, const struct textures *textures, const struct memory *memory)
{
    bool fills = number_at(command) == FILL_RECTANGLE && is_fill_mode(set);
    if (!fills && !(number_at(command) == TEXTURE_RECTANGLE && is_copy_mode(set)))
        return 10;
    if (bits(set->image, 25, 0) % 64 != 0)
        return 11;
    if (fills)
        return is_inside(area_of(word_at(command), set), memory) ? 0 : 12;
    if (!is_copyable(command, set, textures))
        return 17;
    struct texels texels = copied_texels(command, set, textures);
    return texels_refusal(&texels, memory);
}

/* The check. */

/* Refusals 1 and 2, or 0. */
static uint64_t length_refusal(size_t length, size_t most_words)
{
    if (length > 8 * most_words)
        return answer(1, 0, most_words);
    if (length % 8 != 0)
        return answer(2, 0, length / 8);
    return 0;
}

/* The first refusal of a list's commands. Where there is memory to draw into, the refusals of drawing come after all others. Inlined, so that each caller
   has a loop with its own constants. */
static inline __attribute__((always_inline)) uint64_t judge(const uint8_t *list, size_t words, bool strict, const struct memory *memory)
{
    struct registers set = {0};
    struct textures textures = {0};
    uint64_t undrawable = 0;
    unsigned hazards = 0;
    bool ended = false;
    for (size_t at = 0; at < words;) {
        const uint8_t *command = list + 8 * at;
        unsigned number = number_at(command);
        unsigned step = steps[number][hazards];
        size_t count = words_in(number);
        if (words - at < count)
            return answer(3, 0, at);
        if (ended)
            return answer(4, 0, at);
        if (unassigned[number])
            return answer(19, 0, at);
        if (draws[number]) {
            unsigned refusal = draw_refusal(&set);
            if (refusal != 0)
                return answer(refusal, 0, at);
            if (memory != NULL && undrawable == 0 && (refusal = paint_refusal(command, &set, &textures, memory)) != 0)
                undrawable = answer(refusal, 0, at);
        }
        if (strict && step >> 4 != NO_NEED)
            return answer(6 + (step >> 4), 0, at);
        if (memory != NULL) {
            unsigned refusal;
            if (loads[number] && undrawable == 0 && (refusal = load_refusal(command, &textures, memory)) != 0)
                undrawable = answer(refusal, 0, at);
            run_texture(&textures, number, command);
        }
        run(&set, number, command);
        ended = number == SYNC_FULL;
        hazards = step & 15;
        at += count;
    }
    return undrawable != 0 ? undrawable : answer(0, 0, words);
}

/* The place of the latest command that set the hazard for which a sync is missing at a place. A command sets it if, after that command alone,
   the refused one would need a sync. */
static size_t latest_setter(const uint8_t *list, size_t place)
{
    const uint8_t *refused = steps[number_at(list + 8 * place)];
    size_t latest = 0;
    for (size_t at = 0; at < place;) {
        unsigned number = number_at(list + 8 * at);
        unsigned hazards = steps[number][0] & 15;
        if (refused[hazards] >> 4 != NO_NEED)
            latest = at;
        at += words_in(number);
    }
    return latest;
}

/* The check's third number (request #101): the cause at 7 to 9, else the list's whole words, in 24 bits. */
static size_t cause_of(const uint8_t *list, size_t list_length, uint64_t judged)
{
    unsigned number = judged >> 56;
    if (7 <= number && number <= 9)
        return latest_setter(list, (uint32_t)judged);
    size_t words = list_length / 8;
    return words < 0xFFFFFF ? words : 0xFFFFFF;
}

uint64_t plain_check(const uint8_t *list, size_t list_length)
{
    uint64_t judged = length_refusal(list_length, 4096);
    if (judged == 0)
        judged = judge(list, list_length / 8, true, NULL);
    return judged | (uint64_t)cause_of(list, list_length, judged) << 32;
}

/* The hazards before the command at a place, without an index: a full walk from the first command. The third number is what
   lanyardrove_index_ask answers by entries that were built: hazards, and 16 times the commands that it reads. */
uint64_t plain_index_ask(const uint8_t *list, size_t list_length, const uint32_t *entries, size_t count, uint32_t place)
{
    uint64_t refusal = length_refusal(list_length, 4096);
    unsigned hazards = 0;
    size_t at = 0, passed = 0, words = list_length / 8;
    (void)entries;
    (void)count;
    if (is_refusal(refusal))
        return refusal;
    for (; at < place && at < words; passed++) {
        unsigned number = number_at(list + 8 * at);
        hazards = steps[number][hazards] % 16;
        at += words_in(number);
    }
    return at == place && at < words ? answer(0, hazards + 16 * (passed % 64 + 1), place) : answer(24, 0, place);
}

/* The repair. A choice is the next hazards plus 16 times the option: nothing, Load, Tile or Pipe before the command. */

static const uint8_t option_cycles[4] = {0, 25, 33, 50};
static const uint8_t option_keeps[4] = {PIPE | TILE | DRAW | LOAD, PIPE | TILE, PIPE, 0};
static const uint8_t option_sync[4] = {0, SYNC_LOAD, SYNC_TILE, SYNC_PIPE};

static size_t count_commands(const uint8_t *list, size_t words)
{
    size_t count = 0;
    for (size_t at = 0; at < words; at += words_in(number_at(list + 8 * at)))
        count++;
    return count;
}

/* Request #109: a repair afresh forgets these. */
static bool is_forgotten(unsigned number)
{
    return number == SYNC_LOAD || number == SYNC_PIPE || number == SYNC_TILE;
}

/* Notes the number of each command that is kept at the start of its sixteen bytes of work; answers how many are. */
static inline size_t note_numbers(const uint8_t *list, size_t words, uint8_t *work, bool afresh)
{
    size_t kept = 0;
    for (size_t at = 0; at < words;) {
        unsigned number = number_at(list + 8 * at);
        at += words_in(number);
        if (!(afresh && is_forgotten(number)))
            work[16 * kept++] = number;
    }
    return kept;
}

/* The least cycles from a command on, at given hazards, and the first choice that has them. */
static uint32_t choose(unsigned number, unsigned hazards, const uint32_t after[16], uint8_t *choice)
{
    uint32_t least = UINT32_MAX;
    for (unsigned option = 0; option < 4; option++) {
        unsigned step = steps[number][hazards & option_keeps[option]];
        if (step >> 4 != NO_NEED)
            continue;
        uint32_t total = option_cycles[option] + after[step];
        if (total < least) {
            least = total;
            *choice = option << 4 | step;
        }
    }
    return least;
}

/* From the numbers in the work buffer to the choices, from the last command to the first. It answers the least cycles. */
static uint32_t plan(uint8_t *work, size_t commands)
{
    uint32_t totals[16] = {0};
    for (size_t i = commands; i-- > 0;) {
        uint32_t before[16];
        unsigned number = work[16 * i];
        for (unsigned hazards = 0; hazards < 16; hazards++)
            before[hazards] = choose(number, hazards, totals, &work[16 * i + hazards]);
        memcpy(totals, before, sizeof totals);
    }
    return totals[0];
}

static size_t count_inserts(const uint8_t *work, size_t commands)
{
    size_t count = 0;
    unsigned hazards = 0;
    for (size_t i = 0; i < commands; i++) {
        uint8_t choice = work[16 * i + hazards];
        count += choice >> 4 != 0;
        hazards = choice & 15;
    }
    return count;
}

static inline void write_plan(const uint8_t *list, size_t words, const uint8_t *work, uint8_t *out, bool afresh)
{
    unsigned hazards = 0;
    for (const uint8_t *end = list + 8 * words; list < end;) {
        if (afresh && is_forgotten(number_at(list))) {
            list += 8;
            continue;
        }
        uint8_t choice = work[hazards];
        work += 16;
        if (choice >> 4 != 0) {
            memset(out, 0, 8);
            out[0] = option_sync[choice >> 4];
            out += 8;
        }
        size_t bytes = 8 * words_in(number_at(list));
        memcpy(out, list, bytes);
        out += bytes;
        list += bytes;
        hazards = choice & 15;
    }
}

/* Inlined into a function for each repair. */
static inline __attribute__((always_inline)) uint64_t repair_by(const uint8_t *list, size_t list_length, uint8_t *work, size_t work_length, uint8_t *out,
                                                                size_t out_length, bool afresh)
{
    uint64_t refusal = length_refusal(list_length, 2048);
    if (refusal != 0)
        return refusal;
    size_t words = list_length / 8;
    uint64_t judged = judge(list, words, false, NULL);
    if (is_refusal(judged))
        return judged;
    size_t commands = count_commands(list, words);
    if (work_length / 16 < commands)
        return answer(13, 0, commands);
    size_t kept = note_numbers(list, words, work, afresh);
    uint32_t cycles = plan(work, kept);
    size_t needed = words - (commands - kept) + count_inserts(work, kept);
    bool fits = needed <= out_length / 8;
    if (fits)
        write_plan(list, words, work, out, afresh);
    memset(work, 0, 16 * commands);
    return fits ? answer(0, cycles, needed) : answer(14, 0, needed);
}

uint64_t plain_repair(const uint8_t *list, size_t list_length, uint8_t *work, size_t work_length, uint8_t *out, size_t out_length)
{
    return repair_by(list, list_length, work, work_length, out, out_length, false);
}

uint64_t plain_repair_afresh(const uint8_t *list, size_t list_length, uint8_t *work, size_t work_length, uint8_t *out, size_t out_length)
{
    return repair_by(list, list_length, work, work_length, out, out_length, true);
}

/* Drawing: the list is judged as a whole, and then painted. */

/* The byte at an address is byte (address mod 4) of the colour: whole words in the middle, single bytes at the ends. */
static void paint_row(uint8_t *to, uint64_t bytes, uint64_t address, const uint8_t color[4])
{
    uint32_t word;
    memcpy(&word, color, 4);
    for (; bytes > 0 && address % 4 != 0; bytes--)
        *to++ = color[address++ % 4];
    for (; bytes >= 4; bytes -= 4, to += 4)
        memcpy(to, &word, 4);
    for (uint64_t i = 0; i < bytes; i++)
        to[i] = color[i];
}

static void paint(struct area area, uint32_t color, const struct memory *memory)
{
    const uint8_t color_bytes[4] = {color >> 24, color >> 16, color >> 8, color};
    for (uint64_t row = 0; row < area.rows; row++) {
        uint64_t address = area.first + row * area.stride;
        paint_row(memory->bytes + (address - memory->start), area.row_bytes, address, color_bytes);
    }
}

/* Texels between memory and an odd row of texture memory, where a byte's bit 2 is turned over: words with their halves changed in the middle, single
   texels at the ends. */
static void move_turned(uint8_t *linear, uint8_t *texture, int64_t byte, uint64_t bytes, bool loading)
{
    while (bytes > 0) {
        if (byte % 8 == 0 && bytes >= 8) {
            uint64_t word;
            memcpy(&word, loading ? linear : texture + byte, 8);
            word = word << 32 | word >> 32;
            memcpy(loading ? texture + byte : linear, &word, 8);
            byte += 8, linear += 8, bytes -= 8;
        } else {
            memcpy(loading ? texture + (byte ^ 4) : linear, loading ? linear : texture + (byte ^ 4), 2);
            byte += 2, linear += 2, bytes -= 2;
        }
    }
}

/* Row by row, so that a later one stays. Inlined into a loop for each way. */
static inline __attribute__((always_inline)) void move_texels(const struct texels *texels, const struct memory *memory, bool loading)
{
    for (uint64_t k = 0; k < texels->area.rows; k++) {
        uint8_t *linear = memory->bytes + (texels->area.first + k * texels->area.stride - memory->start);
        int64_t row = texels->row + texels->row_step * (int64_t)k;
        int64_t byte = texture_byte(texels, row);
        if (row % 2 != 0)
            move_turned(linear, memory->texture, byte, texels->area.row_bytes, loading);
        else
            memcpy(loading ? memory->texture + byte : linear, loading ? linear : memory->texture + byte, texels->area.row_bytes);
    }
}

static void load_texels(uint64_t load, const struct textures *textures, const struct memory *memory)
{
    struct texels texels = loaded_texels(load, textures);
    move_texels(&texels, memory, true);
}

/* A word of four texels at a time, with its halves changed in odd lines; then the texels that are left. */
static void load_block(uint64_t load, const struct textures *textures, const struct memory *memory)
{
    struct block block = block_of(load, textures);
    const uint8_t *linear = memory->bytes + (block.area.first - memory->start);
    uint8_t *texture = memory->texture + block.byte;
    for (uint64_t at = 0; at < block.texels / 4; at++) {
        uint64_t word;
        memcpy(&word, linear + 8 * at, 8);
        if (at * block.dxt / 2048 % 2 != 0)
            word = word << 32 | word >> 32;
        memcpy(texture + 8 * at, &word, 8);
    }
    uint64_t turn = block.texels / 4 * block.dxt / 2048 % 2 != 0 ? 4 : 0;
    for (uint64_t k = block.texels / 4 * 4; k < block.texels; k++)
        memcpy(texture + (2 * k ^ turn), linear + 2 * k, 2);
}

static void copy_texels(const uint8_t *command, const struct registers *set, const struct textures *textures, const struct memory *memory)
{
    struct texels texels = copied_texels(command, set, textures);
    move_texels(&texels, memory, false);
}

/* The draws and loads of a list that is not refused. */
static void paint_list(const uint8_t *list, size_t words, const struct memory *memory)
{
    struct registers set = {0};
    struct textures textures = {0};
    for (const uint8_t *end = list + 8 * words; list < end;) {
        unsigned number = number_at(list);
        if (number == FILL_RECTANGLE)
            paint(area_of(word_at(list), &set), set.color, memory);
        else if (number == TEXTURE_RECTANGLE)
            copy_texels(list, &set, &textures, memory);
        else if (number == LOAD_TILE)
            load_texels(word_at(list), &textures, memory);
        else if (number == LOAD_BLOCK)
            load_block(word_at(list), &textures, memory);
        run(&set, number, list);
        run_texture(&textures, number, list);
        list += 8 * words_in(number);
    }
}

uint64_t plain_draw(const uint8_t *list, size_t list_length, uint8_t *memory, size_t memory_length, uint64_t start, uint8_t *texture,
                    size_t texture_length)
{
    uint64_t refusal = length_refusal(list_length, 4096);
    if (refusal != 0)
        return refusal;
    size_t words = list_length / 8;
    if (texture_length != TEXTURE_BYTES) {
        uint64_t judged = judge(list, words, true, NULL);
        return is_refusal(judged) ? judged : answer(16, 0, 0);
    }
    struct memory target = {memory, memory_length, start, texture};
    uint64_t judged = judge(list, words, true, &target);
    if (!is_refusal(judged))
        paint_list(list, words, &target);
    return judged;
}

/* All registers: their fields are stored at each command that sets them. */

struct color {
    bool set;
    uint8_t red, green, blue, alpha;
};

struct primitive_color {
    struct color color;
    uint8_t min_level, prim_lod_frac;
};

struct key_gb {
    bool set;
    uint16_t width_g, width_b;
    uint8_t center_g, scale_g, center_b, scale_b;
};

struct key_r {
    bool set;
    uint16_t width_r;
    uint8_t center_r, scale_r;
};

struct convert {
    bool set;
    uint16_t k0, k1, k2, k3, k4, k5;
};

struct other_modes {
    bool set;
    bool atomic_prim;
    uint8_t cycle_type;
    bool persp_tex_en, detail_tex_en, sharpen_tex_en, tex_lod_en, tlut_en, tlut_type, sample_type, mid_texel, bi_lerp_0, bi_lerp_1, convert_one;
    bool key_en;
    uint8_t rgb_dither_sel, alpha_dither_sel;
    uint8_t bl_m1a_0, bl_m1a_1, bl_m1b_0, bl_m1b_1, bl_m2a_0, bl_m2a_1, bl_m2b_0, bl_m2b_1;
    bool force_blend, alpha_cvg_select, cvg_x_alpha;
    uint8_t z_mode, cvg_dest;
    bool color_on_cvg, image_read_en, z_update_en, z_compare_en, antialias_en, z_source_sel, dither_alpha_en, alpha_compare_en;
};

struct depth {
    bool set;
    uint16_t z, dz;
};

struct scissor {
    bool set;
    uint16_t left, top, right, bottom;
    bool field, odd;
};

struct image {
    bool set;
    uint8_t format, size;
    uint16_t width;
    uint32_t address;
};

struct tile {
    bool set;
    uint8_t format, size;
    uint16_t line, address;
    uint8_t index, palette;
    bool clamp_t, mirror_t;
    uint8_t mask_t, shift_t;
    bool clamp_s, mirror_s;
    uint8_t mask_s, shift_s;
    bool sized;
    uint16_t left, top, right, bottom;
};

struct all_registers {
    bool fill_set;
    uint32_t fill;
    struct color fog, blend, environment;
    struct primitive_color primitive;
    bool combine_set;
    uint64_t combine;
    struct key_gb key_gb;
    struct key_r key_r;
    struct convert convert;
    struct other_modes modes;
    struct depth depth;
    struct scissor scissor;
    struct image color_image, texture_image;
    bool depth_image_set;
    uint32_t depth_image;
    struct tile tiles[8];
};

static bool bit(uint64_t word, unsigned at)
{
    return bits(word, at, at);
}

static struct color color_of(uint64_t w)
{
    return (struct color){true, bits(w, 31, 24), bits(w, 23, 16), bits(w, 15, 8), bits(w, 7, 0)};
}

static struct image image_of(uint64_t w, unsigned address_high)
{
    return (struct image){true, bits(w, 55, 53), bits(w, 52, 51), bits(w, 41, 32), bits(w, address_high, 0)};
}

static struct other_modes modes_of(uint64_t w)
{
    return (struct other_modes){
        .set = true,
        .atomic_prim = bit(w, 55),
        .cycle_type = bits(w, 53, 52),
        .persp_tex_en = bit(w, 51),
        .detail_tex_en = bit(w, 50),
        .sharpen_tex_en = bit(w, 49),
        .tex_lod_en = bit(w, 48),
        .tlut_en = bit(w, 47),
        .tlut_type = bit(w, 46),
        .sample_type = bit(w, 45),
        .mid_texel = bit(w, 44),
        .bi_lerp_0 = bit(w, 43),
        .bi_lerp_1 = bit(w, 42),
        .convert_one = bit(w, 41),
        .key_en = bit(w, 40),
        .rgb_dither_sel = bits(w, 39, 38),
        .alpha_dither_sel = bits(w, 37, 36),
        .bl_m1a_0 = bits(w, 31, 30),
        .bl_m1a_1 = bits(w, 29, 28),
        .bl_m1b_0 = bits(w, 27, 26),
        .bl_m1b_1 = bits(w, 25, 24),
        .bl_m2a_0 = bits(w, 23, 22),
        .bl_m2a_1 = bits(w, 21, 20),
        .bl_m2b_0 = bits(w, 19, 18),
        .bl_m2b_1 = bits(w, 17, 16),
        .force_blend = bit(w, 14),
        .alpha_cvg_select = bit(w, 13),
        .cvg_x_alpha = bit(w, 12),
        .z_mode = bits(w, 11, 10),
        .cvg_dest = bits(w, 9, 8),
        .color_on_cvg = bit(w, 7),
        .image_read_en = bit(w, 6),
        .z_update_en = bit(w, 5),
        .z_compare_en = bit(w, 4),
        .antialias_en = bit(w, 3),
        .z_source_sel = bit(w, 2),
        .dither_alpha_en = bit(w, 1),
        .alpha_compare_en = bit(w, 0),
    };
}

static void describe(struct tile *tile, uint64_t w)
{
    tile->set = true;
    tile->format = bits(w, 55, 53);
    tile->size = bits(w, 52, 51);
    tile->line = bits(w, 49, 41);
    tile->address = bits(w, 40, 32);
    tile->index = bits(w, 26, 24);
    tile->palette = bits(w, 23, 20);
    tile->clamp_t = bit(w, 19);
    tile->mirror_t = bit(w, 18);
    tile->mask_t = bits(w, 17, 14);
    tile->shift_t = bits(w, 13, 10);
    tile->clamp_s = bit(w, 9);
    tile->mirror_s = bit(w, 8);
    tile->mask_s = bits(w, 7, 4);
    tile->shift_s = bits(w, 3, 0);
}

static void resize(struct tile *tile, uint64_t w)
{
    tile->sized = true;
    tile->left = bits(w, 55, 44);
    tile->top = bits(w, 43, 32);
    tile->right = bits(w, 23, 12);
    tile->bottom = bits(w, 11, 0);
}

static void set(struct all_registers *all, unsigned number, uint64_t w)
{
    switch (number) {
    case 0x2A:
        all->key_gb = (struct key_gb){true, bits(w, 55, 44), bits(w, 43, 32), bits(w, 31, 24), bits(w, 23, 16), bits(w, 15, 8), bits(w, 7, 0)};
        break;
    case 0x2B:
        all->key_r = (struct key_r){true, bits(w, 27, 16), bits(w, 15, 8), bits(w, 7, 0)};
        break;
    case 0x2C:
        all->convert = (struct convert){true, bits(w, 53, 45), bits(w, 44, 36), bits(w, 35, 27), bits(w, 26, 18), bits(w, 17, 9), bits(w, 8, 0)};
        break;
    case 0x2D:
        all->scissor = (struct scissor){true, bits(w, 55, 44), bits(w, 43, 32), bits(w, 23, 12), bits(w, 11, 0), bit(w, 25), bit(w, 24)};
        break;
    case 0x2E:
        all->depth = (struct depth){true, bits(w, 31, 16), bits(w, 15, 0)};
        break;
    case 0x2F:
        all->modes = modes_of(w);
        break;
    case 0x30: case 0x32: case 0x33: case 0x34:
        resize(&all->tiles[bits(w, 26, 24)], w);
        break;
    case 0x35:
        describe(&all->tiles[bits(w, 26, 24)], w);
        break;
    case 0x37:
        all->fill_set = true;
        all->fill = bits(w, 31, 0);
        break;
    case 0x38:
        all->fog = color_of(w);
        break;
    case 0x39:
        all->blend = color_of(w);
        break;
    case 0x3A:
        all->primitive = (struct primitive_color){color_of(w), bits(w, 47, 40), bits(w, 39, 32)};
        break;
    case 0x3B:
        all->environment = color_of(w);
        break;
    case 0x3C:
        all->combine_set = true;
        all->combine = bits(w, 55, 0);
        break;
    case 0x3D:
        all->texture_image = image_of(w, 23);
        break;
    case 0x3E:
        all->depth_image_set = true;
        all->depth_image = bits(w, 23, 0);
        break;
    case 0x3F:
        all->color_image = image_of(w, 25);
        break;
    }
}

/* The registers after the commands before a place. */
static struct all_registers replay(const uint8_t *list, size_t end)
{
    struct all_registers all = {0};
    for (size_t at = 0; at < end;) {
        const uint8_t *command = list + 8 * at;
        unsigned number = number_at(command);
        set(&all, number, word_at(command));
        at += words_in(number);
    }
    return all;
}

/* All registers as one number, as crates/rdp_bench/specs/Mixed.antt says: values side by side, and these joined. */

static uint64_t flags(bool a, bool b, bool c, bool d)
{
    return (uint64_t)a ^ (uint64_t)b << 1 ^ (uint64_t)c << 2 ^ (uint64_t)d << 3;
}

static uint64_t bytes(uint8_t a, uint8_t b, uint8_t c, uint8_t d)
{
    return (uint64_t)a ^ (uint64_t)b << 8 ^ (uint64_t)c << 16 ^ (uint64_t)d << 24;
}

static uint64_t halves(uint16_t a, uint16_t b, uint16_t c, uint16_t d)
{
    return (uint64_t)a ^ (uint64_t)b << 16 ^ (uint64_t)c << 32 ^ (uint64_t)d << 48;
}

static uint64_t turned(uint64_t x, unsigned left)
{
    return x << left | x >> (64 - left);
}

static uint64_t join(uint64_t a, uint64_t b, uint64_t c, uint64_t d, uint64_t e)
{
    return a ^ turned(b, 13) ^ turned(c, 26) ^ turned(d, 39) ^ turned(e, 52);
}

static uint64_t mixed_color(const struct color *c)
{
    return join(c->set, bytes(c->red, c->green, c->blue, c->alpha), 0, 0, 0);
}

static uint64_t mixed_colors(const struct all_registers *all)
{
    const struct primitive_color *p = &all->primitive;
    const struct color *c = &p->color;
    uint64_t primitive = join(c->set, bytes(p->min_level, p->prim_lod_frac, 0, 0), bytes(c->red, c->green, c->blue, c->alpha), 0, 0);
    uint64_t fill = all->fill_set ^ (uint64_t)all->fill << 8;
    return join(fill, mixed_color(&all->fog), mixed_color(&all->blend), primitive, mixed_color(&all->environment));
}

static uint64_t mixed_combiner(const struct all_registers *all)
{
    const struct key_gb *gb = &all->key_gb;
    const struct key_r *r = &all->key_r;
    const struct convert *k = &all->convert;
    uint64_t key_gb = join(gb->set, halves(gb->width_g, gb->width_b, 0, 0), bytes(gb->center_g, gb->scale_g, gb->center_b, gb->scale_b), 0, 0);
    uint64_t key_r = join(r->set, halves(r->width_r, 0, 0, 0), bytes(r->center_r, r->scale_r, 0, 0), 0, 0);
    uint64_t convert = join(k->set, halves(k->k0, k->k1, k->k2, k->k3), halves(k->k4, k->k5, 0, 0), 0, 0);
    return join(all->combine_set ^ all->combine << 8, key_gb, key_r, convert, 0);
}

static uint64_t mixed_other_modes(const struct other_modes *m)
{
    uint64_t own = flags(m->set, m->atomic_prim, m->key_en, false);
    uint64_t types = bytes(m->cycle_type, m->rgb_dither_sel, m->alpha_dither_sel, 0);
    uint64_t texture = join(
        flags(m->persp_tex_en, m->detail_tex_en, m->sharpen_tex_en, m->tex_lod_en),
        flags(m->tlut_en, m->tlut_type, m->sample_type, m->mid_texel),
        flags(m->bi_lerp_0, m->bi_lerp_1, m->convert_one, false), 0, 0);
    uint64_t blender = join(
        bytes(m->bl_m1a_0, m->bl_m1a_1, m->bl_m1b_0, m->bl_m1b_1),
        bytes(m->bl_m2a_0, m->bl_m2a_1, m->bl_m2b_0, m->bl_m2b_1), 0, 0, 0);
    uint64_t pixel = join(
        flags(m->force_blend, m->alpha_cvg_select, m->cvg_x_alpha, m->color_on_cvg),
        flags(m->image_read_en, m->z_update_en, m->z_compare_en, m->antialias_en),
        flags(m->z_source_sel, m->dither_alpha_en, m->alpha_compare_en, false),
        bytes(m->z_mode, m->cvg_dest, 0, 0), 0);
    return join(own, types, texture, blender, pixel);
}

static uint64_t mixed_modes(const struct all_registers *all)
{
    const struct depth *d = &all->depth;
    const struct scissor *s = &all->scissor;
    uint64_t depth = join(d->set, halves(d->z, d->dz, 0, 0), 0, 0, 0);
    uint64_t scissor = join(flags(s->set, s->field, s->odd, false), halves(s->left, s->top, s->right, s->bottom), 0, 0, 0);
    return join(mixed_other_modes(&all->modes), depth, scissor, 0, 0);
}

static uint64_t mixed_image(const struct image *i)
{
    return i->set ^ (uint64_t)i->format << 9 ^ (uint64_t)i->size << 18 ^ (uint64_t)i->width << 27 ^ (uint64_t)i->address << 36;
}

static uint64_t mixed_images(const struct all_registers *all)
{
    uint64_t depth = all->depth_image_set ^ (uint64_t)all->depth_image << 8;
    return join(mixed_image(&all->color_image), mixed_image(&all->texture_image), depth, 0, 0);
}

static uint64_t mixed_tile(uint64_t before, const struct tile *t)
{
    uint64_t descriptor = join(
        bytes(t->format, t->size, t->index, t->palette),
        halves(t->line, t->address, 0, 0),
        flags(t->clamp_t, t->mirror_t, t->clamp_s, t->mirror_s),
        bytes(t->mask_t, t->shift_t, t->mask_s, t->shift_s), 0);
    return join(flags(t->set, t->sized, false, false), descriptor, halves(t->left, t->top, t->right, t->bottom), before, 0);
}

uint64_t plain_registers(const uint8_t *list, size_t list_length)
{
    uint64_t checked = plain_check(list, list_length);
    uint64_t number = checked >> 56;
    uint64_t place = (uint32_t)checked;
    struct all_registers all = replay(list, number == 1 || number == 2 ? 0 : place);
    uint64_t mixed = 0;
    for (size_t i = 0; i < 8; i++)
        mixed = mixed_tile(mixed, &all.tiles[i]);
    return join(number ^ place << 32 ^ mixed, mixed_colors(&all), mixed_combiner(&all), mixed_modes(&all), mixed_images(&all));
}

/* Lists in portions (requests #103 and #105). The record has the library's layout, but for the order of the registers' words. */

enum { MOST_TAKEN = 32768, ROOM = 176, MOST_WAITED = 204800, NO_SLOT = 32 };

struct plain_stream {
    uint64_t words[32]; /* the words that last set the registers; 0 where none has come */
    uint8_t held[ROOM];
    uint32_t held_count;
    uint32_t taken;
    uint32_t number;
    uint32_t place;
    uint8_t hazards;
    uint8_t ended;
    uint16_t spare;
    uint32_t waited; /* the cycles of the accepted commands' syncs */
};

/* Where the word of a setter goes: the scissor, the modes and the colour image in front, eight slots for tiles and eight for their sizes. */
enum { SCISSOR_SLOT, MODES_SLOT, IMAGE_SLOT, OTHER_SLOTS, TILE_SLOTS = 15, SIZE_SLOTS = 23 };

static uint8_t slots[64], waits[64];

static bool sets_size(unsigned number)
{
    return is_load(number) || number == SET_TILE_SIZE;
}

__attribute__((constructor)) static void fill_slots(void)
{
    unsigned next = OTHER_SLOTS;
    for (unsigned number = 0; number < 64; number++) {
        bool is_free = number == SET_SCISSOR || number == 0x2E || number == 0x3A || number == 0x3D;
        slots[number] = is_attribute(number) || is_free ? 0 : NO_SLOT;
        if (sets_size(number))
            slots[number] = SIZE_SLOTS;
        else if (number == SET_TILE)
            slots[number] = TILE_SLOTS;
        else if (number == SET_SCISSOR || number == SET_OTHER_MODES || number == SET_COLOR_IMAGE)
            slots[number] = number == SET_SCISSOR ? SCISSOR_SLOT : number == SET_OTHER_MODES ? MODES_SLOT : IMAGE_SLOT;
        else if (slots[number] != NO_SLOT)
            slots[number] = next++;
    }
}

__attribute__((constructor)) static void fill_waits(void)
{
    for (unsigned option = 1; option < 4; option++)
        waits[option_sync[option]] = option_cycles[option];
}

static void store(uint64_t words[32], unsigned number, const uint8_t *command)
{
    unsigned slot = slots[number];
    if (slot == NO_SLOT)
        return;
    uint64_t word = word_at(command);
    words[slot < TILE_SLOTS ? slot : slot + bits(word, 26, 24)] = word;
}

static unsigned stream_refusal(const struct plain_stream *stream, unsigned number, unsigned step)
{
    if (stream->ended)
        return 4;
    if (unassigned[number])
        return 19;
    if (draws[number]) {
        struct registers set = {stream->words[MODES_SLOT], stream->words[IMAGE_SLOT], stream->words[SCISSOR_SLOT], 0};
        unsigned refusal = draw_refusal(&set);
        if (refusal != 0)
            return refusal;
    }
    return step >> 4 != NO_NEED ? 6 + (step >> 4) : 0;
}

static void remember(struct plain_stream *stream, unsigned number, size_t place)
{
    stream->number = number;
    stream->place = place;
}

/* Judges a command that is complete, and runs it; false where it is refused. */
static bool settle(struct plain_stream *stream, const uint8_t *command, unsigned number)
{
    unsigned step = steps[number][stream->hazards & 15];
    unsigned refusal = stream_refusal(stream, number, step);
    if (refusal != 0) {
        remember(stream, refusal, stream->taken / 8);
        return false;
    }
    store(stream->words, number, command);
    stream->hazards = step & 15;
    stream->ended = number == SYNC_FULL;
    stream->waited += waits[number];
    stream->taken += 8 * words_in(number);
    return true;
}

/* The bytes that are due for the command whose first bytes are held. */
static size_t due(const struct plain_stream *stream)
{
    return stream->held_count < 8 ? 8 : 8 * words_in(number_at(stream->held));
}

/* Completes the held command, if the portion does; answers the bytes used. */
static size_t complete(struct plain_stream *stream, const uint8_t *portion, size_t length)
{
    size_t at = 0;
    while (at < length && stream->held_count < due(stream)) {
        size_t more = due(stream) - stream->held_count;
        more = more < length - at ? more : length - at;
        memcpy(stream->held + stream->held_count, portion + at, more);
        stream->held_count += more;
        stream->taken += more;
        at += more;
    }
    if (stream->held_count == due(stream)) {
        stream->taken -= stream->held_count;
        settle(stream, stream->held, number_at(stream->held));
        memset(stream->held, 0, ROOM);
        stream->held_count = 0;
    }
    return at;
}

/* Whole commands are judged where they stand, and the rest is held. */
static void take(struct plain_stream *stream, const uint8_t *portion, size_t length)
{
    size_t at = stream->held_count != 0 ? complete(stream, portion, length) : 0;
    while (stream->number == 0 && length - at >= 8) {
        unsigned number = number_at(portion + at);
        size_t count = 8 * words_in(number);
        if (count > length - at)
            break;
        if (!settle(stream, portion + at, number))
            return;
        at += count;
    }
    if (stream->number != 0 || at == length)
        return;
    memcpy(stream->held, portion + at, length - at);
    stream->held_count = length - at;
    stream->taken += length - at;
}

/* The numbers that a stream remembers. */
static bool is_remembered(uint32_t number)
{
    return number <= 9 || number == 19;
}

static bool is_damaged(const struct plain_stream *stream)
{
    if (stream->held_count >= ROOM || !is_remembered(stream->number) || stream->waited > MOST_WAITED)
        return true;
    for (size_t at = stream->held_count; at < ROOM; at++)
        if (stream->held[at] != 0)
            return true;
    return (stream->held_count >= 8 && stream->held_count >= due(stream)) || stream->taken > MOST_TAKEN
           || stream->taken < stream->held_count || (stream->taken - stream->held_count) % 8 != 0;
}

static uint64_t told(const struct plain_stream *stream)
{
    if (stream->number != 0)
        return answer(stream->number, stream->waited, stream->place);
    return answer(0, stream->waited, (stream->taken - stream->held_count) / 8);
}

uint64_t plain_stream_feed(struct plain_stream *stream, const uint8_t *portion, size_t portion_length)
{
    if (is_damaged(stream))
        return answer(28, 0, 0);
    if (stream->number == 0) {
        size_t room = MOST_TAKEN - stream->taken;
        take(stream, portion, portion_length < room ? portion_length : room);
        if (stream->number == 0 && portion_length > room)
            remember(stream, 1, MOST_TAKEN / 8);
    }
    return told(stream);
}

uint64_t plain_stream_close(struct plain_stream *stream)
{
    if (is_damaged(stream))
        return answer(28, 0, 0);
    if (stream->number == 0 && stream->taken % 8 != 0)
        remember(stream, 2, stream->taken / 8);
    else if (stream->number == 0 && stream->held_count != 0)
        remember(stream, 3, (stream->taken - stream->held_count) / 8);
    return told(stream);
}

/* Display lists (request #108, with the formats of document 003). */

enum {
    GO = 0xDE,
    END = 0xDF,
    FIRST_HALF = 0xE1,
    MODES_LOW = 0xE2,
    MODES_HIGH = 0xE3,
    RECTANGLE = 0xE4,
    RECTANGLE_FLIP = 0xE5,
    MODES = 0xEF,
    SECOND_HALF = 0xF1,
};

enum { MOST_READ = 4096, MOST_CALLS = 8 };

#define MOST_MEMORY 4294967288u

/* A walk under way: the commands read, the words written, the other modes, and where the calls that have not returned go on. */
struct walk {
    const uint8_t *memory;
    size_t length;
    uint8_t *out; /* NULL where words are counted only */
    size_t read, words, calls;
    uint64_t modes;
    uint64_t returns[MOST_CALLS];
};

/* 20, 21, or 0 where a command can be read. */
static inline unsigned read_refusal(const struct walk *walk, uint64_t offset)
{
    if (offset % 8 != 0 || walk->length < 8 || offset > walk->length - 8)
        return 20;
    return walk->read == MOST_READ ? 21 : 0;
}

static inline void write_word(struct walk *walk, uint64_t word)
{
    if (walk->out != NULL) {
        uint64_t bytes = htobe64(word);
        memcpy(walk->out + 8 * walk->words, &bytes, 8);
    }
    walk->words++;
}

static inline bool has_segment(uint64_t word)
{
    return (word >> 24 & 0xFF) != 0;
}

/* 0xDE: calls the list at an address, or goes there for good. Answers 23 or 0. */
static inline unsigned go(struct walk *walk, uint64_t word, uint64_t *offset)
{
    unsigned parameter = word >> 48 & 0xFF;
    if (has_segment(word) || parameter > 1 || (parameter == 0 && walk->calls == MOST_CALLS))
        return 23;
    if (parameter == 0)
        walk->returns[walk->calls++] = *offset + 8;
    *offset = (uint32_t)word;
    return 0;
}

/* 0xE2 and 0xE3: LO & ~(((1 << count) - 1) << shift) | data, and a Set Other Modes of the whole. Answers 23 or 0. */
static inline unsigned change_modes(struct walk *walk, uint64_t word, unsigned first_bit)
{
    unsigned count = (word >> 32 & 0xFF) + 1, top = (word >> 40 & 0xFF) + count;
    if (top > 32)
        return 23;
    uint64_t mask = (((uint64_t)1 << count) - 1) << (32 - top);
    walk->modes = (walk->modes & ~(mask << first_bit)) | (uint64_t)(uint32_t)word << first_bit;
    write_word(walk, (uint64_t)SET_OTHER_MODES << 56 | bits(walk->modes, 55, 0));
    return 0;
}

/* The half-word that must stand at an offset; answers 20, 21, 22 or 0. */
static inline unsigned take_half(struct walk *walk, uint64_t offset, unsigned number, uint64_t *half)
{
    unsigned refusal = read_refusal(walk, offset);
    if (refusal != 0)
        return refusal;
    uint64_t word = word_at(walk->memory + offset);
    if (word >> 56 != number)
        return 22;
    walk->read++;
    *half = (uint32_t)word;
    return 0;
}

/* 0xE4 and 0xE5 with the two half-words. The offset is that of the command after, or of the refused half-word. */
static inline unsigned rectangle(struct walk *walk, uint64_t word, uint64_t *offset)
{
    uint64_t high, low;
    unsigned refusal = take_half(walk, *offset += 8, FIRST_HALF, &high);
    if (refusal == 0)
        refusal = take_half(walk, *offset += 8, SECOND_HALF, &low);
    if (refusal != 0)
        return refusal;
    write_word(walk, bits(word, 61, 0));
    write_word(walk, high << 32 | low);
    *offset += 8;
    return 0;
}

/* Runs a command that writes its own word; answers 22, 23 or 0. */
static inline unsigned pass_on(struct walk *walk, uint64_t word)
{
    unsigned number = word >> 56;
    if (number < 0xE6 || number == SECOND_HALF)
        return 22;
    if (number >= 0xFD && has_segment(word))
        return 23;
    if (number == MODES)
        walk->modes = word;
    write_word(walk, bits(word, 61, 0));
    return 0;
}

/* Runs the display list at an offset. Inlined into a loop that counts and one that writes. */
static inline __attribute__((always_inline)) uint64_t walk_display(struct walk *walk, uint64_t offset)
{
    for (;;) {
        unsigned refusal = read_refusal(walk, offset);
        if (refusal != 0)
            return answer(refusal, walk->read, offset);
        uint64_t word = word_at(walk->memory + offset);
        walk->read++; /* a refused command is taken off again */
        switch (word >> 56) {
        case GO:
            refusal = go(walk, word, &offset);
            break;
        case END:
            if (walk->calls == 0)
                return answer(0, walk->read, walk->words);
            offset = walk->returns[--walk->calls];
            break;
        case RECTANGLE:
        case RECTANGLE_FLIP:
            refusal = rectangle(walk, word, &offset);
            if (refusal != 0)
                return answer(refusal, walk->read, offset);
            break;
        case MODES_LOW:
        case MODES_HIGH:
            refusal = change_modes(walk, word, word >> 56 == MODES_LOW ? 0 : 32);
            offset += refusal == 0 ? 8 : 0;
            break;
        default:
            refusal = pass_on(walk, word);
            offset += refusal == 0 ? 8 : 0;
        }
        if (refusal != 0)
            return answer(refusal, walk->read - 1, offset);
    }
}

/* A refusal leaves the output, so that words are counted first. */
uint64_t plain_translate(const uint8_t *memory, size_t memory_length, uint32_t start, uint8_t *out, size_t out_length)
{
    size_t length = memory_length < MOST_MEMORY ? memory_length : MOST_MEMORY;
    struct walk counting = {.memory = memory, .length = length};
    uint64_t counted = walk_display(&counting, start);
    if (is_refusal(counted))
        return counted;
    if (out_length / 8 < counting.words)
        return answer(14, counting.read, counting.words);
    struct walk writing = {.memory = memory, .length = length, .out = out};
    return walk_display(&writing, start);
}

/* Two lists compared (request #110). A line is a field of document 000's bit lists: its word, and its highest and lowest bit there. */

struct line {
    uint8_t word, high, low;
};

#define UNNAMED {0, 0, 1} /* a line without a name: it counts, and has no bits */
#define CORNERS {0, 55, 44}, {0, 43, 32}
#define EDGE(word) {word, 59, 48}, {word, 47, 32}, {word, 29, 16}, {word, 15, 0}
#define BYTES {0, 31, 24}, {0, 23, 16}, {0, 15, 8}, {0, 7, 0}
#define BIT(at) {0, at, at}
#define PAIR(low) {0, low + 1, low}

enum { MOST_LINES = 40, SUFFIX_LINE = 21, TRIANGLE_WORDS = 4 };

static const struct line lines_of_triangle[] = {BIT(58), BIT(57), BIT(56), BIT(55), {0, 53, 51}, {0, 50, 48}, {0, 45, 32}, {0, 29, 16}, {0, 13, 0},
                                                EDGE(1), EDGE(2), EDGE(3)};
static const struct line lines_of_texture_rectangle[] = {CORNERS, {0, 26, 24}, {0, 23, 12}, {0, 11, 0}, {1, 63, 48}, {1, 47, 32}, {1, 31, 16}, {1, 15, 0}};
static const struct line lines_of_key_gb[] = {CORNERS, BYTES};
static const struct line lines_of_key_r[] = {{0, 27, 16}, {0, 15, 8}, {0, 7, 0}};
static const struct line lines_of_convert[] = {{0, 53, 45}, {0, 44, 36}, {0, 35, 27}, {0, 26, 18}, {0, 17, 9}, {0, 8, 0}};
static const struct line lines_of_scissor[] = {CORNERS, BIT(25), BIT(24), {0, 23, 12}, {0, 11, 0}};
static const struct line lines_of_depth[] = {{0, 31, 16}, {0, 15, 0}};
static const struct line lines_of_modes[] = {
    BIT(55), UNNAMED, PAIR(52), BIT(51), BIT(50), BIT(49), BIT(48), BIT(47), BIT(46), BIT(45), BIT(44), BIT(43), BIT(42), BIT(41), BIT(40), PAIR(38), PAIR(36), UNNAMED,
    PAIR(30), PAIR(28), PAIR(26), PAIR(24), PAIR(22), PAIR(20), PAIR(18), PAIR(16), UNNAMED, BIT(14), BIT(13), BIT(12), PAIR(10), PAIR(8), BIT(7), BIT(6), BIT(5),
    BIT(4), BIT(3), BIT(2), BIT(1), BIT(0)};
static const struct line lines_of_area[] = {CORNERS, {0, 26, 24}, {0, 23, 12}, {0, 11, 0}};
static const struct line lines_of_tile[] = {{0, 55, 53}, {0, 52, 51}, {0, 49, 41}, {0, 40, 32}, {0, 26, 24}, {0, 23, 20}, BIT(19), BIT(18), {0, 17, 14}, {0, 13, 10},
                                            BIT(9), BIT(8), {0, 7, 4}, {0, 3, 0}};
static const struct line lines_of_fill[] = {CORNERS, {0, 23, 12}, {0, 11, 0}};
static const struct line lines_of_fill_color[] = {{0, 31, 0}};
static const struct line lines_of_color[] = {BYTES};
static const struct line lines_of_primitive[] = {{0, 47, 40}, {0, 39, 32}, BYTES};
static const struct line lines_of_combine[] = {{0, 55, 0}};
static const struct line lines_of_texture_image[] = {{0, 55, 53}, {0, 52, 51}, {0, 41, 32}, {0, 23, 0}};
static const struct line lines_of_depth_image[] = {{0, 23, 0}};
static const struct line lines_of_color_image[] = {{0, 55, 53}, {0, 52, 51}, {0, 41, 32}, {0, 25, 0}};

#define KIND(first, last, lines) {first, last, lines, sizeof lines / sizeof lines[0]}
static const struct {
    uint8_t first, last; /* command numbers */
    const struct line *lines;
    size_t count;
} kinds_of_lines[] = {
    KIND(0x08, 0x0F, lines_of_triangle), KIND(0x24, 0x25, lines_of_texture_rectangle), KIND(0x2A, 0x2A, lines_of_key_gb), KIND(0x2B, 0x2B, lines_of_key_r),
    KIND(0x2C, 0x2C, lines_of_convert), KIND(0x2D, 0x2D, lines_of_scissor), KIND(0x2E, 0x2E, lines_of_depth), KIND(0x2F, 0x2F, lines_of_modes),
    KIND(0x30, 0x30, lines_of_area), KIND(0x32, 0x34, lines_of_area), KIND(0x35, 0x35, lines_of_tile), KIND(0x36, 0x36, lines_of_fill),
    KIND(0x37, 0x37, lines_of_fill_color), KIND(0x38, 0x39, lines_of_color), KIND(0x3A, 0x3A, lines_of_primitive), KIND(0x3B, 0x3B, lines_of_color),
    KIND(0x3C, 0x3C, lines_of_combine), KIND(0x3D, 0x3D, lines_of_texture_image), KIND(0x3E, 0x3E, lines_of_depth_image), KIND(0x3F, 0x3F, lines_of_color_image)};

/* By command number, filled before main: the word and the bits of each line. */
static struct {
    uint64_t mask[MOST_LINES];
    uint8_t word[MOST_LINES];
    size_t count;
} lines[64];

__attribute__((constructor)) static void fill_lines(void)
{
    for (size_t k = 0; k < sizeof kinds_of_lines / sizeof kinds_of_lines[0]; k++)
        for (unsigned number = kinds_of_lines[k].first; number <= kinds_of_lines[k].last; number++) {
            lines[number].count = kinds_of_lines[k].count;
            for (size_t i = 0; i < kinds_of_lines[k].count; i++) {
                struct line line = kinds_of_lines[k].lines[i];
                lines[number].word[i] = line.word;
                lines[number].mask[i] = (((uint64_t)1 << (line.high + 1 - line.low)) - 1) << line.low;
            }
        }
}

/* The lines in which two commands of a number differ. */
static uint64_t differing_lines(unsigned number, const uint8_t *first, const uint8_t *second)
{
    uint64_t differing = 0;
    for (size_t i = 0; i < lines[number].count; i++) {
        size_t byte = 8 * (size_t)lines[number].word[i];
        if (((word_at(first + byte) ^ word_at(second + byte)) & lines[number].mask[i]) != 0)
            differing |= (uint64_t)1 << i;
    }
    size_t suffix = 8 * TRIANGLE_WORDS;
    if (is_triangle(number) && memcmp(first + suffix, second + suffix, 8 * words_in(number) - suffix) != 0)
        differing |= (uint64_t)1 << SUFFIX_LINE;
    return differing;
}

/* Refusals 1, 2 and 3, or 0. */
static uint64_t decoding_refusal(const uint8_t *list, size_t length)
{
    uint64_t refusal = length_refusal(length, 4096);
    if (refusal != 0)
        return refusal;
    size_t words = length / 8, at = 0;
    for (size_t here; at < words; at += here) {
        here = words_in(number_at(list + 8 * at));
        if (here > words - at)
            return answer(3, 0, at);
    }
    return 0;
}

/* The numbers of the entries, which are written where there are such. Where each list was left is told. */
static inline __attribute__((always_inline)) size_t compare_lists(const uint8_t *first, size_t *first_end, const uint8_t *second, size_t *second_end,
                                                                  uint32_t *entries)
{
    size_t numbers = 0, i = 0, k = 0;
    while (i < *first_end && k < *second_end) {
        unsigned number = number_at(first + i), other = number_at(second + k);
        size_t bytes = 8 * words_in(number);
        bool same = number == other && memcmp(first + i, second + k, bytes) == 0;
        uint64_t differing = !same && number == other ? differing_lines(number, first + i, second + k) : 0;
        if (number != other || differing != 0) {
            if (entries != NULL) {
                entries[numbers] = i / 8;
                entries[numbers + 1] = k / 8;
                entries[numbers + 2] = differing >> 32;
                entries[numbers + 3] = differing;
            }
            numbers += 4;
        }
        i += bytes;
        k += 8 * words_in(other);
    }
    *first_end = i;
    *second_end = k;
    return numbers;
}

static uint64_t compare_refusal(const uint8_t *first, size_t first_length, const uint8_t *second, size_t second_length)
{
    uint64_t refusal = decoding_refusal(first, first_length);
    return refusal != 0 ? refusal : decoding_refusal(second, second_length);
}

/* A refusal leaves the entries, so that they are counted first. */
uint64_t plain_compare(const uint8_t *first, size_t first_length, const uint8_t *second, size_t second_length, uint32_t *entries, size_t count)
{
    uint64_t refusal = compare_refusal(first, first_length, second, second_length);
    if (refusal != 0)
        return refusal;
    size_t ends[4] = {first_length, second_length, first_length, second_length};
    size_t numbers = compare_lists(first, &ends[0], second, &ends[1], NULL);
    if (numbers > count)
        return answer(14, 0, numbers);
    compare_lists(first, &ends[2], second, &ends[3], entries);
    return answer(0, 0, numbers);
}

uint64_t plain_rest(const uint8_t *first, size_t first_length, const uint8_t *second, size_t second_length, size_t count)
{
    uint64_t refusal = compare_refusal(first, first_length, second, second_length);
    size_t ends[2] = {first_length, second_length};
    if (refusal != 0)
        return answer(refusal >> 56, 0, first_length < UINT32_MAX ? first_length : UINT32_MAX);
    if (compare_lists(first, &ends[0], second, &ends[1], NULL) > count)
        return answer(14, 0, first_length);
    return ends[1] < second_length ? answer(0, 1, ends[1]) : answer(0, 0, ends[0]);
}

/* Views: an image as RGBA rows. */

enum { MOST_SIDE = 1024 };

/* A five-bit channel as eight bits. */
static uint8_t channel(unsigned v)
{
    return 8 * (v & 31) + (v & 31) / 4;
}

static void view_16(const uint8_t *image, size_t pixels, uint8_t *out)
{
    for (size_t i = 0; i < pixels; i++) {
        unsigned pixel = image[2 * i] << 8 | image[2 * i + 1];
        out[4 * i] = channel(pixel >> 11);
        out[4 * i + 1] = channel(pixel >> 6);
        out[4 * i + 2] = channel(pixel >> 1);
        out[4 * i + 3] = pixel & 1 ? 255 : 0;
    }
}

static void view_8(const uint8_t *image, size_t pixels, uint8_t *out)
{
    for (size_t i = 0; i < pixels; i++) {
        out[4 * i] = out[4 * i + 1] = out[4 * i + 2] = image[i];
        out[4 * i + 3] = 255;
    }
}

uint64_t plain_view(const uint8_t *memory, size_t memory_length, uint64_t start, uint64_t address, uint32_t width, uint32_t height, uint32_t size,
                    uint8_t *out, size_t out_length)
{
    if (width == 0 || width > MOST_SIDE || height == 0 || height > MOST_SIDE || size == 0 || size > 3)
        return answer(27, 0, 0);
    size_t pixels = (size_t)width * height, bytes = pixels << (size - 1);
    if (address < start || address - start > memory_length || memory_length - (address - start) < bytes)
        return answer(12, 0, 0);
    if (out_length < 4 * pixels)
        return answer(14, 0, 4 * pixels);
    const uint8_t *image = memory + (address - start);
    if (size == 1)
        view_8(image, pixels, out);
    else if (size == 2)
        view_16(image, pixels, out);
    else
        memcpy(out, image, bytes);
    return answer(0, 0, 4 * pixels);
}
