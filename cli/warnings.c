/* What the check does not say of a list: rules of the tool, by the library's decoding. They are no verdict. */
#include "lint.h"

#include <stdarg.h>
#include <stdlib.h>
#include <string.h>

#define TILES 8
#define MOST_TEXELS 2048 /* of a Load Block (document 000) */
#define RUN 2            /* words in a row that look like data */

static const struct {
    const char *name, *rule;
} kinds[WARNING_KINDS] = {
    [FILL_TEXTURE] = { "fill-texture", "A texture rectangle in FILL mode fills, and reads no texture." },
    [DEPTH_IMAGE] = { "depth-image", "A triangle with depth stands in a list with no Set Depth Image before it." },
    [COMBINE_MODE] = { "combine-mode", "A draw in 1-Cycle or 2-Cycle mode stands in a list with no Set Combine Mode before it." },
    [TEXTURE_MEMORY] = { "texture-memory", "A load goes past the end of texture memory, or a Load Block has over 2,048 texels." },
    [SYNC_FULL] = { "sync-full", "A list has no Sync Full." },
    [DATA_RUN] = { "data-run", "Words in a row look like data: unassigned numbers, or no operations with other bits set." },
    [SWAPPED] = { "swapped", "A list reads as one of little-endian words." }
};

const char *warning_name(WarningKind kind)
{
    return kinds[kind].name;
}

const char *warning_rule(WarningKind kind)
{
    return kinds[kind].rule;
}

/* Whether a warning is about the whole list, and not about a command. */
bool is_of_list(WarningKind kind)
{
    return kind == SYNC_FULL || kind == SWAPPED;
}

/* NAME or no-NAME, where a NAME of all stands for each: the kinds that are not told. False where there is none of the name. */
bool take_warning(const char *text, unsigned *silenced)
{
    bool off = strncmp(text, "no-", 3) == 0;
    unsigned named = strcmp(text + 3 * off, "all") == 0 ? (1u << WARNING_KINDS) - 1 : 0;
    for (unsigned kind = 0; kind < WARNING_KINDS; kind++)
        if (strcmp(text + 3 * off, kinds[kind].name) == 0)
            named = 1u << kind;
    *silenced = off ? *silenced | named : *silenced & ~named;
    return named != 0;
}

/* -- along a list ---------------------------------------------------------- */

typedef struct {
    unsigned line, address; /* in words of texture memory; 0 where nothing is set, so that a warning is not too much */
} Tile;

typedef struct {
    const List *list;
    Warnings *warnings;
    unsigned silenced;
    bool has_modes, has_depth, has_combine, has_full; /* so far */
    uint64_t cycle;                                   /* the cycle type */
    unsigned texel_bits;                              /* of the texture image; the least where none is set */
    Tile tiles[TILES];
    bool told[WARNING_KINDS]; /* of those that are told once */
    size_t run, run_start;    /* words that look like data */
} Walk;

__attribute__((format(printf, 4, 5))) static void warn(Walk *walk, WarningKind kind, size_t place, const char *format, ...)
{
    Warnings *warnings = walk->warnings;
    if (walk->silenced >> kind & 1)
        return;
    if (warnings->count == warnings->room) {
        size_t room = 2 * warnings->room + 16;
        Warning *more = realloc(warnings->warnings, room * sizeof *more);
        if (more == NULL) {
            warnings->failed = true;
            return;
        }
        warnings->warnings = more;
        warnings->room = room;
    }
    Warning *warning = &warnings->warnings[warnings->count++];
    va_list values;
    *warning = (Warning){ .kind = kind, .place = place };
    va_start(values, format);
    vsnprintf(warning->text, sizeof warning->text, format, values);
    va_end(values);
}

/* Once in a list: what is not set stays so. */
static bool is_first(Walk *walk, WarningKind kind)
{
    bool first = !walk->told[kind];
    walk->told[kind] = true;
    return first;
}

/* The library's step says what a command is. */
static bool leaves(const Command *command, unsigned hazard)
{
    return (hazards_after(0, command) & hazard) != 0;
}

/* -- draws ----------------------------------------------------------------- */

static void see_draw(Walk *walk, const Command *command)
{
    const char *name = command_name(command->number);
    bool textured = command->number == LANYARDROVE_TEXTURE_RECTANGLE || command->number == LANYARDROVE_TEXTURE_RECTANGLE_FLIP;
    bool deep = command->count == LANYARDROVE_TRIANGLE_FIELDS && command->fields[LANYARDROVE_TRIANGLE_ZBUFFER] != 0;
    if (textured && walk->has_modes && walk->cycle == 3)
        warn(walk, FILL_TEXTURE, command->place, "%s in FILL mode fills, and reads no texture", name);
    if (deep && !walk->has_depth && is_first(walk, DEPTH_IMAGE))
        warn(walk, DEPTH_IMAGE, command->place, "%s has depth, and no Set Depth Image stands before it in this list", name);
    if (walk->has_modes && walk->cycle < 2 && !walk->has_combine && is_first(walk, COMBINE_MODE))
        warn(walk, COMBINE_MODE, command->place, "%s draws in %s mode, and no Set Combine Mode stands before it in this list", name,
             walk->cycle == 0 ? "1-Cycle" : "2-Cycle");
}

/* -- loads ----------------------------------------------------------------- */

/* Texels of 32 bits go half to each half of texture memory. */
static void see_end(Walk *walk, const Command *command, uint64_t address, uint64_t words, uint64_t texels, unsigned bits)
{
    bool halves = bits == 32;
    uint64_t limit = halves ? LANYARDROVE_TEXTURE_BYTES / 2 : LANYARDROVE_TEXTURE_BYTES;
    uint64_t end = 8 * (address + words) + (texels * (halves ? 16 : bits) + 7) / 8;
    if (end > limit)
        warn(walk, TEXTURE_MEMORY, command->place, "%s goes to byte %u of %stexture memory, which has %u", command_name(command->number), (unsigned)(end - 1),
             halves ? "each half of " : "", (unsigned)limit);
}

/* From the floor of one coordinate to the floor of another, in quarters; 0 where the end is before the start. */
static uint64_t steps_between(uint64_t first, uint64_t last)
{
    return last / 4 >= first / 4 ? last / 4 - first / 4 + 1 : 0;
}

static void see_load_tile(Walk *walk, const Command *command)
{
    const uint64_t *fields = command->fields;
    const Tile *tile = &walk->tiles[fields[LANYARDROVE_AREA_TILE] % TILES];
    uint64_t columns = steps_between(fields[LANYARDROVE_AREA_UPPER_LEFT_S], fields[LANYARDROVE_AREA_LOWER_RIGHT_S]);
    uint64_t rows = steps_between(fields[LANYARDROVE_AREA_UPPER_LEFT_T], fields[LANYARDROVE_AREA_LOWER_RIGHT_T]);
    if (columns > 0 && rows > 0)
        see_end(walk, command, tile->address, tile->line * (rows - 1), columns, walk->texel_bits);
}

/* Each entry is written four times: eight bytes. */
static void see_load_tlut(Walk *walk, const Command *command)
{
    const uint64_t *fields = command->fields;
    const Tile *tile = &walk->tiles[fields[LANYARDROVE_AREA_TILE] % TILES];
    uint64_t entries = steps_between(fields[LANYARDROVE_AREA_UPPER_LEFT_S], fields[LANYARDROVE_AREA_LOWER_RIGHT_S]);
    if (entries > 0)
        see_end(walk, command, tile->address, entries, 0, 16);
}

/* s is in whole texels here (document 02). */
static void see_load_block(Walk *walk, const Command *command)
{
    const uint64_t *fields = command->fields;
    const Tile *tile = &walk->tiles[fields[LANYARDROVE_BLOCK_TILE] % TILES];
    uint64_t first = fields[LANYARDROVE_BLOCK_UPPER_LEFT_S], last = fields[LANYARDROVE_BLOCK_LOWER_RIGHT_S];
    uint64_t texels = last >= first ? last - first + 1 : 0;
    if (texels > MOST_TEXELS)
        warn(walk, TEXTURE_MEMORY, command->place, "Load Block of %u texels, over 2,048, loads nothing", (unsigned)texels);
    else if (texels > 0)
        see_end(walk, command, tile->address, 0, texels, walk->texel_bits);
}

/* -- what is set ----------------------------------------------------------- */

static void set(Walk *walk, const Command *command)
{
    const uint64_t *fields = command->fields;
    switch (command->number) {
    case LANYARDROVE_SET_OTHER_MODES:
        walk->has_modes = true;
        walk->cycle = fields[LANYARDROVE_OTHER_MODES_CYCLE_TYPE];
        break;
    case LANYARDROVE_SET_DEPTH_IMAGE: walk->has_depth = true; break;
    case LANYARDROVE_SET_COMBINE_MODE: walk->has_combine = true; break;
    case LANYARDROVE_SYNC_FULL: walk->has_full = true; break;
    case LANYARDROVE_SET_TEXTURE_IMAGE: walk->texel_bits = 4u << (fields[LANYARDROVE_IMAGE_SIZE] & 3); break;
    case LANYARDROVE_SET_TILE:
        walk->tiles[fields[LANYARDROVE_TILE_INDEX] % TILES] = (Tile){ (unsigned)fields[LANYARDROVE_TILE_LINE], (unsigned)fields[LANYARDROVE_TILE_ADDRESS] };
        break;
    }
}

/* -- data ------------------------------------------------------------------ */

static void end_run(Walk *walk)
{
    if (walk->run >= RUN)
        warn(walk, DATA_RUN, walk->run_start, "%zu words that look like data: unassigned numbers, or no operations with other bits set", walk->run);
    walk->run = 0;
}

static void see_data(Walk *walk, const Command *command)
{
    if (does_something(command->number) || word_at(walk->list->bytes, command->place) == 0) {
        end_run(walk);
        return;
    }
    walk->run_start = walk->run == 0 ? command->place : walk->run_start;
    walk->run++;
}

static void see(Walk *walk, const Command *command)
{
    see_data(walk, command);
    set(walk, command);
    if (leaves(command, LANYARDROVE_HAZARD_DRAW))
        see_draw(walk, command);
    switch (command->number) {
    case LANYARDROVE_LOAD_TLUT: see_load_tlut(walk, command); break;
    case LANYARDROVE_LOAD_BLOCK: see_load_block(walk, command); break;
    case LANYARDROVE_LOAD_TILE: see_load_tile(walk, command); break;
    }
}

/* -- the whole list -------------------------------------------------------- */

bool is_read_whole(const Warnings *warnings)
{
    return warnings->read.number < LANYARDROVE_TOO_LONG || warnings->read.number > LANYARDROVE_PAST_END;
}

static void walk_along(Walk *walk)
{
    const List *list = walk->list;
    Command command;
    for (size_t place = 0; place < LIST_LIMIT / 8 && command_at(list, place, &command) && command.whole; place += command.words)
        see(walk, &command);
    end_run(walk);
    if (!walk->has_full && is_read_whole(walk->warnings))
        warn(walk, SYNC_FULL, list->length / 8, "the list has no Sync Full");
}

/* The warnings of a list, to be freed; of one that cannot be read to its end those of its whole commands. Where it reads as swapped that is told
   alone, since its commands are none. False where memory is short, which is told. */
bool warnings_of(const List *list, const Input *input, unsigned silenced, Warnings *warnings)
{
    Walk walk = { .list = list, .warnings = warnings, .silenced = silenced, .texel_bits = 4 };
    *warnings = (Warnings){ .read = answer_of(lanyardrove_index_build(list->bytes, list->length, NULL, 0)) };
    if (looks_swapped(list, input))
        warn(&walk, SWAPPED, 0, "the list reads as one of little-endian words: try --swap");
    if (warnings->count == 0)
        walk_along(&walk);
    if (warnings->failed)
        complain("not enough memory");
    return !warnings->failed;
}
