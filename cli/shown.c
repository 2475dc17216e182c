/* The fields of a command as they are shown: each with its value, a number's two parts as one, the combiner's inputs by name. */
#include "cli.h"

#include <inttypes.h>
#include <string.h>

/* A fixed-point number without zeros at its end; five digits tell all parts of 65,536 apart. */
static void fixed_text(double value, char *text, size_t room)
{
    size_t length = (size_t)snprintf(text, room, "%.5f", value);
    while (text[length - 1] == '0')
        length--;
    text[text[length - 1] == '.' ? length - 1 : length] = '\0';
}

/* A number, and in brackets what it is in parts of so many. */
static void parts_text(int64_t value, int parts, char *text, size_t room)
{
    char fixed[32];
    fixed_text((double)value / parts, fixed, sizeof fixed);
    snprintf(text, room, "%" PRId64 " (%s)", value, fixed);
}

static const char *format_name(uint64_t value)
{
    static const char *const names[] = { "RGBA", "YUV", "CI", "IA" };
    return value < 4 ? names[value] : "I";
}

static const char *cycle_name(uint64_t value)
{
    static const char *const names[] = { "1-Cycle", "2-Cycle", "COPY", "FILL" };
    return names[value & 3];
}

/* The value of a field, with its meaning where the number alone says little. */
static void value_text(const uint64_t *fields, Style style, char *text, size_t room)
{
    uint64_t value = fields[0];
    switch (style) {
    case PLAIN: snprintf(text, room, "%" PRIu64, value); break;
    case QUARTER: snprintf(text, room, "%" PRId64 " (%.2f)", (int64_t)value, (double)(int64_t)value / 4); break;
    case PARTS_32: parts_text((int64_t)value, 32, text, room); break;
    case PARTS_1024: parts_text((int64_t)value, 1024, text, room); break;
    case FIXED: fixed_text((double)(int64_t)value + (double)fields[1] / 65536, text, room); break;
    case HEX: snprintf(text, room, "0x%" PRIX64, value); break;
    case COLOUR: snprintf(text, room, "0x%08" PRIX64, value); break;
    case FORMAT: snprintf(text, room, "%" PRIu64 " (%s)", value, format_name(value)); break;
    case SIZE: snprintf(text, room, "%" PRIu64 " (%d bits)", value, 4 << (value & 3)); break;
    case CYCLE: snprintf(text, room, "%" PRIu64 " (%s)", value, cycle_name(value)); break;
    case LESS_ONE: snprintf(text, room, "%" PRIu64 " (%" PRIu64 " pixels)", value, value + 1); break;
    }
}

/* -- Set Combine Mode: (A - B) * C + D, of colour and of alpha, in two cycles ---------------------------------------------------- */

/* An input: where its number stands in the mode, and the names of its values; those after the last are 0. */
typedef struct {
    unsigned low, bits;
    const char *const *names;
    unsigned count;
} CombinerInput;

#define COMMON "COMBINED", "TEX0", "TEX1", "PRIMITIVE", "SHADE", "ENVIRONMENT"
static const char *const rgb_a[] = { COMMON, "1", "NOISE" };
static const char *const rgb_b[] = { COMMON, "CENTER", "K4" };
static const char *const rgb_c[] = { COMMON, "SCALE", "COMBINED_ALPHA", "TEX0_ALPHA", "TEX1_ALPHA", "PRIMITIVE_ALPHA", "SHADE_ALPHA",
                                     "ENVIRONMENT_ALPHA", "LOD_FRACTION", "PRIM_LOD_FRAC", "K5" };
static const char *const rgb_d[] = { COMMON, "1" };
static const char *const alpha_abd[] = { COMMON, "1" };
static const char *const alpha_c[] = { "LOD_FRACTION", "TEX0", "TEX1", "PRIMITIVE", "SHADE", "ENVIRONMENT", "PRIM_LOD_FRAC" };

#define NAMES(names) names, sizeof names / sizeof names[0]
static const struct {
    const char *name;
    CombinerInput inputs[4]; /* A, B, C, D */
} equations[] = {
    { "RGB_0", { { 52, 4, NAMES(rgb_a) }, { 28, 4, NAMES(rgb_b) }, { 47, 5, NAMES(rgb_c) }, { 15, 3, NAMES(rgb_d) } } },
    { "Alpha_0", { { 44, 3, NAMES(alpha_abd) }, { 12, 3, NAMES(alpha_abd) }, { 41, 3, NAMES(alpha_c) }, { 9, 3, NAMES(alpha_abd) } } },
    { "RGB_1", { { 37, 4, NAMES(rgb_a) }, { 24, 4, NAMES(rgb_b) }, { 32, 5, NAMES(rgb_c) }, { 6, 3, NAMES(rgb_d) } } },
    { "Alpha_1", { { 21, 3, NAMES(alpha_abd) }, { 3, 3, NAMES(alpha_abd) }, { 18, 3, NAMES(alpha_c) }, { 0, 3, NAMES(alpha_abd) } } }
};
#define EQUATIONS (sizeof equations / sizeof equations[0])

static const char *input_name(uint64_t mode, const CombinerInput *input)
{
    uint64_t value = mode >> input->low & ((1u << input->bits) - 1);
    return value < input->count ? input->names[value] : "0";
}

static void equation_text(uint64_t mode, size_t equation, char *text, size_t room)
{
    const CombinerInput *inputs = equations[equation].inputs;
    snprintf(text, room, "(%s-%s)*%s+%s", input_name(mode, &inputs[0]), input_name(mode, &inputs[1]), input_name(mode, &inputs[2]),
             input_name(mode, &inputs[3]));
}

/* What is shown of a command, one after the other from `at` 0 on; false after the last. */
bool next_shown(const Command *command, size_t *at, Shown *shown)
{
    size_t field = *at;
    if (field < command->count) {
        Style style = field_style(command->number, field);
        size_t fields = style == FIXED ? 2 : 1;
        snprintf(shown->name, sizeof shown->name, "%s", field_name(command->number, field));
        if (style == FIXED)
            *strrchr(shown->name, '.') = '\0'; /* of .i and .f */
        value_text(&command->fields[field], style, shown->value, sizeof shown->value);
        shown->is_zero = command->fields[field] == 0 && command->fields[field + fields - 1] == 0;
        *at += fields;
        return true;
    }
    size_t equation = field - command->count;
    if (command->number != LANYARDROVE_SET_COMBINE_MODE || equation >= EQUATIONS)
        return false;
    snprintf(shown->name, sizeof shown->name, "%s", equations[equation].name);
    equation_text(command->fields[LANYARDROVE_COMBINE_MODE], equation, shown->value, sizeof shown->value);
    shown->is_zero = false;
    *at += 1;
    return true;
}
