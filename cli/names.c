/* The names of commands and fields as the N64brew wiki (document 000) has them, fields in the order of its bit lists. */
#include "cli.h"

typedef struct {
    const char *name;
    Style style;
} Field;

/* A field at its index in the header; the count of fields has no name. */
#define AT(index, name, style) [LANYARDROVE_##index] = { name, style }

static const Field none[] = { { NULL, PLAIN } };
static const Field triangle[] = {
    AT(TRIANGLE_SHADE, "shade", PLAIN), AT(TRIANGLE_TEXTURE, "texture", PLAIN), AT(TRIANGLE_ZBUFFER, "zbuffer", PLAIN),
    AT(TRIANGLE_LMAJOR, "lmajor", PLAIN), AT(TRIANGLE_LEVEL, "level", PLAIN), AT(TRIANGLE_TILE, "tile", PLAIN),
    AT(TRIANGLE_YL, "yl", QUARTER), AT(TRIANGLE_YM, "ym", QUARTER), AT(TRIANGLE_YH, "yh", QUARTER),
    AT(TRIANGLE_XL_I, "xl.i", FIXED), AT(TRIANGLE_XL_F, "xl.f", PLAIN), AT(TRIANGLE_DXLDY_I, "dxldy.i", FIXED),
    AT(TRIANGLE_DXLDY_F, "dxldy.f", PLAIN), AT(TRIANGLE_XH_I, "xh.i", FIXED), AT(TRIANGLE_XH_F, "xh.f", PLAIN),
    AT(TRIANGLE_DXHDY_I, "dxhdy.i", FIXED), AT(TRIANGLE_DXHDY_F, "dxhdy.f", PLAIN), AT(TRIANGLE_XM_I, "xm.i", FIXED),
    AT(TRIANGLE_XM_F, "xm.f", PLAIN), AT(TRIANGLE_DXMDY_I, "dxmdy.i", FIXED), AT(TRIANGLE_DXMDY_F, "dxmdy.f", PLAIN),
    AT(TRIANGLE_FIELDS, NULL, PLAIN)
};
static const Field texture_rectangle[] = {
    AT(TEXRECT_LRX, "lrx", QUARTER), AT(TEXRECT_LRY, "lry", QUARTER), AT(TEXRECT_TILE, "tile", PLAIN), AT(TEXRECT_ULX, "ulx", QUARTER),
    AT(TEXRECT_ULY, "uly", QUARTER), AT(TEXRECT_S, "s", PARTS_32), AT(TEXRECT_T, "t", PARTS_32), AT(TEXRECT_DSDX, "dsdx", PARTS_1024),
    AT(TEXRECT_DTDY, "dtdy", PARTS_1024), AT(TEXRECT_FIELDS, NULL, PLAIN)
};
static const Field key_gb[] = {
    AT(KEY_GB_WIDTH_G, "width_G", PLAIN), AT(KEY_GB_WIDTH_B, "width_B", PLAIN), AT(KEY_GB_CENTER_G, "center_G", PLAIN),
    AT(KEY_GB_SCALE_G, "scale_G", PLAIN), AT(KEY_GB_CENTER_B, "center_B", PLAIN), AT(KEY_GB_SCALE_B, "scale_B", PLAIN),
    AT(KEY_GB_FIELDS, NULL, PLAIN)
};
static const Field key_r[] = {
    AT(KEY_R_WIDTH_R, "width_R", PLAIN), AT(KEY_R_CENTER_R, "center_R", PLAIN), AT(KEY_R_SCALE_R, "scale_R", PLAIN),
    AT(KEY_R_FIELDS, NULL, PLAIN)
};
static const Field convert[] = {
    AT(CONVERT_K0, "K0", PLAIN), AT(CONVERT_K1, "K1", PLAIN), AT(CONVERT_K2, "K2", PLAIN), AT(CONVERT_K3, "K3", PLAIN),
    AT(CONVERT_K4, "K4", PLAIN), AT(CONVERT_K5, "K5", PLAIN), AT(CONVERT_FIELDS, NULL, PLAIN)
};
static const Field scissor[] = {
    AT(SCISSOR_UPPER_LEFT_X, "upper_left.x", QUARTER), AT(SCISSOR_UPPER_LEFT_Y, "upper_left.y", QUARTER), AT(SCISSOR_FIELD, "field", PLAIN),
    AT(SCISSOR_ODD, "odd", PLAIN), AT(SCISSOR_LOWER_RIGHT_X, "lower_right.x", QUARTER), AT(SCISSOR_LOWER_RIGHT_Y, "lower_right.y", QUARTER),
    AT(SCISSOR_FIELDS, NULL, PLAIN)
};
static const Field primitive_depth[] = {
    AT(PRIMITIVE_DEPTH_Z, "z", PLAIN), AT(PRIMITIVE_DEPTH_DZ, "dz", PLAIN), AT(PRIMITIVE_DEPTH_FIELDS, NULL, PLAIN)
};
static const Field other_modes[] = {
    AT(OTHER_MODES_ATOMIC_PRIM, "atomic_prim", PLAIN), AT(OTHER_MODES_CYCLE_TYPE, "cycle_type", CYCLE),
    AT(OTHER_MODES_PERSP_TEX_EN, "persp_tex_en", PLAIN), AT(OTHER_MODES_DETAIL_TEX_EN, "detail_tex_en", PLAIN),
    AT(OTHER_MODES_SHARPEN_TEX_EN, "sharpen_tex_en", PLAIN), AT(OTHER_MODES_TEX_LOD_EN, "tex_lod_en", PLAIN),
    AT(OTHER_MODES_TLUT_EN, "tlut_en", PLAIN), AT(OTHER_MODES_TLUT_TYPE, "tlut_type", PLAIN),
    AT(OTHER_MODES_SAMPLE_TYPE, "sample_type", PLAIN), AT(OTHER_MODES_MID_TEXEL, "mid_texel", PLAIN),
    AT(OTHER_MODES_BI_LERP_0, "bi_lerp_0", PLAIN), AT(OTHER_MODES_BI_LERP_1, "bi_lerp_1", PLAIN),
    AT(OTHER_MODES_CONVERT_ONE, "convert_one", PLAIN), AT(OTHER_MODES_KEY_EN, "key_en", PLAIN),
    AT(OTHER_MODES_RGB_DITHER_SEL, "rgb_dither_sel", PLAIN), AT(OTHER_MODES_ALPHA_DITHER_SEL, "alpha_dither_sel", PLAIN),
    AT(OTHER_MODES_BL_M1A_0, "bl_m1a_0", PLAIN), AT(OTHER_MODES_BL_M1A_1, "bl_m1a_1", PLAIN), AT(OTHER_MODES_BL_M1B_0, "bl_m1b_0", PLAIN),
    AT(OTHER_MODES_BL_M1B_1, "bl_m1b_1", PLAIN), AT(OTHER_MODES_BL_M2A_0, "bl_m2a_0", PLAIN), AT(OTHER_MODES_BL_M2A_1, "bl_m2a_1", PLAIN),
    AT(OTHER_MODES_BL_M2B_0, "bl_m2b_0", PLAIN), AT(OTHER_MODES_BL_M2B_1, "bl_m2b_1", PLAIN),
    AT(OTHER_MODES_FORCE_BLEND, "force_blend", PLAIN), AT(OTHER_MODES_ALPHA_CVG_SELECT, "alpha_cvg_select", PLAIN),
    AT(OTHER_MODES_CVG_X_ALPHA, "cvg_x_alpha", PLAIN), AT(OTHER_MODES_Z_MODE, "z_mode", PLAIN), AT(OTHER_MODES_CVG_DEST, "cvg_dest", PLAIN),
    AT(OTHER_MODES_COLOR_ON_CVG, "color_on_cvg", PLAIN), AT(OTHER_MODES_IMAGE_READ_EN, "image_read_en", PLAIN),
    AT(OTHER_MODES_Z_UPDATE_EN, "z_update_en", PLAIN), AT(OTHER_MODES_Z_COMPARE_EN, "z_compare_en", PLAIN),
    AT(OTHER_MODES_ANTIALIAS_EN, "antialias_en", PLAIN), AT(OTHER_MODES_Z_SOURCE_SEL, "z_source_sel", PLAIN),
    AT(OTHER_MODES_DITHER_ALPHA_EN, "dither_alpha_en", PLAIN), AT(OTHER_MODES_ALPHA_COMPARE_EN, "alpha_compare_en", PLAIN),
    AT(OTHER_MODES_FIELDS, NULL, PLAIN)
};
static const Field load_area[] = {
    AT(AREA_UPPER_LEFT_S, "upper_left.s", QUARTER), AT(AREA_UPPER_LEFT_T, "upper_left.t", QUARTER), AT(AREA_TILE, "tile", PLAIN),
    AT(AREA_LOWER_RIGHT_S, "lower_right.s", QUARTER), AT(AREA_LOWER_RIGHT_T, "lower_right.t", QUARTER), AT(AREA_FIELDS, NULL, PLAIN)
};
static const Field tile_size[] = {
    AT(AREA_UPPER_LEFT_S, "upper_left.s", QUARTER), AT(AREA_UPPER_LEFT_T, "upper_left.t", QUARTER), AT(AREA_TILE, "index", PLAIN),
    AT(AREA_LOWER_RIGHT_S, "lower_right.s", QUARTER), AT(AREA_LOWER_RIGHT_T, "lower_right.t", QUARTER), AT(AREA_FIELDS, NULL, PLAIN)
};
static const Field load_block[] = {
    AT(BLOCK_UPPER_LEFT_S, "upper_left.s", QUARTER), AT(BLOCK_UPPER_LEFT_T, "upper_left.t", QUARTER), AT(BLOCK_TILE, "tile", PLAIN),
    AT(BLOCK_LOWER_RIGHT_S, "lower_right.s", QUARTER), AT(BLOCK_DXT, "dxt", PLAIN), AT(BLOCK_FIELDS, NULL, PLAIN)
};
static const Field tile[] = {
    AT(TILE_FORMAT, "format", FORMAT), AT(TILE_SIZE, "size", SIZE), AT(TILE_LINE, "line", PLAIN), AT(TILE_ADDRESS, "address", HEX),
    AT(TILE_INDEX, "index", PLAIN), AT(TILE_PALETTE, "palette", PLAIN), AT(TILE_CLAMP_T, "clamp_T", PLAIN),
    AT(TILE_MIRROR_T, "mirror_T", PLAIN), AT(TILE_MASK_T, "mask_T", PLAIN), AT(TILE_SHIFT_T, "shift_T", PLAIN),
    AT(TILE_CLAMP_S, "clamp_S", PLAIN), AT(TILE_MIRROR_S, "mirror_S", PLAIN), AT(TILE_MASK_S, "mask_S", PLAIN),
    AT(TILE_SHIFT_S, "shift_S", PLAIN), AT(TILE_FIELDS, NULL, PLAIN)
};
static const Field fill_rectangle[] = {
    AT(RECTANGLE_LOWER_RIGHT_X, "lower_right.x", QUARTER), AT(RECTANGLE_LOWER_RIGHT_Y, "lower_right.y", QUARTER),
    AT(RECTANGLE_UPPER_LEFT_X, "upper_left.x", QUARTER), AT(RECTANGLE_UPPER_LEFT_Y, "upper_left.y", QUARTER),
    AT(RECTANGLE_FIELDS, NULL, PLAIN)
};
static const Field fill_color[] = {
    AT(FILL_COLOR_COLOR, "color", COLOUR), AT(FILL_COLOR_FIELDS, NULL, PLAIN)
};
static const Field color[] = {
    AT(COLOR_RED, "red", PLAIN), AT(COLOR_GREEN, "green", PLAIN), AT(COLOR_BLUE, "blue", PLAIN), AT(COLOR_ALPHA, "alpha", PLAIN),
    AT(COLOR_FIELDS, NULL, PLAIN)
};
static const Field primitive_color[] = {
    AT(PRIMITIVE_COLOR_MIN_LEVEL, "min_level", PLAIN), AT(PRIMITIVE_COLOR_PRIM_LOD_FRAC, "prim_lod_frac", PLAIN),
    AT(PRIMITIVE_COLOR_RED, "red", PLAIN), AT(PRIMITIVE_COLOR_GREEN, "green", PLAIN), AT(PRIMITIVE_COLOR_BLUE, "blue", PLAIN),
    AT(PRIMITIVE_COLOR_ALPHA, "alpha", PLAIN), AT(PRIMITIVE_COLOR_FIELDS, NULL, PLAIN)
};
static const Field combine[] = {
    AT(COMBINE_MODE, "mode", HEX), AT(COMBINE_FIELDS, NULL, PLAIN)
}; /* one number by document 01, named as in the header */
static const Field image[] = {
    AT(IMAGE_FORMAT, "format", FORMAT), AT(IMAGE_SIZE, "size", SIZE), AT(IMAGE_WIDTH, "width", LESS_ONE),
    AT(IMAGE_ADDRESS, "dramAddress", HEX), AT(IMAGE_FIELDS, NULL, PLAIN)
};
static const Field depth_image[] = {
    AT(DEPTH_IMAGE_ADDRESS, "dramAddress", HEX), AT(DEPTH_IMAGE_FIELDS, NULL, PLAIN)
};

typedef struct {
    unsigned number;
    const char *name;
    const Field *fields;
} Named;

static const Named named[] = {
    { LANYARDROVE_NO_OPERATION, "No Operation", none },
    { LANYARDROVE_FILL_TRIANGLE, "Fill Triangle", triangle }, { LANYARDROVE_FILL_TRIANGLE_Z, "Fill Triangle (Z)", triangle },
    { LANYARDROVE_FILL_TRIANGLE_T, "Fill Triangle (T)", triangle }, { LANYARDROVE_FILL_TRIANGLE_TZ, "Fill Triangle (TZ)", triangle },
    { LANYARDROVE_FILL_TRIANGLE_S, "Fill Triangle (S)", triangle }, { LANYARDROVE_FILL_TRIANGLE_SZ, "Fill Triangle (SZ)", triangle },
    { LANYARDROVE_FILL_TRIANGLE_ST, "Fill Triangle (ST)", triangle }, { LANYARDROVE_FILL_TRIANGLE_STZ, "Fill Triangle (STZ)", triangle },
    { LANYARDROVE_TEXTURE_RECTANGLE, "Texture Rectangle", texture_rectangle },
    { LANYARDROVE_TEXTURE_RECTANGLE_FLIP, "Texture Rectangle Flip", texture_rectangle }, { LANYARDROVE_SYNC_LOAD, "Sync Load", none },
    { LANYARDROVE_SYNC_PIPE, "Sync Pipe", none }, { LANYARDROVE_SYNC_TILE, "Sync Tile", none },
    { LANYARDROVE_SYNC_FULL, "Sync Full", none }, { LANYARDROVE_SET_KEY_GB, "Set Key GB", key_gb },
    { LANYARDROVE_SET_KEY_R, "Set Key R", key_r }, { LANYARDROVE_SET_CONVERT, "Set Convert", convert },
    { LANYARDROVE_SET_SCISSOR, "Set Scissor", scissor }, { LANYARDROVE_SET_PRIMITIVE_DEPTH, "Set Primitive Depth", primitive_depth },
    { LANYARDROVE_SET_OTHER_MODES, "Set Other Modes", other_modes }, { LANYARDROVE_LOAD_TLUT, "Load TLUT", load_area },
    { LANYARDROVE_SET_TILE_SIZE, "Set Tile Size", tile_size }, { LANYARDROVE_LOAD_BLOCK, "Load Block", load_block },
    { LANYARDROVE_LOAD_TILE, "Load Tile", load_area }, { LANYARDROVE_SET_TILE, "Set Tile", tile },
    { LANYARDROVE_FILL_RECTANGLE, "Fill Rectangle", fill_rectangle }, { LANYARDROVE_SET_FILL_COLOR, "Set Fill Color", fill_color },
    { LANYARDROVE_SET_FOG_COLOR, "Set Fog Color", color }, { LANYARDROVE_SET_BLEND_COLOR, "Set Blend Color", color },
    { LANYARDROVE_SET_PRIMITIVE_COLOR, "Set Primitive Color", primitive_color },
    { LANYARDROVE_SET_ENVIRONMENT_COLOR, "Set Environment Color", color }, { LANYARDROVE_SET_COMBINE_MODE, "Set Combine Mode", combine },
    { LANYARDROVE_SET_TEXTURE_IMAGE, "Set Texture Image", image }, { LANYARDROVE_SET_DEPTH_IMAGE, "Set Depth Image", depth_image },
    { LANYARDROVE_SET_COLOR_IMAGE, "Set Color Image", image }
};

static const Named unassigned = { 0, "Unassigned", none };

/* The entry of a command; every other number is unassigned (document 02). */
static const Named *entry_of(unsigned number)
{
    for (size_t i = 0; i < sizeof named / sizeof named[0]; i++)
        if (named[i].number == number)
            return &named[i];
    return &unassigned;
}

/* Neither a no operation nor unassigned. */
bool does_something(unsigned number)
{
    return number != LANYARDROVE_NO_OPERATION && entry_of(number) != &unassigned;
}

const char *command_name(unsigned number)
{
    return entry_of(number)->name;
}

const char *name_at(const List *list, size_t place)
{
    Command command;
    return command_at(list, place, &command) ? command_name(command.number) : "the command";
}

static Field field_of(unsigned number, size_t field)
{
    static const Field unnamed = { "?", HEX };
    const Field *fields = entry_of(number)->fields;
    for (size_t i = 0; fields[i].name != NULL; i++)
        if (i == field)
            return fields[i];
    return unnamed;
}

const char *field_name(unsigned number, size_t field)
{
    return field_of(number, field).name;
}

Style field_style(unsigned number, size_t field)
{
    return field_of(number, field).style;
}

/* Which coefficients a word after a triangle's base holds: shade, texture, then z-buffer. */
const char *suffix_name(const Command *command, size_t word)
{
    size_t shade = command->fields[LANYARDROVE_TRIANGLE_SHADE] != 0 ? 8 : 0;
    size_t texture = command->fields[LANYARDROVE_TRIANGLE_TEXTURE] != 0 ? 8 : 0;
    if (word < shade)
        return "shade";
    return word < shade + texture ? "texture" : "zbuffer";
}
