//! The fields of each command: the bit lines of 000, in the order of its lists.

use crate::words::{bits, mask};

/// One bit line of 000: bits `high:low` of one of the command's words.
#[derive(Clone, Copy, Debug, PartialEq, Eq)]
pub struct Field {
    pub name: &'static str,
    pub word: usize,
    pub high: u32,
    pub low: u32,
    pub signed: bool,
}

impl Field {
    /// How many bits the field has.
    pub fn width(&self) -> u32 {
        self.high - self.low + 1
    }

    /// The field's value as a 64-bit number, two's complement if it is signed.
    pub fn read(&self, words: &[u64]) -> u64 {
        let value = bits(words[self.word], self.high, self.low);
        let negative = self.signed && value >> (self.width() - 1) == 1;
        if negative {
            value | !mask(self.width())
        } else {
            value
        }
    }

    /// Whether a value fits in the field's bits.
    pub fn fits(&self, value: u64) -> bool {
        if self.signed {
            let half = 1i64 << (self.width() - 1);
            (-half..half).contains(&(value as i64))
        } else {
            value <= mask(self.width())
        }
    }

    /// Puts a value that fits into the field's bits, which are zero.
    pub fn write(&self, words: &mut [u64], value: u64) {
        words[self.word] |= (value & mask(self.width())) << self.low;
    }
}

const fn unsigned(name: &'static str, word: usize, high: u32, low: u32) -> Field {
    Field {
        name,
        word,
        high,
        low,
        signed: false,
    }
}

const fn signed(name: &'static str, word: usize, high: u32, low: u32) -> Field {
    Field {
        name,
        word,
        high,
        low,
        signed: true,
    }
}

/// A field of a command that has one word.
const fn line(name: &'static str, high: u32, low: u32) -> Field {
    unsigned(name, 0, high, low)
}

/// 000, "0x08 through 0x0F - Fill Triangle", base command. Signed by 01: y, the
/// integer part of x and of a slope.
const TRIANGLE: &[Field] = &[
    line("shade", 58, 58),
    line("texture", 57, 57),
    line("zbuffer", 56, 56),
    line("lmajor", 55, 55),
    line("level", 53, 51),
    line("tile", 50, 48),
    signed("yl", 0, 45, 32),
    signed("ym", 0, 29, 16),
    signed("yh", 0, 13, 0),
    signed("xl.i", 1, 59, 48),
    unsigned("xl.f", 1, 47, 32),
    signed("dxldy.i", 1, 29, 16),
    unsigned("dxldy.f", 1, 15, 0),
    signed("xh.i", 2, 59, 48),
    unsigned("xh.f", 2, 47, 32),
    signed("dxhdy.i", 2, 29, 16),
    unsigned("dxhdy.f", 2, 15, 0),
    signed("xm.i", 3, 59, 48),
    unsigned("xm.f", 3, 47, 32),
    signed("dxmdy.i", 3, 29, 16),
    unsigned("dxmdy.f", 3, 15, 0),
];

/// 000, "0x24 and 0x25 - Texture Rectangle". Signed by 01: s, t, dsdx, dtdy.
const TEXTURE_RECTANGLE: &[Field] = &[
    line("lrx", 55, 44),
    line("lry", 43, 32),
    line("tile", 26, 24),
    line("ulx", 23, 12),
    line("uly", 11, 0),
    signed("s", 1, 63, 48),
    signed("t", 1, 47, 32),
    signed("dsdx", 1, 31, 16),
    signed("dtdy", 1, 15, 0),
];

/// 000, "0x2A - Set Key GB".
const SET_KEY_GB: &[Field] = &[
    line("width_G", 55, 44),
    line("width_B", 43, 32),
    line("center_G", 31, 24),
    line("scale_G", 23, 16),
    line("center_B", 15, 8),
    line("scale_B", 7, 0),
];

/// 000, "0x2B - Set Key R".
const SET_KEY_R: &[Field] = &[
    line("width_R", 27, 16),
    line("center_R", 15, 8),
    line("scale_R", 7, 0),
];

/// 000, "0x2C - Set Convert".
const SET_CONVERT: &[Field] = &[
    line("K0", 53, 45),
    line("K1", 44, 36),
    line("K2", 35, 27),
    line("K3", 26, 18),
    line("K4", 17, 9),
    line("K5", 8, 0),
];

/// 000, "0x2D - Set Scissor".
const SET_SCISSOR: &[Field] = &[
    line("upper_left.x", 55, 44),
    line("upper_left.y", 43, 32),
    line("field", 25, 25),
    line("odd", 24, 24),
    line("lower_right.x", 23, 12),
    line("lower_right.y", 11, 0),
];

/// 000, "0x2E - Set Primitive Depth".
const SET_PRIMITIVE_DEPTH: &[Field] = &[line("z", 31, 16), line("dz", 15, 0)];

/// 000, "0x2F - Set Other Modes". The lines named `-` are unused bits.
const SET_OTHER_MODES: &[Field] = &[
    line("atomic_prim", 55, 55),
    line("cycle_type", 53, 52),
    line("persp_tex_en", 51, 51),
    line("detail_tex_en", 50, 50),
    line("sharpen_tex_en", 49, 49),
    line("tex_lod_en", 48, 48),
    line("tlut_en", 47, 47),
    line("tlut_type", 46, 46),
    line("sample_type", 45, 45),
    line("mid_texel", 44, 44),
    line("bi_lerp_0", 43, 43),
    line("bi_lerp_1", 42, 42),
    line("convert_one", 41, 41),
    line("key_en", 40, 40),
    line("rgb_dither_sel", 39, 38),
    line("alpha_dither_sel", 37, 36),
    line("bl_m1a_0", 31, 30),
    line("bl_m1a_1", 29, 28),
    line("bl_m1b_0", 27, 26),
    line("bl_m1b_1", 25, 24),
    line("bl_m2a_0", 23, 22),
    line("bl_m2a_1", 21, 20),
    line("bl_m2b_0", 19, 18),
    line("bl_m2b_1", 17, 16),
    line("force_blend", 14, 14),
    line("alpha_cvg_select", 13, 13),
    line("cvg_x_alpha", 12, 12),
    line("z_mode", 11, 10),
    line("cvg_dest", 9, 8),
    line("color_on_cvg", 7, 7),
    line("image_read_en", 6, 6),
    line("z_update_en", 5, 5),
    line("z_compare_en", 4, 4),
    line("antialias_en", 3, 3),
    line("z_source_sel", 2, 2),
    line("dither_alpha_en", 1, 1),
    line("alpha_compare_en", 0, 0),
];

/// 000, "0x30 - Load TLUT" and "0x34 - Load Tile".
const LOAD: &[Field] = &[
    line("upper_left.s", 55, 44),
    line("upper_left.t", 43, 32),
    line("tile", 26, 24),
    line("lower_right.s", 23, 12),
    line("lower_right.t", 11, 0),
];

/// 000, "0x32 - Set Tile Size".
const SET_TILE_SIZE: &[Field] = &[
    line("upper_left.s", 55, 44),
    line("upper_left.t", 43, 32),
    line("index", 26, 24),
    line("lower_right.s", 23, 12),
    line("lower_right.t", 11, 0),
];

/// 000, "0x33 - Load Block".
const LOAD_BLOCK: &[Field] = &[
    line("upper_left.s", 55, 44),
    line("upper_left.t", 43, 32),
    line("tile", 26, 24),
    line("lower_right.s", 23, 12),
    line("dxt", 11, 0),
];

/// 000, "0x35 - Set Tile".
const SET_TILE: &[Field] = &[
    line("format", 55, 53),
    line("size", 52, 51),
    line("line", 49, 41),
    line("address", 40, 32),
    line("index", 26, 24),
    line("palette", 23, 20),
    line("clamp_T", 19, 19),
    line("mirror_T", 18, 18),
    line("mask_T", 17, 14),
    line("shift_T", 13, 10),
    line("clamp_S", 9, 9),
    line("mirror_S", 8, 8),
    line("mask_S", 7, 4),
    line("shift_S", 3, 0),
];

/// 000, "0x36 - Fill Rectangle".
const FILL_RECTANGLE: &[Field] = &[
    line("lower_right.x", 55, 44),
    line("lower_right.y", 43, 32),
    line("upper_left.x", 23, 12),
    line("upper_left.y", 11, 0),
];

/// 000, "0x37 - Set Fill Color".
const SET_FILL_COLOR: &[Field] = &[line("color", 31, 0)];

/// 000, "0x38 - Set Fog Color", "0x39 - Set Blend Color", "0x3B - Set
/// Environment Color".
const SET_COLOR: &[Field] = &[
    line("red", 31, 24),
    line("green", 23, 16),
    line("blue", 15, 8),
    line("alpha", 7, 0),
];

/// 000, "0x3A - Set Primitive Color".
const SET_PRIMITIVE_COLOR: &[Field] = &[
    line("min_level", 47, 40),
    line("prim_lod_frac", 39, 32),
    line("red", 31, 24),
    line("green", 23, 16),
    line("blue", 15, 8),
    line("alpha", 7, 0),
];

/// 01: "Set Combine Mode keeps its 56 low bits as one number."
const SET_COMBINE_MODE: &[Field] = &[line("combine_mode", 55, 0)];

/// 000, "0x3D - Set Texture Image".
const SET_TEXTURE_IMAGE: &[Field] = &[
    line("format", 55, 53),
    line("size", 52, 51),
    line("width", 41, 32),
    line("dramAddress", 23, 0),
];

/// 000, "0x3E - Set Depth Image".
const SET_DEPTH_IMAGE: &[Field] = &[line("dramAddress", 23, 0)];

/// 000, "0x3F - Set Color Image", with 01's address in bits 25:0.
const SET_COLOR_IMAGE: &[Field] = &[
    line("format", 55, 53),
    line("size", 52, 51),
    line("width", 41, 32),
    line("dramAddress", 25, 0),
];

/// The fields of a command number. No operations and syncs have none.
pub fn fields_of(number: u8) -> &'static [Field] {
    match number {
        0x08..=0x0F => TRIANGLE,
        0x24 | 0x25 => TEXTURE_RECTANGLE,
        0x2A => SET_KEY_GB,
        0x2B => SET_KEY_R,
        0x2C => SET_CONVERT,
        0x2D => SET_SCISSOR,
        0x2E => SET_PRIMITIVE_DEPTH,
        0x2F => SET_OTHER_MODES,
        0x30 | 0x34 => LOAD,
        0x32 => SET_TILE_SIZE,
        0x33 => LOAD_BLOCK,
        0x35 => SET_TILE,
        0x36 => FILL_RECTANGLE,
        0x37 => SET_FILL_COLOR,
        0x38 | 0x39 | 0x3B => SET_COLOR,
        0x3A => SET_PRIMITIVE_COLOR,
        0x3C => SET_COMBINE_MODE,
        0x3D => SET_TEXTURE_IMAGE,
        0x3E => SET_DEPTH_IMAGE,
        0x3F => SET_COLOR_IMAGE,
        _ => &[],
    }
}
