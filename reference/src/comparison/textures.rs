//! Lists that load and copy textures, on images that fills change too.

use crate::comparison::builder::Builder;
use crate::comparison::rng::Rng;
use crate::comparison::scenes::{Scene, CYCLE_TYPE};
use crate::registers::{is_16_bit_rgba, TileDescriptor};

/// What copying needs off, by the places among the fields of Set Other Modes:
/// perspective, look-up and alpha compare.
const MODE_NEEDS: &[usize] = &[2, 6, 36];

/// And among those of Set Tile: mirror, mask and shift of both axes.
const TILE_NEEDS: &[usize] = &[7, 8, 9, 11, 12, 13];

/// Format and size of 16-bit RGBA.
const RGBA: u64 = 0;
const BITS_16: u64 = 2;

/// The last texel that s and t can name.
const MOST_TEXEL: i64 = 1_023;

/// The tiles that are used.
const TILES: &[u64] = &[0, 1, 2, 7];

/// The texture images of one list.
pub struct Textures {
    /// Their address, or one a little before it.
    address: u64,
    width: u64,
}

impl Textures {
    /// Most often inside the colour image or close to it, at any byte.
    pub fn near(rng: &mut Rng, color_address: u64) -> Textures {
        let address = color_address + rng.below(400);
        Textures {
            address: address.saturating_sub(rng.below(100)),
            width: rng.between(1, 20),
        }
    }

    /// A texture image, seldom not of 16-bit RGBA.
    fn image(&self, builder: &mut Builder) {
        let (format, size) = format_and_size(builder.rng);
        let rng = &mut *builder.rng;
        let any = rng.between(1, 1_024);
        let width = rng.pick(&[self.width, self.width, self.width, any]);
        let address = (self.address + rng.below(64)) & 0xFF_FFFF;
        builder.command(0x3D, &[format, size, width - 1, address]);
    }

    /// A tile's descriptor, seldom with something on that copying needs off.
    fn tile(&self, builder: &mut Builder) {
        let (format, size) = format_and_size(builder.rng);
        let mut fields = builder.random_fields(0x35);
        let rng = &mut *builder.rng;
        fields[0] = format;
        fields[1] = size;
        fields[2] = rng.below(6);
        fields[3] = any_tmem(rng);
        fields[4] = rng.pick(TILES);
        switch_off(rng, &mut fields, TILE_NEEDS);
        builder.command(0x35, &fields);
    }

    fn size(&self, builder: &mut Builder) {
        let mut fields = builder.random_fields(0x32);
        let rng = &mut *builder.rng;
        fields[0] = upper_left(rng);
        fields[1] = upper_left(rng);
        fields[2] = rng.pick(TILES);
        builder.command(0x32, &fields);
    }

    /// A Load Tile or a Load Block, before it what it needs and lacks.
    pub fn load(&self, builder: &mut Builder) {
        if builder.registers.texture_image().is_none() && !builder.rng.one_in(30) {
            self.image(builder);
        }
        let tile = self.usable_tile(builder, is_loadable);
        if builder.rng.one_in(3) {
            let [left, top, right, dxt] = block(builder.rng);
            builder.command(0x33, &[left, top, tile, right, dxt]);
        } else {
            let [left, top, right, bottom] = corners(builder.rng);
            builder.command(0x34, &[left, top, tile, right, bottom]);
        }
    }

    /// The tile for a command: most often a usable one, which may have to be set first.
    fn usable_tile(&self, builder: &mut Builder, is_usable: fn(&TileDescriptor) -> bool) -> u64 {
        if builder.rng.one_in(40) {
            return builder.rng.below(8);
        }
        if usable_tiles(builder, is_usable).is_empty() {
            self.tile(builder);
        }
        let usable = usable_tiles(builder, is_usable);
        builder
            .rng
            .pick(if usable.is_empty() { TILES } else { &usable })
    }

    /// A texture rectangle in COPY mode, seldom one that breaks a need.
    fn rectangle(&self, scene: &Scene, builder: &mut Builder) {
        if !builder.registers.copy_mode() && !builder.rng.one_in(20) {
            copy_modes(builder);
        }
        let tile = self.usable_tile(builder, is_copyable);
        let size = builder.registers.tiles[tile as usize].size;
        let size = size.unwrap_or_default();
        let rng = &mut *builder.rng;
        let [right, bottom, left, top] = scene.corners(rng);
        let s = coordinate(rng, size.upper_left_s);
        let t = coordinate(rng, size.upper_left_t);
        let mut fields = [right, bottom, tile, left, top, s, t, 0x1000, 0x0400];
        if rng.one_in(30) {
            let wrong = 5 + rng.below(4) as usize;
            fields[wrong] ^= rng.pick(&[1, 16, 0x800]);
        }
        builder.command(0x24, &fields);
    }
}

fn usable_tiles(builder: &Builder, is_usable: fn(&TileDescriptor) -> bool) -> Vec<u64> {
    let tiles = (0..).zip(&builder.registers.tiles);
    let usable = tiles.filter(|(_, tile)| is_usable(tile));
    usable.map(|(number, _)| number).collect()
}

/// 16-bit RGBA, seldom another format or size.
fn format_and_size(rng: &mut Rng) -> (u64, u64) {
    let any = (rng.below(8), rng.below(4));
    if rng.one_in(50) {
        any
    } else {
        (RGBA, BITS_16)
    }
}

/// A place in texture memory: near its start, near its end or anywhere, in words.
fn any_tmem(rng: &mut Rng) -> u64 {
    let early = rng.below(20);
    let late = 511 - rng.below(60);
    let last = 511 - rng.below(4);
    let any = rng.below(512);
    rng.pick(&[0, 0, early, early, early, late, late, last, any, any])
}

/// An upper left coordinate in quarter texels, most often in whole ones.
fn upper_left(rng: &mut Rng) -> u64 {
    let whole = 4 * rng.below(8);
    let fraction = if rng.one_in(16) { rng.below(4) } else { 0 };
    whole + fraction
}

/// The upper left and the lower right of a Load Tile.
fn corners(rng: &mut Rng) -> [u64; 4] {
    let (left, top) = (upper_left(rng), upper_left(rng));
    [left, top, lower_right(rng, left), lower_right(rng, top)]
}

/// The first texel and its row, the last texel and dxt of a Load Block. The first texel
/// and its row stay the tile's upper left, so most of them are multiples of 4.
fn block(rng: &mut Rng) -> [u64; 4] {
    let last = 4_095 - rng.below(3);
    let left = match rng.below(30) {
        0 => last,
        1 => rng.below(40),
        _ => 4 * rng.below(6),
    };
    let top = rng.pick(&[0, 0, 4, 8]);
    let texels = block_texels(rng);
    let right = (left + texels).saturating_sub(1).min(4_095);
    [left, top, right, dxt(rng)]
}

/// Most often few texels, seldom none, and now and then about as many as are allowed.
fn block_texels(rng: &mut Rng) -> u64 {
    match rng.below(40) {
        0 => 0,
        1 => rng.between(2_046, 2_049),
        2 => rng.between(1, 2_048),
        _ => rng.between(1, 80),
    }
}

/// A new line after some words, or any.
fn dxt(rng: &mut Rng) -> u64 {
    let words = rng.between(1, 8);
    let any = rng.below(4_096);
    rng.pick(&[0, 2_048 / words, 2_048 / words, 2_048 / words, any, any])
}

/// The end of a load, seldom below its start.
fn lower_right(rng: &mut Rng, upper_left: u64) -> u64 {
    match rng.below(12) {
        0 => upper_left.saturating_sub(rng.below(8)),
        1 => upper_left,
        _ => upper_left + rng.below(40),
    }
}

/// The s or t of a rectangle: its first texel is at the tile's upper left or a little
/// after it, seldom before it.
fn coordinate(rng: &mut Rng, upper_left: u64) -> u64 {
    let after = rng.below(6) as i64;
    let before = -(rng.between(1, 4) as i64);
    let from_there = rng.pick(&[0, 0, 0, 0, 0, after, after, after, after, before]);
    let texel = (upper_left / 4) as i64 + from_there;
    (32 * texel.min(MOST_TEXEL)) as u64
}

fn is_loadable(tile: &TileDescriptor) -> bool {
    tile.descriptor.is_some_and(is_16_bit_rgba)
}

fn is_copyable(tile: &TileDescriptor) -> bool {
    let size = tile.size.unwrap_or_default();
    is_loadable(tile) && (size.upper_left_s | size.upper_left_t).is_multiple_of(4)
}

/// COPY mode, seldom with something on that copying needs off.
fn copy_modes(builder: &mut Builder) {
    let mut fields = builder.random_fields(0x2F);
    fields[CYCLE_TYPE] = 2;
    switch_off(builder.rng, &mut fields, MODE_NEEDS);
    builder.command(0x2F, &fields);
}

/// Switches these fields off, seldom all but one of them.
fn switch_off(rng: &mut Rng, fields: &mut [u64], needs: &[usize]) {
    let left_on = rng.one_in(25).then(|| rng.pick(needs));
    for at in needs.iter().filter(|at| Some(**at) != left_on) {
        fields[*at] = 0;
    }
}

/// Commands that copying does not see.
const UNSEEN: &[u8] = &[0x26, 0x27, 0x28, 0x2A, 0x2E, 0x38, 0x3A, 0x3C, 0x3E];

/// One command, or one with what it needs.
fn step(scene: &Scene, builder: &mut Builder) {
    let textures = &scene.textures;
    match builder.rng.below(44) {
        0..=15 => textures.rectangle(scene, builder),
        16..=24 => textures.load(builder),
        25..=27 => textures.tile(builder),
        28..=29 => textures.size(builder),
        30..=31 => textures.image(builder),
        32..=33 => scene.scissor(builder),
        34 => scene.image(builder, BITS_16),
        35..=37 => fill(scene, builder),
        38 => builder.one_of(&[0x25, 0x0B, 0x36, 0x30, 0x33, 0x24]),
        39 => copy_modes(builder),
        40 => builder.usual(0x00),
        _ => builder.one_of(UNSEEN),
    }
}

/// A Fill Rectangle, most often in FILL mode.
fn fill(scene: &Scene, builder: &mut Builder) {
    if !builder.rng.one_in(20) {
        scene.modes(builder);
    }
    scene.fill_color(builder);
    scene.fill_rectangle(builder);
}

/// A list that loads and copies, with up to that many steps after its setup.
pub fn copy_list(rng: &mut Rng, reach: u64, steps: u64) -> Vec<u8> {
    let scene = Scene::low(rng, reach);
    let steps = rng.below(steps);
    let sync_percent = rng.pick(&[90, 100, 100, 100, 100, 100, 100, 100]);
    let mut builder = Builder::new(rng, sync_percent);
    copy_modes(&mut builder);
    let size = if builder.rng.one_in(40) {
        builder.rng.below(4)
    } else {
        BITS_16
    };
    scene.image(&mut builder, size);
    scene.scissor(&mut builder);
    if builder.rng.one_in(4) {
        fill(&scene, &mut builder);
    }
    for _ in 0..steps {
        step(&scene, &mut builder);
    }
    scene.textures.rectangle(&scene, &mut builder);
    builder.list()
}
