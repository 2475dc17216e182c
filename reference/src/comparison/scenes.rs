//! Lists that draw: Fill Rectangles in FILL mode on images of every kind.

use crate::comparison::builder::Builder;
use crate::comparison::rng::Rng;
use crate::comparison::textures::Textures;

/// The greatest coordinate, in quarter pixels.
const MOST: u64 = 4_095;

/// The cycle type's place among the fields of Set Other Modes.
pub const CYCLE_TYPE: usize = 1;

/// What the commands of one list have in common.
pub struct Scene {
    /// Kept pixels lie in columns and rows up to this.
    reach: u64,
    /// The image's address, or one a little before it.
    address: u64,
    width: u64,
    /// Whether the scissor stays within reach, or else the rectangles.
    scissor_bounds: bool,
    pub textures: Textures,
}

impl Scene {
    pub fn new(rng: &mut Rng, reach: u64) -> Scene {
        let small = rng.between(1, 40);
        let any = rng.between(1, 1_024);
        let near = 64 * rng.below(16);
        let far = rng.number() & 0x3FF_FFC0;
        let address = rng.pick(&[0, near, near, far, 0x3FF_FFC0]);
        Scene {
            reach,
            address,
            width: rng.pick(&[reach.clamp(1, 1_024), small, small, any]),
            scissor_bounds: rng.one_in(2),
            textures: Textures::near(rng, address),
        }
    }

    /// A scene on an image that texture images can be near to: their addresses have 24
    /// bits.
    pub fn low(rng: &mut Rng, reach: u64) -> Scene {
        let far = rng.number() & 0xFF_F000;
        let near = 64 * rng.below(16);
        let address = rng.pick(&[0, near, near, near, far]);
        Scene {
            address,
            textures: Textures::near(rng, address),
            ..Scene::new(rng, reach)
        }
    }

    /// Modes, image, scissor and fill colour, in any order, one perhaps left
    /// out.
    pub fn setup(&self, builder: &mut Builder) {
        let mut setters: Vec<fn(&Scene, &mut Builder)> = vec![
            Scene::modes,
            Scene::any_image,
            Scene::scissor,
            Scene::fill_color,
        ];
        let keep = if builder.rng.one_in(30) { 1 } else { 0 };
        while setters.len() > keep {
            let index = builder.rng.below(setters.len() as u64) as usize;
            setters.swap_remove(index)(self, builder);
        }
    }

    /// One command of any kind, most often a Fill Rectangle.
    pub fn step(&self, builder: &mut Builder) {
        match builder.rng.below(40) {
            0 | 1 => self.any_image(builder),
            2 => self.modes(builder),
            3 => other_draw(builder),
            _ => self.fill_step(builder),
        }
    }

    /// One command that drawing never refuses for itself.
    pub fn fill_step(&self, builder: &mut Builder) {
        match builder.rng.below(36) {
            0..=17 => self.fill_rectangle(builder),
            18..=23 => self.fill_color(builder),
            24..=25 => self.scissor(builder),
            26..=28 => self.textures.load(builder),
            29..=30 => builder.one_of(&[0x26, 0x27, 0x28]),
            31 => builder.usual(0x00),
            _ => builder.one_of(HARMLESS),
        }
    }

    pub fn modes(&self, builder: &mut Builder) {
        let mut fields = builder.random_fields(0x2F);
        if !builder.rng.one_in(30) {
            fields[CYCLE_TYPE] = 3;
        }
        builder.command(0x2F, &fields);
    }

    fn any_image(&self, builder: &mut Builder) {
        let rng = &mut *builder.rng;
        let size = if rng.one_in(40) { 0 } else { rng.between(1, 3) };
        self.image(builder, size);
    }

    /// An image with pixels of that size.
    pub fn image(&self, builder: &mut Builder, size: u64) {
        let rng = &mut *builder.rng;
        let format = rng.below(8);
        let width = if rng.one_in(4) {
            rng.between(1, 20)
        } else {
            self.width
        };
        let misaligned = if rng.one_in(30) { rng.below(64) } else { 0 };
        let address = (self.address + 64 * rng.below(4) + misaligned) & 0x3FF_FFFF;
        builder.command(0x3F, &[format, size, width - 1, address]);
    }

    pub fn scissor(&self, builder: &mut Builder) {
        let rng = &mut *builder.rng;
        let most = if self.scissor_bounds {
            4 * self.reach
        } else {
            MOST
        };
        let least = if rng.one_in(2) { 0 } else { 12.min(most) };
        let (left, top) = (rng.between(0, least), rng.between(0, least));
        let (right, bottom) = (edge(rng, most), edge(rng, most));
        let field = u64::from(rng.one_in(4));
        let odd = rng.below(2);
        builder.command(0x2D, &[left, top, field, odd, right, bottom]);
    }

    pub fn fill_color(&self, builder: &mut Builder) {
        let color = builder.rng.number() >> 32;
        builder.command(0x37, &[color]);
    }

    pub fn fill_rectangle(&self, builder: &mut Builder) {
        let corners = self.corners(builder.rng);
        builder.command(0x36, &corners);
    }

    /// A rectangle's right, bottom, left and top.
    pub fn corners(&self, rng: &mut Rng) -> [u64; 4] {
        let near = 4 * self.reach;
        let most = if self.scissor_bounds { MOST } else { near };
        let (left, right) = span(rng, near, most);
        let (top, bottom) = span(rng, near, most);
        [right, bottom, left, top]
    }
}

/// Commands that draw nothing and set nothing that a fill reads: Set Tile, Set Tile
/// Size and other attributes.
const HARMLESS: &[u8] = &[
    0x35, 0x35, 0x32, 0x2A, 0x2B, 0x2C, 0x2E, 0x38, 0x39, 0x3A, 0x3B, 0x3C, 0x3D, 0x3E,
];

/// Now and then a draw or a load that is not drawn.
fn other_draw(builder: &mut Builder) {
    if builder.rng.one_in(3) {
        builder.one_of(&[0x08, 0x0A, 0x0F, 0x24, 0x25, 0x30, 0x33]);
    }
}

/// A scissor edge: most often far, sometimes anywhere.
fn edge(rng: &mut Rng, most: u64) -> u64 {
    if rng.one_in(4) {
        rng.between(0, most)
    } else {
        most - rng.below(most / 4 + 1)
    }
}

/// The two ends of a rectangle: most often near the start, seldom the wrong way
/// round.
fn span(rng: &mut Rng, near: u64, most: u64) -> (u64, u64) {
    let start = match rng.below(16) {
        0 => rng.between(0, most),
        1..=6 => rng.between(0, near / 4),
        _ => rng.between(0, near),
    };
    let end = match rng.below(16) {
        0 => rng.between(0, most),
        1 => start.saturating_sub(rng.below(8)),
        2..=4 => most,
        5..=7 => start + rng.below(16),
        8..=11 => start + rng.between(0, near),
        _ => rng.between(start, most),
    };
    (start, end.min(most))
}

/// A list that draws, with up to that many commands after its setup.
pub fn scene_list(rng: &mut Rng, reach: u64, steps: u64) -> Vec<u8> {
    let scene = Scene::new(rng, reach);
    let steps = rng.below(steps);
    let sync_percent = rng.pick(&[0, 90, 100, 100, 100, 100, 100, 100]);
    let mut builder = Builder::new(rng, sync_percent);
    scene.setup(&mut builder);
    for _ in 0..steps {
        scene.step(&mut builder);
    }
    scene.fill_rectangle(&mut builder);
    if builder.rng.one_in(4) {
        builder.random(0x29);
    }
    builder.list()
}
