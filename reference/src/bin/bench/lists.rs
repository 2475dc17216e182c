//! The lists that are measured. Each is the same in every run.

use reference::comparison::rng::Rng;
use reference::kinds::{commands, words};
use reference::marks::Marks;
use reference::words::bytes_of;

const NO_OPERATION: u8 = 0x00;
const TEXTURE_RECTANGLE: u8 = 0x24;
const SYNC_LOAD: u8 = 0x26;
const SYNC_PIPE: u8 = 0x27;
const SYNC_TILE: u8 = 0x28;
const SYNC_FULL: u8 = 0x29;
const SET_SCISSOR: u8 = 0x2D;
const SET_OTHER_MODES: u8 = 0x2F;
const SET_TILE_SIZE: u8 = 0x32;
const LOAD_BLOCK: u8 = 0x33;
const LOAD_TILE: u8 = 0x34;
const SET_TILE: u8 = 0x35;
const FILL_RECTANGLE: u8 = 0x36;
const SET_FILL_COLOR: u8 = 0x37;
const SET_PRIM_COLOR: u8 = 0x3A;
const SET_COMBINE_MODE: u8 = 0x3C;
const SET_TEXTURE_IMAGE: u8 = 0x3D;
const SET_DEPTH_IMAGE: u8 = 0x3E;
const SET_COLOR_IMAGE: u8 = 0x3F;

/// The picture that every list draws into.
pub const WIDTH: u64 = 320;
pub const HEIGHT: u64 = 240;

/// Cycle types.
const ONE_CYCLE: u64 = 0;
const COPY: u64 = 2;
const FILL: u64 = 3;

/// A rectangle in pixels.
#[derive(Clone, Copy)]
pub struct Rectangle {
    pub x: u64,
    pub y: u64,
    pub width: u64,
    pub height: u64,
}

/// A picture's pixels, by the size field of Set Color Image.
#[derive(Clone, Copy)]
pub enum Pixels {
    Bits16 = 2,
    Bits32 = 3,
}

impl Pixels {
    pub fn bytes(self) -> u64 {
        match self {
            Pixels::Bits16 => 2,
            Pixels::Bits32 => 4,
        }
    }
}

fn word(number: u8, bits: u64) -> u64 {
    u64::from(number) << 56 | bits
}

fn modes(cycle_type: u64) -> u64 {
    word(SET_OTHER_MODES, cycle_type << 52)
}

fn color_image(pixels: Pixels) -> u64 {
    word(SET_COLOR_IMAGE, (pixels as u64) << 51 | (WIDTH - 1) << 32)
}

fn scissor() -> u64 {
    word(SET_SCISSOR, (4 * WIDTH) << 12 | (4 * HEIGHT))
}

/// A fill colour without a zero byte, so that every painted byte can be seen.
fn fill_color(rng: &mut Rng) -> u64 {
    word(SET_FILL_COLOR, rng.number() >> 32 | 0x0101_0101)
}

fn fill_rectangle(r: Rectangle) -> u64 {
    word(FILL_RECTANGLE, corners(r))
}

/// The corners of a fill or texture rectangle.
fn corners(r: Rectangle) -> u64 {
    let (right, bottom) = (r.x + r.width - 1, r.y + r.height - 1);
    (4 * right) << 44 | (4 * bottom) << 32 | (4 * r.x) << 12 | (4 * r.y)
}

/// A texture rectangle of tile 0 from its first texel on, by whole texels.
fn copy_rectangle(r: Rectangle) -> [u64; 2] {
    [word(TEXTURE_RECTANGLE, corners(r)), 0x1000 << 16 | 0x0400]
}

/// Format and size of a 16-bit RGBA texture.
const RGBA_16: u64 = 2 << 51;

/// Tile 0 from the start of texture memory on, for rows of so many texels.
fn tile(width: u64) -> u64 {
    word(SET_TILE, RGBA_16 | (width * 2 / 8) << 41)
}

/// What a draw asks for.
fn setup(cycle_type: u64, pixels: Pixels) -> Vec<u64> {
    vec![modes(cycle_type), color_image(pixels), scissor()]
}

/// A command with random bits in all its fields.
fn random(rng: &mut Rng, number: u8) -> Vec<u64> {
    let mut command: Vec<u64> = (0..words(number)).map(|_| rng.number()).collect();
    command[0] = word(number, command[0] >> 8);
    command
}

/// One-word commands that neither draw nor set what a draw asks for.
const QUIET: &[u8] = &[
    0x00, 0x26, 0x27, 0x28, 0x2A, 0x2B, 0x2C, 0x2E, 0x30, 0x32, 0x33, 0x34, 0x35, 0x37, 0x38, 0x39,
    0x3A, 0x3B, 0x3C, 0x3D, 0x3E,
];

pub fn quiet(length: usize) -> Vec<u8> {
    one_word_commands(1, QUIET, length)
}

/// Every command that sets a register or a tile.
const SETTERS: &[u8] = &[
    0x2A, 0x2B, 0x2C, 0x2D, 0x2E, 0x2F, 0x30, 0x32, 0x33, 0x34, 0x35, 0x37, 0x38, 0x39, 0x3A, 0x3B,
    0x3C, 0x3D, 0x3E, 0x3F,
];

pub fn setters(length: usize) -> Vec<u8> {
    one_word_commands(8, SETTERS, length)
}

/// Commands of these numbers, with random bits. Where one of them would wait for a
/// load, a Sync Tile stands in its place.
fn one_word_commands(seed: u64, numbers: &[u8], length: usize) -> Vec<u8> {
    let mut rng = Rng::new(seed);
    let mut marks = Marks::default();
    let mut list = Vec::new();
    while list.len() < length {
        let number = rng.pick(numbers);
        let waits = marks.missing_sync(number).is_some();
        let number = if waits { SYNC_TILE } else { number };
        marks = marks.after(number);
        list.extend(random(&mut rng, number));
    }
    bytes_of(&list)
}

/// A change of material as a game writes it: modes, a texture load with its
/// syncs, the tile to draw with.
const MATERIAL: &[u8] = &[
    SYNC_PIPE,
    SET_OTHER_MODES,
    SET_COMBINE_MODE,
    SET_PRIM_COLOR,
    SET_TEXTURE_IMAGE,
    SET_TILE,
    SYNC_LOAD,
    LOAD_BLOCK,
    SYNC_PIPE,
    SET_TILE,
    SET_TILE_SIZE,
];

/// A triangle of any kind, a texture rectangle or a fill rectangle.
fn shape(rng: &mut Rng) -> Vec<u64> {
    let triangle = rng.between(0x08, 0x0F) as u8;
    let number = match rng.below(8) {
        0 => triangle,
        1..=4 => TEXTURE_RECTANGLE,
        _ => FILL_RECTANGLE,
    };
    random(rng, number)
}

/// The picture cleared, and then materials with the shapes that have them: a
/// little more than so many words.
fn game(rng: &mut Rng, length: usize) -> Vec<Vec<u64>> {
    let whole = Rectangle {
        x: 0,
        y: 0,
        width: WIDTH,
        height: HEIGHT,
    };
    let clear = [fill_color(rng), fill_rectangle(whole)];
    let mut commands = vec![random(rng, SET_DEPTH_IMAGE)];
    commands.extend(
        setup(FILL, Pixels::Bits16)
            .into_iter()
            .map(|word| vec![word]),
    );
    commands.extend(clear.map(|word| vec![word]));
    while commands.iter().map(Vec::len).sum::<usize>() < length {
        commands.extend(MATERIAL.iter().map(|number| random(rng, *number)));
        commands.extend((0..rng.between(2, 6)).map(|_| shape(rng)));
    }
    commands
}

/// As many of the commands as leave a word for a Sync Full, which ends the list.
fn ended(commands: Vec<Vec<u64>>, length: usize) -> Vec<u8> {
    let mut list = Vec::new();
    for command in commands {
        if list.len() + command.len() >= length {
            break;
        }
        list.extend(command);
    }
    list.resize(length - 1, word(NO_OPERATION, 0));
    list.push(word(SYNC_FULL, 0));
    bytes_of(&list)
}

pub fn mixed(length: usize) -> Vec<u8> {
    let mut rng = Rng::new(2);
    ended(game(&mut rng, length), length)
}

/// The same, with some bits of every eighth command turned over.
pub fn changed(length: usize) -> Vec<u8> {
    let mut list = mixed(length);
    let places: Vec<usize> = commands(&list).map(|command| command.place).collect();
    for place in places.into_iter().step_by(8) {
        list[8 * place + 3] ^= 0xFF;
    }
    list
}

/// The longest triangles, of 22 words.
pub fn triangles(length: usize) -> Vec<u8> {
    let mut rng = Rng::new(3);
    let mut commands = vec![setup(ONE_CYCLE, Pixels::Bits16)];
    commands.extend((0..length / 22).map(|_| random(&mut rng, 0x0F)));
    ended(commands, length)
}

/// Draws, loads and settings of one and two words without any sync.
const NEEDY: &[u8] = &[
    FILL_RECTANGLE,
    TEXTURE_RECTANGLE,
    LOAD_TILE,
    SET_TILE,
    SET_TILE_SIZE,
    SET_FILL_COLOR,
    SET_COMBINE_MODE,
];

pub fn needy(length: usize) -> Vec<u8> {
    let mut rng = Rng::new(4);
    let mut list = setup(ONE_CYCLE, Pixels::Bits16);
    while list.len() + 1 < length {
        let number = rng.pick(NEEDY);
        list.extend(random(&mut rng, number));
    }
    list.resize(length, word(NO_OPERATION, 0));
    bytes_of(&list)
}

/// An old list: the same with a Sync Pipe before each command.
pub fn full_of_syncs(length: usize) -> Vec<u8> {
    let mut rng = Rng::new(10);
    let mut list = setup(ONE_CYCLE, Pixels::Bits16);
    while list.len() + 2 < length {
        let number = rng.pick(NEEDY);
        list.push(word(SYNC_PIPE, 0));
        list.extend(random(&mut rng, number));
    }
    list.resize(length, word(NO_OPERATION, 0));
    bytes_of(&list)
}

/// Bits 63:62 of a display list's commands.
const DISPLAY: u64 = 3 << 62;

const CALL: u64 = 0xDE << 56;
const END: u64 = 0xDF << 56;
const FIRST_HALF: u64 = 0xE1 << 56;
const MODES_LOW: u64 = 0xE2 << 56;
const MODES_HIGH: u64 = 0xE3 << 56;
const SECOND_HALF: u64 = 0xF1 << 56;

/// A command with random bits, its address below 16 MiB.
fn random_display(rng: &mut Rng, number: u8) -> u64 {
    DISPLAY | word(number, rng.number() & 0x00FF_FFFF_00FF_FFFF)
}

/// Shapes as a game has them in a list of their own: rectangles with their half-words,
/// colours and fill rectangles.
fn shapes(rng: &mut Rng) -> Vec<u64> {
    let mut list = Vec::new();
    for _ in 0..rng.between(2, 4) {
        list.push(random_display(rng, SET_PRIM_COLOR));
        list.push(random_display(rng, TEXTURE_RECTANGLE));
        list.push(FIRST_HALF | rng.number() >> 32);
        list.push(SECOND_HALF | rng.number() >> 32);
    }
    list.push(random_display(rng, SET_FILL_COLOR));
    list.push(random_display(rng, FILL_RECTANGLE));
    list.push(END);
    list
}

/// A change of material as above, its other modes by their parts: cycle type, filter
/// and blender.
fn display_material(rng: &mut Rng) -> Vec<u64> {
    let mut list = vec![
        random_display(rng, SYNC_PIPE),
        MODES_HIGH | 0x0A_01 << 32 | rng.below(4) << 20,
        MODES_HIGH | 0x12_01 << 32 | rng.below(4) << 12,
        MODES_LOW | 0x00_1C << 32 | (rng.number() >> 32) & !7,
    ];
    let others = MATERIAL.iter().skip(2);
    list.extend(others.map(|number| random_display(rng, *number)));
    list
}

/// A memory with eight lists of shapes and the outermost list behind them, and where that
/// starts: materials, each followed by a call of shapes. So many commands are read.
pub fn display(commands: usize) -> (Vec<u8>, u32) {
    let mut rng = Rng::new(9);
    let mut memory = Vec::new();
    let mut called = Vec::new();
    for _ in 0..8 {
        let shapes = shapes(&mut rng);
        called.push((8 * memory.len() as u64, shapes.len()));
        memory.extend(shapes);
    }
    let start = 8 * memory.len() as u32;
    let mut read = 0;
    loop {
        let material = display_material(&mut rng);
        let (address, length) = rng.pick(&called);
        let more = material.len() + 1 + length;
        if read + more >= commands {
            break;
        }
        memory.extend(material);
        memory.push(CALL | address);
        read += more;
    }
    memory.extend((read + 1..commands).map(|_| random_display(&mut rng, SYNC_PIPE)));
    memory.push(END);
    (bytes_of(&memory), start)
}

/// One rectangle.
pub fn fill(pixels: Pixels, rectangle: Rectangle) -> Vec<u8> {
    fills(pixels, &[rectangle])
}

/// Rectangles of one colour.
pub fn fills(pixels: Pixels, rectangles: &[Rectangle]) -> Vec<u8> {
    let mut list = setup(FILL, pixels);
    list.push(fill_color(&mut Rng::new(5)));
    list.extend(rectangles.iter().map(|r| fill_rectangle(*r)));
    bytes_of(&list)
}

/// Rectangles, each with its own colour.
pub fn colored_fills(pixels: Pixels, rectangles: &[Rectangle]) -> Vec<u8> {
    let mut rng = Rng::new(6);
    let mut list = setup(FILL, pixels);
    for r in rectangles {
        list.push(word(SYNC_PIPE, 0));
        list.push(fill_color(&mut rng));
        list.push(fill_rectangle(*r));
    }
    bytes_of(&list)
}

/// Squares of eight pixels, anywhere in the picture.
pub fn squares(count: usize) -> Vec<Rectangle> {
    let mut rng = Rng::new(7);
    let square = |_| Rectangle {
        x: rng.between(0, WIDTH - 8),
        y: rng.between(0, HEIGHT - 8),
        width: 8,
        height: 8,
    };
    (0..count).map(square).collect()
}

/// A texture that is copied to all of the picture where it fits.
pub fn copies(width: u64, height: u64) -> Vec<u8> {
    let mut list = setup(COPY, Pixels::Bits16);
    list.push(tile(width));
    list.extend(tiling(width, height).into_iter().flat_map(copy_rectangle));
    bytes_of(&list)
}

/// Rectangles side by side, in the whole picture.
pub fn tiling(width: u64, height: u64) -> Vec<Rectangle> {
    let places = |size: u64, end: u64| (0..end / size).map(move |k| k * size);
    let row = |y| {
        places(width, WIDTH).map(move |x| Rectangle {
            x,
            y,
            width,
            height,
        })
    };
    places(height, HEIGHT).flat_map(row).collect()
}

/// One load of a texture that lies at the picture's start.
pub fn load(width: u64, height: u64) -> Vec<u8> {
    let image = word(SET_TEXTURE_IMAGE, RGBA_16 | (width - 1) << 32);
    let lower_right = (4 * (width - 1)) << 12 | (4 * (height - 1));
    bytes_of(&[image, tile(width), word(LOAD_TILE, lower_right)])
}

/// The same texels by one Load Block; a line has `width` texels, in words of four.
pub fn block(width: u64, height: u64) -> Vec<u8> {
    let image = word(SET_TEXTURE_IMAGE, RGBA_16 | (width - 1) << 32);
    let (last, dxt) = (width * height - 1, 2_048 / (width / 4));
    bytes_of(&[image, tile(width), word(LOAD_BLOCK, last << 12 | dxt)])
}
