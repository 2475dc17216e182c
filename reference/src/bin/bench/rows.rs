//! The rows of the table: what is called, and with which list.

use std::ops::Range;

use crate::lists::{self, Pixels, Rectangle, HEIGHT, WIDTH};
use crate::versions::Version;
use reference::comparison::side::Side;
use reference::index::entries_of;
use reference::kinds::commands;
use reference::record::NUMBERS;
use reference::texture::TEXTURE_BYTES;
use reference::view::Image;

pub enum Job {
    Check,
    Registers,
    /// A list in portions of at most so many bytes.
    Stream(usize),
    Repair,
    RepairAfresh,
    /// The list compared with another, and the rest of the longer one.
    Compare(Vec<u8>),
    /// A question about the command at a place, by the entries of the list.
    Ask(u32),
    /// The display list at an offset: the row's list is the memory that it lies in.
    Translate(u32),
    /// An image of a size number viewed: the row's list is the memory that it lies in.
    View(u32),
    /// Drawing, with the runs of bytes that the list paints.
    Draw(Vec<Range<usize>>),
    /// Drawing that copies textures, with the runs of memory and, for each, those of
    /// texture memory.
    Copy(Vec<Moved>),
    /// Drawing that loads a texture, likewise.
    Load(Vec<Moved>),
}

/// Bytes of memory and of texture memory, between which they are moved.
pub struct Moved {
    pub memory: Range<usize>,
    pub texture: Range<usize>,
}

pub struct Row {
    pub name: String,
    pub list: Vec<u8>,
    pub job: Job,
}

impl Row {
    /// One call by a version.
    pub fn call(&self, version: &Version, buffers: &mut Buffers) -> u64 {
        let side = version.side;
        match &self.job {
            Job::Check => side.check(&self.list),
            Job::Registers => (version.registers)(&self.list),
            Job::Stream(portion) => stream(side, &self.list, *portion),
            Job::Repair => side.repair(&self.list, &mut buffers.work, &mut buffers.out),
            Job::RepairAfresh => {
                side.repair_afresh(&self.list, &mut buffers.work, &mut buffers.out)
            }
            Job::Compare(other) => {
                let compared = side.compare(&self.list, other, &mut buffers.entries);
                compared ^ side.rest(&self.list, other, buffers.entries.len())
            }
            Job::Ask(place) => side.index_ask(&self.list, &buffers.entries, *place),
            Job::Translate(start) => side.translate(&self.list, *start, &mut buffers.out),
            Job::View(size) => side.view(&self.list, 0, picture(*size), &mut buffers.out),
            Job::Draw(_) | Job::Copy(_) | Job::Load(_) => {
                let (memory, texture) = buffers.drawn();
                side.draw(&self.list, memory, 0, texture)
            }
        }
    }
}

/// A list fed to a fresh record and closed.
fn stream(side: &dyn Side, list: &[u8], portion: usize) -> u64 {
    let mut record = [0; NUMBERS];
    for bytes in list.chunks(portion) {
        side.feed(&mut record, bytes);
    }
    side.close(&mut record)
}

/// A picture at the start of memory.
fn picture(size: u32) -> Image {
    Image {
        address: 0,
        width: WIDTH as u32,
        height: HEIGHT as u32,
        size,
    }
}

/// What a row lends, the same to every version.
#[derive(PartialEq)]
pub struct Buffers {
    pub work: Vec<u8>,
    pub out: Vec<u8>,
    entries: Vec<u32>,
    memory: Vec<Line>,
    texture: Vec<u8>,
}

/// A part of memory that starts where a cache line does, as pictures do.
#[derive(Clone, Copy, PartialEq)]
#[repr(C, align(64))]
struct Line([u8; 64]);

/// The bytes of a picture with the largest pixels.
const MEMORY: usize = (WIDTH * HEIGHT * 4) as usize;

impl Buffers {
    /// Memory and texture memory are zero, but what textures are moved from has no
    /// zero byte. There are sixteen bytes of work for each word of the list, as many
    /// bytes of entries, and room
    /// for twice its words; for those of a display list too, though parts of it are
    /// called again and again.
    pub fn new(row: &Row) -> Buffers {
        let mut buffers = Buffers {
            work: vec![0xA5; 2 * row.list.len()],
            out: vec![0xA5; 2 * row.list.len()],
            entries: vec![0xA5; row.list.len() / 2],
            memory: vec![Line([0; 64]); MEMORY / 64],
            texture: vec![0; TEXTURE_BYTES],
        };
        let (memory, texture) = buffers.drawn();
        match row.job {
            Job::Copy(_) => fill_any(texture),
            Job::Load(_) => fill_any(memory),
            Job::Ask(_) => buffers.entries = entries_of(&row.list).concat(),
            _ => (),
        }
        buffers
    }

    pub fn memory(&mut self) -> &mut [u8] {
        self.drawn().0
    }

    /// What drawing writes: memory, and texture memory.
    pub fn drawn(&mut self) -> (&mut [u8], &mut [u8]) {
        let lines = self.memory.as_mut_ptr();
        // A line is 64 bytes and nothing else.
        let memory = unsafe { std::slice::from_raw_parts_mut(lines.cast(), MEMORY) };
        (memory, &mut self.texture)
    }
}

/// Bytes of which none is zero.
fn fill_any(bytes: &mut [u8]) {
    for (index, byte) in bytes.iter_mut().enumerate() {
        *byte = (index % 251 + 1) as u8;
    }
}

pub fn rows() -> Vec<Row> {
    let mut rows = Vec::new();
    rows.extend(LENGTHS.map(|length| check("quiet commands", lists::quiet(length))));
    rows.extend(LENGTHS.map(|length| check("a game's mix", lists::mixed(length))));
    rows.push(check("long triangles", lists::triangles(4_096)));
    rows.extend(LENGTHS.map(|length| registers(lists::setters(length))));
    rows.extend(LENGTHS.map(|length| whole_stream("setters", lists::setters(length))));
    rows.push(whole_stream("a game's mix", lists::mixed(4_096)));
    rows.extend(LENGTHS.map(|length| cut_stream("setters", lists::setters(length))));
    rows.push(cut_stream("a game's mix", lists::mixed(4_096)));
    rows.push(ask(lists::quiet(4_096)));
    rows.push(repair(lists::needy(2_048)));
    rows.push(repair_afresh("small commands", lists::needy(2_048)));
    rows.push(repair_afresh("full of syncs", lists::full_of_syncs(2_048)));
    rows.push(compare("the same", lists::mixed(4_096)));
    rows.push(compare("one in eight differs", lists::changed(4_096)));
    rows.push(translate(1_000));
    rows.extend(large_draws());
    rows.extend(small_draws());
    rows.push(copies(32, 32));
    rows.push(copies(64, 32));
    rows.push(load(64, 32));
    rows.push(block(64, 32));
    rows.extend([1, 2, 3].map(view));
    rows
}

const LENGTHS: [usize; 3] = [64, 512, 4_096];

fn check(what: &str, list: Vec<u8>) -> Row {
    Row {
        name: format!("check, {what}, {} words", list.len() / 8),
        list,
        job: Job::Check,
    }
}

fn registers(list: Vec<u8>) -> Row {
    Row {
        name: format!("registers, setters, {} words", list.len() / 8),
        list,
        job: Job::Registers,
    }
}

/// A list in one portion.
fn whole_stream(what: &str, list: Vec<u8>) -> Row {
    Row {
        name: format!("stream, {what}, {} words", list.len() / 8),
        job: Job::Stream(list.len()),
        list,
    }
}

/// A list in portions of 64 bytes.
fn cut_stream(what: &str, list: Vec<u8>) -> Row {
    Row {
        name: format!("stream by 64, {what}, {} words", list.len() / 8),
        job: Job::Stream(64),
        list,
    }
}

fn repair(list: Vec<u8>) -> Row {
    Row {
        name: format!("repair, small commands, {} words", list.len() / 8),
        list,
        job: Job::Repair,
    }
}

fn repair_afresh(what: &str, list: Vec<u8>) -> Row {
    Row {
        name: format!("repair afresh, {what}, {} words", list.len() / 8),
        list,
        job: Job::RepairAfresh,
    }
}

/// A game's list beside another.
fn compare(what: &str, other: Vec<u8>) -> Row {
    Row {
        name: format!("compare, {what}, {} words", other.len() / 8),
        list: lists::mixed(other.len() / 8),
        job: Job::Compare(other),
    }
}

/// A question about a command near the end of a list, beside which the other versions
/// walk from its first command on.
fn ask(list: Vec<u8>) -> Row {
    let last = commands(&list).last().expect("a list of commands");
    Row {
        name: format!("index, a question in {} words", list.len() / 8),
        job: Job::Ask(last.place as u32),
        list,
    }
}

/// A display list of so many commands.
fn translate(commands: usize) -> Row {
    let (memory, start) = lists::display(commands);
    Row {
        name: format!("translate, {commands} display list commands"),
        list: memory,
        job: Job::Translate(start),
    }
}

fn large_draws() -> [Row; 3] {
    let whole = Rectangle {
        x: 0,
        y: 0,
        width: WIDTH,
        height: HEIGHT,
    };
    let inner = Rectangle {
        x: 10,
        y: 20,
        width: 300,
        height: 200,
    };
    [
        large_draw("320x240, 16 bits", Pixels::Bits16, whole),
        large_draw("320x240, 32 bits", Pixels::Bits32, whole),
        large_draw("300x200 in 320, 16 bits", Pixels::Bits16, inner),
    ]
}

fn large_draw(what: &str, pixels: Pixels, rectangle: Rectangle) -> Row {
    Row {
        name: format!("draw, {what}"),
        list: lists::fill(pixels, rectangle),
        job: Job::Draw(runs(pixels, rectangle)),
    }
}

fn small_draws() -> [Row; 2] {
    let squares = lists::squares(1_000);
    let pixels = Pixels::Bits16;
    let all_runs = || squares.iter().flat_map(|r| runs(pixels, *r)).collect();
    [
        Row {
            name: "draw, 1,000 of 8x8, own colours, 16 bits".to_string(),
            list: lists::colored_fills(pixels, &squares),
            job: Job::Draw(all_runs()),
        },
        Row {
            name: "draw, 1,000 of 8x8, one colour, 16 bits".to_string(),
            list: lists::fills(pixels, &squares),
            job: Job::Draw(all_runs()),
        },
    ]
}

/// The bytes of a rectangle: one run if it is as wide as the picture, else a run
/// for each row.
fn runs(pixels: Pixels, r: Rectangle) -> Vec<Range<usize>> {
    let run = |x: u64, y: u64, count: u64| {
        let first = (y * WIDTH + x) * pixels.bytes();
        first as usize..(first + count * pixels.bytes()) as usize
    };
    if r.width == WIDTH {
        return vec![run(0, r.y, r.height * WIDTH)];
    }
    (r.y..r.y + r.height)
        .map(|y| run(r.x, y, r.width))
        .collect()
}

/// A texture, copied side by side.
fn copies(width: u64, height: u64) -> Row {
    let places = lists::tiling(width, height);
    let rows_of = |r: &Rectangle| -> Vec<Moved> {
        let memory = runs(Pixels::Bits16, *r);
        memory
            .into_iter()
            .zip(texture_rows(width))
            .map(moved)
            .collect()
    };
    Row {
        name: format!("draw, {} copies of {width}x{height}", places.len()),
        list: lists::copies(width, height),
        job: Job::Copy(places.iter().flat_map(rows_of).collect()),
    }
}

/// A texture that lies in one piece, loaded.
fn load(width: u64, height: u64) -> Row {
    let rows = texture_rows(width).take(height as usize);
    Row {
        name: format!("draw, one Load Tile of {width}x{height}"),
        list: lists::load(width, height),
        job: Job::Load(rows.map(|row| moved((row.clone(), row))).collect()),
    }
}

/// The same texture as one block, whose bytes are one run.
fn block(width: u64, height: u64) -> Row {
    let texels = (width * height) as usize;
    Row {
        name: format!("draw, one Load Block of {texels} texels"),
        list: lists::block(width, height),
        job: Job::Load(vec![moved((0..2 * texels, 0..2 * texels))]),
    }
}

/// A picture of 8, 16 or 32 bits a pixel as RGBA rows. Its bytes are as long as those of
/// the largest pixels, so that what is lent is the same.
fn view(size: u32) -> Row {
    let mut memory = vec![0; MEMORY];
    fill_any(&mut memory);
    Row {
        name: format!("view, {WIDTH}x{HEIGHT}, {} bits", 4 << size),
        list: memory,
        job: Job::View(size),
    }
}

fn moved((memory, texture): (Range<usize>, Range<usize>)) -> Moved {
    Moved { memory, texture }
}

/// The rows of a texture of 16 bits from the start of texture memory on.
fn texture_rows(width: u64) -> impl Iterator<Item = Range<usize>> {
    let bytes = 2 * width as usize;
    (0..).map(move |row| row * bytes..(row + 1) * bytes)
}
