//! Request #106: Load Tile and texture rectangles in COPY mode, worked out by hand.

mod common;

use common::*;
use reference::check::check;
use reference::comparison::rng::Rng;
use reference::comparison::textures::copy_list;
use reference::draw::{draw, works, Work};
use reference::texture::TEXTURE_BYTES;
use reference::words::bytes_of;

const COPY: u64 = 0x2F20_0000_0000_0000;
/// 16-bit RGBA, width 4, address 64.
const TEXTURE: u64 = 0x3D10_0003_0000_0040;
/// 16-bit RGBA, one word a line, at texture byte 0.
const TILE: u64 = 0x3510_0200_0000_0000;
/// Columns 0 to 3 and rows 0 to 1.
const LOAD: u64 = 0x3400_0000_0000_C004;
/// Eight texels from the first on, a new line after each word.
const BLOCK: u64 = 0x3300_0000_0000_7800;
/// Pixels (1,1) to (2,2).
const CORNERS: u64 = 0x2400_8008_0000_4004;
/// From texel (0,0), a texel each pixel.
const STEPS: u64 = 0x0000_0000_1000_0400;

/// What a Set Tile adds: lines, and words of texture memory.
const LINE: u64 = 1 << 41;
const TMEM: u64 = 1 << 32;

/// What a texture rectangle's second word adds to s and t, in texels.
const S_TEXEL: u64 = 32 << 48;
const T_TEXEL: u64 = 32 << 32;

/// Byte a of memory is a, byte b of texture memory is b plus 128, if it has that many.
#[derive(Clone, Debug, PartialEq)]
struct Lent {
    memory: Vec<u8>,
    texture: Vec<u8>,
}

impl Lent {
    fn new(memory: usize, texture: usize) -> Lent {
        Lent {
            memory: (0..memory).map(|byte| byte as u8).collect(),
            texture: (0..texture).map(|byte| byte as u8 ^ 128).collect(),
        }
    }

    fn draw(&mut self, words: &[u64]) -> (u8, usize) {
        let list = bytes_of(words);
        answer(draw(&list, &mut self.memory, 0, &mut self.texture))
    }

    /// With other bytes from a place of memory on.
    fn with(mut self, at: usize, bytes: &[u8]) -> Lent {
        self.memory[at..at + bytes.len()].copy_from_slice(bytes);
        self
    }

    fn with_texture(mut self, at: usize, bytes: &[u8]) -> Lent {
        self.texture[at..at + bytes.len()].copy_from_slice(bytes);
        self
    }
}

fn lent() -> Lent {
    Lent::new(128, TEXTURE_BYTES)
}

/// The setup of a copy, and these words.
fn copying(words: &[u64]) -> Vec<u64> {
    [&[COPY, IMAGE, SCISSOR, TEXTURE], words].concat()
}

/// A list is drawn and leaves this.
fn leaves(words: &[u64], expected: Lent) {
    let mut lent = lent();
    assert_eq!(lent.draw(words), (0, words.len()));
    assert_eq!(lent.memory, expected.memory);
    assert!(lent == expected, "{:?}", &lent.texture[..32]);
}

/// A list is refused, and all that is lent stays.
fn refuses(words: &[u64], lent: Lent, number: u8, place: usize) {
    let mut after = lent.clone();
    assert_eq!(after.draw(words), (number, place), "{words:x?}");
    assert!(after == lent);
}

/// The second word's halves change places, and the lines can be copied; by request
/// #112 after Load Block as after Load Tile.
#[test]
fn a_load_and_a_copy() {
    let expected = lent()
        .with_texture(0, &[64, 65, 66, 67, 68, 69, 70, 71])
        .with_texture(8, &[76, 77, 78, 79, 72, 73, 74, 75])
        .with(18, &[64, 65, 66, 67])
        .with(34, &[72, 73, 74, 75]);
    for load in [LOAD, BLOCK] {
        let list = copying(&[TILE, load, SYNC_LOAD, CORNERS, STEPS]);
        leaves(&list, expected.clone());
    }
}

/// Columns 2 to 3 and rows 1 to 2: the block starts there, and so does the tile. The
/// quarters of the lower right don't count.
#[test]
fn a_block_inside_the_texture_image() {
    let load = 0x3400_8004_0000_F00B;
    let at_its_start = STEPS + 2 * S_TEXEL + T_TEXEL;
    let list = copying(&[TILE, load, SYNC_LOAD, CORNERS, at_its_start]);
    let expected = lent()
        .with_texture(0, &[76, 77, 78, 79])
        .with_texture(12, &[84, 85, 86, 87])
        .with(18, &[76, 77, 78, 79])
        .with(34, &[84, 85, 86, 87]);
    leaves(&list, expected);
    let before_it = copying(&[TILE, load, SYNC_LOAD, CORNERS, STEPS]);
    refuses(&before_it, lent(), 18, 7);
}

/// A tile without a size starts at (0, 0); texture memory is the caller's.
#[test]
fn rows_and_columns_below_zero() {
    let list = |second| copying(&[TILE + TMEM, CORNERS, second]);
    let row = list(STEPS | 0xFFE0 << 32);
    let expected = lent().with(18, &[132, 133, 134, 135]);
    leaves(&row, expected.with(34, &[136, 137, 138, 139]));
    let column = list(STEPS | 0xFFE0 << 48);
    let expected = lent().with(18, &[134, 135, 136, 137]);
    leaves(&column, expected.with(34, &[138, 139, 148, 149]));
    let rows = list(STEPS | 0xFFC0 << 32);
    refuses(&rows, lent(), 18, 5);
}

#[test]
fn a_load_with_an_end_below_its_start_sets_the_size() {
    let nothing = 0x3400_8000_0000_4008;
    let list = copying(&[TILE + TMEM, nothing, SYNC_LOAD, CORNERS, STEPS]);
    // The tile starts at column 2.
    let expected = lent().with(18, &[132, 133, 134, 135]);
    leaves(&list, expected.with(34, &[136, 137, 138, 139]));
    let list = [COPY, TILE, nothing];
    refuses(&list, lent(), 17, 2);
    // Nothing of the image is read, wherever it lies.
    let far = TEXTURE | 0xFF_FFFF;
    leaves(&[far, TILE + 511 * TMEM, nothing], lent());
}

#[test]
fn the_rectangles_own_first_row_counts() {
    let from_row_2 = SCISSOR | 8 << 32;
    let from_column_2 = SCISSOR | 8 << 44;
    let list = |scissor| [COPY, IMAGE, scissor, TILE, CORNERS, STEPS];
    let lower_row = lent().with(34, &[140, 141, 142, 143]);
    leaves(&list(from_row_2), lower_row.clone());
    let right = lent().with(20, &[130, 131]).with(36, &[142, 143]);
    leaves(&list(from_column_2), right);
    leaves(&list(SCISSOR | 1 << 25), lower_row);
    let odd = SCISSOR | 1 << 25 | 1 << 24;
    leaves(&list(odd), lent().with(18, &[128, 129, 130, 131]));
}

#[test]
fn a_later_texel_wins() {
    let list = copying(&[TILE - LINE, LOAD]);
    leaves(
        &list,
        lent().with_texture(0, &[76, 77, 78, 79, 72, 73, 74, 75]),
    );
}

/// Width 1: pixels (2,1) and (1,2) share an address.
#[test]
fn a_later_pixel_stays() {
    let narrow = 0x3F10_0000_0000_0000;
    let list = [COPY, narrow, SCISSOR, TILE, CORNERS, STEPS];
    leaves(&list, lent().with(4, &[128, 129, 140, 141, 142, 143]));
}

/// The colour image is the texture image, and the fill comes first.
#[test]
fn a_load_reads_what_was_drawn() {
    let whole_image = 0x3D10_0007_0000_0000;
    let load = 0x3400_4004_0000_8008;
    let list = after_setup(&[C, R, SYNC_PIPE, whole_image, TILE, load]);
    let painted = [0x00, 0x3F, 0xF8, 0x01];
    let expected = lent().with(18, &painted).with(34, &painted);
    leaves(
        &list,
        expected
            .with_texture(0, &painted)
            .with_texture(12, &painted),
    );
}

#[test]
fn texels_and_pixels_at_the_end_of_memory() {
    let list = copying(&[TILE, LOAD, SYNC_LOAD, CORNERS, STEPS]);
    assert_eq!(Lent::new(80, TEXTURE_BYTES).draw(&list), (0, 9));
    refuses(&list, Lent::new(79, TEXTURE_BYTES), 12, 5);
    let list = copying(&[TILE, CORNERS, STEPS]);
    assert_eq!(Lent::new(38, TEXTURE_BYTES).draw(&list), (0, 7));
    refuses(&list, Lent::new(37, TEXTURE_BYTES), 12, 5);
}

/// The last word has room for four texels of an even row and of an odd one.
#[test]
fn texels_at_the_end_of_texture_memory() {
    let last = TILE + 510 * TMEM;
    let list = copying(&[last, LOAD, SYNC_LOAD, CORNERS, STEPS]);
    let expected = lent()
        .with_texture(4_080, &[64, 65, 66, 67, 68, 69, 70, 71])
        .with_texture(4_088, &[76, 77, 78, 79, 72, 73, 74, 75])
        .with(18, &[64, 65, 66, 67])
        .with(34, &[72, 73, 74, 75]);
    leaves(&list, expected);
    refuses(&copying(&[last + TMEM, LOAD]), lent(), 18, 5);
    refuses(&copying(&[last + TMEM, CORNERS, STEPS]), lent(), 18, 5);
    let third_row = STEPS + T_TEXEL;
    refuses(&copying(&[last, CORNERS, third_row]), lent(), 18, 5);
    let dropped = copying(&[SCISSOR | 0xFFF << 32, last, CORNERS, third_row]);
    leaves(&dropped, lent());
}

#[test]
fn texture_memory_of_another_length() {
    for length in [0, 4_095, 4_097, 8_192] {
        refuses(&[], Lent::new(64, length), 16, 0);
        refuses(&after_setup(&[C, R]), Lent::new(64, length), 16, 0);
        refuses(&after_setup(&[R, C]), Lent::new(64, length), 9, 4);
        refuses(&[command(0x30)], Lent::new(64, length), 16, 0);
    }
    leaves(&[], lent());
}

#[test]
fn loads_that_are_not_drawn() {
    let load_tlut = command(0x30);
    refuses(&[load_tlut], lent(), 17, 0);
    refuses(&copying(&[TILE, load_tlut]), lent(), 17, 5);
    refuses(&after_setup(&[C, load_tlut]), lent(), 17, 4);
    for load in [LOAD, BLOCK] {
        refuses(&[TILE, load], lent(), 17, 1);
        refuses(&[TEXTURE, load], lent(), 17, 1);
        refuses(&[TEXTURE, TILE | 1 << 24, load], lent(), 17, 2);
        for other in [1 << 51, 3 << 51, 1 << 53, 4 << 53] {
            refuses(&[TEXTURE ^ other, TILE, load], lent(), 17, 2);
            refuses(&[TEXTURE, TILE ^ other, load], lent(), 17, 2);
        }
    }
    leaves(&[TEXTURE, TILE ^ 3 << 51, TILE, LOAD & !0xFFFF], {
        lent().with_texture(0, &[64, 65])
    });
}

/// From texel 3 of row 2, ten texels, which run past the end of their row of four.
#[test]
fn a_block_inside_the_texture_image_is_read_on() {
    let block = 0x3300_3002_0000_C000;
    let texels: Vec<u8> = (86..106).collect();
    leaves(
        &copying(&[TILE + TMEM, block]),
        lent().with_texture(8, &texels),
    );
}

/// Dxt 1,024: a new line after two words. 1,023 is a word late, and stays behind.
#[test]
fn the_line_of_a_texel_in_a_block() {
    let turned_words = |dxt: u64| {
        let list = copying(&[TILE, 0x3300_0000_0003_F000 | dxt]);
        let mut lent = Lent::new(256, TEXTURE_BYTES);
        assert_eq!(lent.draw(&list), (0, list.len()));
        let is_turned = |word: &usize| lent.texture[8 * word] != 64 + 8 * *word as u8;
        (0..16).filter(is_turned).collect::<Vec<usize>>()
    };
    assert_eq!(turned_words(0), []);
    assert_eq!(turned_words(128), []);
    assert_eq!(turned_words(1_024), [2, 3, 6, 7, 10, 11, 14, 15]);
    assert_eq!(turned_words(1_023), [3, 4, 7, 8, 11, 12, 15]);
    assert_eq!(turned_words(2_048), [1, 3, 5, 7, 9, 11, 13, 15]);
    assert_eq!(turned_words(4_095), (1..16).collect::<Vec<usize>>());
}

/// A block is refused by its texels before memory and texture memory are looked at.
#[test]
fn a_block_of_no_texel_or_too_many() {
    let block = |first: u64, last: u64| copying(&[TILE, command(0x33) | first << 44 | last << 12]);
    let no_memory = || Lent::new(0, TEXTURE_BYTES);
    refuses(&block(1, 0), no_memory(), 17, 5);
    refuses(&block(4_095, 0), no_memory(), 17, 5);
    refuses(&block(0, 2_048), no_memory(), 17, 5);
    refuses(&block(2_047, 4_095), no_memory(), 17, 5);
    refuses(&block(0, 2_047), no_memory(), 12, 5);
    refuses(&block(0, 2_047), Lent::new(4_159, TEXTURE_BYTES), 12, 5);
    let mut whole = Lent::new(4_160, TEXTURE_BYTES);
    assert_eq!(whole.draw(&block(0, 2_047)), (0, 6));
    assert!(whole.texture == whole.memory[64..]);
    let mut late = Lent::new(16_000, TEXTURE_BYTES);
    assert_eq!(late.draw(&block(2_048, 4_095)), (0, 6));
    let beyond = copying(&[TILE + TMEM, command(0x33) | 2_047 << 12]);
    refuses(&beyond, Lent::new(4_160, TEXTURE_BYTES), 18, 5);
}

/// The tile's size takes the fields as they are: texel 4 is column 1 for a copy.
#[test]
fn a_block_sets_the_size() {
    let block = 0x3300_4008_0000_4000;
    let at_its_start = STEPS + S_TEXEL + 2 * T_TEXEL;
    let list = copying(&[TILE, block, SYNC_LOAD, CORNERS, at_its_start]);
    let mut lent = Lent::new(256, TEXTURE_BYTES);
    assert_eq!(lent.draw(&list), (0, list.len()));
    assert_eq!(lent.memory[18..20], [136, 137]);
    let uneven = copying(&[TILE, BLOCK | 1 << 44, SYNC_LOAD, CORNERS, STEPS]);
    refuses(&uneven, Lent::new(256, TEXTURE_BYTES), 17, 7);
}

/// Each need broken alone, also where no pixel is kept.
#[test]
fn what_a_copy_needs() {
    let nowhere = 0x2400_0000_0000_4004;
    let set_size = 0x3200_0000_0000_0000;
    for corners in [CORNERS, nowhere] {
        let refused = |words: [u64; 4]| {
            let [modes, image, tile, size] = words;
            let list = [modes, image, SCISSOR, tile, size, corners, STEPS];
            refuses(&list, lent(), 17, 5);
        };
        for mode in [1 << 51, 1 << 47, 1] {
            refused([COPY | mode, IMAGE, TILE, set_size]);
        }
        for size in [0, 1, 3] {
            refused([COPY, IMAGE & !(3 << 51) | size << 51, TILE, set_size]);
        }
        for bit in (0..=8).chain(10..=18) {
            refused([COPY, IMAGE, TILE | 1 << bit, set_size]);
        }
        for bit in [32, 33, 44, 45] {
            refused([COPY, IMAGE, TILE, set_size | 1 << bit]);
        }
        refused([COPY, IMAGE, TILE | 1 << 24, set_size]);
        refused([COPY, IMAGE, N, set_size]);
        for bit in (0..37).chain(48..53) {
            let list = copying(&[TILE, corners, STEPS ^ 1 << bit]);
            refuses(&list, lent(), 17, 5);
        }
    }
}

/// Clamp, palette, the image's format and other modes are free.
#[test]
fn what_a_copy_does_not_need() {
    let free = 1 << 19 | 1 << 9 | 0xF << 20;
    let modes = COPY | 0x0087_7FFF_FFFF_FFFE;
    let list = [modes, IMAGE | 7 << 53, SCISSOR, TILE | free, CORNERS, STEPS];
    let expected = lent().with(18, &[128, 129, 130, 131]);
    leaves(&list, expected.with(34, &[140, 141, 142, 143]));
}

#[test]
fn the_order_of_grounds_10_to_18() {
    let misaligned = IMAGE | 32;
    let one_cycle = command(0x2F);
    let draws = [
        vec![CORNERS | 1 << 56, STEPS],
        vec![R],
        whole(0x08),
        whole(0x0F),
    ];
    for draw in draws {
        let list = [&[COPY, misaligned, SCISSOR][..], &draw].concat();
        refuses(&list, lent(), 10, 3);
    }
    for modes in [one_cycle, one_cycle | 1 << 52, MODES] {
        let list = [modes, misaligned, SCISSOR, CORNERS, STEPS];
        refuses(&list, lent(), 10, 3);
    }
    let list = [COPY, misaligned, SCISSOR, CORNERS, STEPS];
    refuses(&list, lent(), 11, 3);
    // No load asks for an aligned image.
    leaves(&[misaligned, TEXTURE, TILE, LOAD & !0xFFFF], {
        lent().with_texture(0, &[64, 65])
    });
    let no_memory = || Lent::new(0, TEXTURE_BYTES);
    refuses(&copying(&[CORNERS, STEPS]), no_memory(), 17, 4);
    refuses(&copying(&[LOAD]), no_memory(), 17, 4);
    let end = TILE + 511 * TMEM;
    refuses(&copying(&[end, CORNERS, STEPS]), no_memory(), 12, 5);
    refuses(&copying(&[end, LOAD]), no_memory(), 12, 5);
    // An earlier 18 comes before a later 10.
    refuses(&copying(&[end, LOAD, SYNC_LOAD, R]), lent(), 18, 5);
}

/// Of the comparison's lists enough are drawn, and what is easily done wrong is there.
#[test]
fn the_comparison_reaches_what_matters() {
    let mut rng = Rng::new(13);
    let mut seen = Seen::default();
    for _ in 0..4_000 {
        let list = copy_list(&mut rng, 8, 12);
        if check(&list).outcome.is_ok() {
            seen.see(&works(&list, |_| None).unwrap_or_default());
        }
    }
    let Seen {
        texels_shared,
        pixels_shared,
        negative_rows,
        negative_columns,
        last_words,
        read_after_drawn,
        blocks_turned,
    } = seen;
    assert!(texels_shared > 100, "{texels_shared}");
    assert!(pixels_shared > 100, "{pixels_shared}");
    assert!(negative_rows > 50, "{negative_rows}");
    assert!(negative_columns > 50, "{negative_columns}");
    assert!(last_words > 20, "{last_words}");
    assert!(read_after_drawn > 100, "{read_after_drawn}");
    assert!(blocks_turned > 100, "{blocks_turned}");
}

/// How many draws and loads inside texture memory have a property.
#[derive(Default)]
struct Seen {
    texels_shared: u32,
    pixels_shared: u32,
    negative_rows: u32,
    negative_columns: u32,
    last_words: u32,
    read_after_drawn: u32,
    blocks_turned: u32,
}

impl Seen {
    fn see(&mut self, works: &[Work]) {
        let inside = |work: &&Work| work.moves().all(|moved| (0..4_096).contains(&moved.byte));
        let mut drawn = Vec::new();
        for work in works.iter().filter(inside) {
            let bytes: Vec<i64> = work.moves().map(|moved| moved.byte).collect();
            let addresses: Vec<u64> = work.addresses().collect();
            self.last_words += u32::from(bytes.iter().any(|byte| *byte >= 4_088));
            match work {
                Work::Load(_) | Work::Block(_) => {
                    let rises = bytes.windows(2).all(|pair| pair[0] < pair[1]);
                    let is_block = matches!(work, Work::Block(_));
                    self.blocks_turned += u32::from(is_block && !rises);
                    self.texels_shared += u32::from(has_doubles(&bytes));
                    let is_drawn = |address| drawn.contains(address);
                    self.read_after_drawn += u32::from(addresses.iter().any(is_drawn));
                }
                Work::Copy(copy) if !bytes.is_empty() => {
                    self.pixels_shared += u32::from(has_doubles(&addresses));
                    self.negative_rows += u32::from(copy.row < 0);
                    self.negative_columns += u32::from(copy.column < 0);
                }
                _ => {}
            }
            if !matches!(work, Work::Load(_) | Work::Block(_)) {
                drawn.extend(addresses);
            }
        }
    }
}

fn has_doubles<T: Copy + Ord>(items: &[T]) -> bool {
    let mut items = items.to_vec();
    items.sort_unstable();
    items.windows(2).any(|pair| pair[0] == pair[1])
}
