//! Request #113: a finished image becomes RGBA rows.

use crate::answer::{write_front, Ground, Refusal};

/// The widest and the highest image.
const MOST: u32 = 1_024;

/// Red, green, blue and alpha.
const RGBA_BYTES: usize = 4;

/// An image in memory, as the viewer is told of it.
#[derive(Clone, Copy, Debug, Default, PartialEq, Eq)]
pub struct Image {
    pub address: u64,
    pub width: u32,
    pub height: u32,
    /// 1, 2, 3 for 8, 16, 32 bits.
    pub size: u32,
}

impl Image {
    /// The bytes that the image has in memory, unless 27 holds: "width or height 0 or
    /// above 1,024, or a size number not 1 to 3".
    pub fn bytes(self) -> Option<usize> {
        let is_shown = |length| (1..=MOST).contains(&length);
        let lengths_are_shown = is_shown(self.width) && is_shown(self.height);
        let bytes_per_pixel = self.bytes_per_pixel().filter(|_| lengths_are_shown)?;
        Some(self.pixels() * bytes_per_pixel)
    }

    fn bytes_per_pixel(self) -> Option<usize> {
        match self.size {
            1 => Some(1),
            2 => Some(2),
            3 => Some(4),
            _ => None,
        }
    }

    fn pixels(self) -> usize {
        self.width as usize * self.height as usize
    }
}

/// Writes the rows of an image in memory that starts at a stated address; answers the
/// bytes written. "27 at 0 ..; 12 at 0, image outside memory; 14, place the bytes needed."
pub fn view(memory: &[u8], start: u64, image: Image, out: &mut [u8]) -> Result<usize, Refusal> {
    let refused = |ground| Refusal::new(ground, 0);
    let bytes = image.bytes().ok_or(refused(Ground::NotShown))?;
    let lent = part(memory, start, image.address, bytes).ok_or(refused(Ground::OutsideMemory))?;
    let pixels = lent.chunks_exact(bytes / image.pixels());
    let rows: Vec<u8> = pixels.flat_map(rgba).collect();
    write_front(out, &rows, rows.len())?;
    Ok(rows.len())
}

/// So many bytes of memory from an address on, if all are lent. No sum wraps.
fn part(memory: &[u8], start: u64, address: u64, bytes: usize) -> Option<&[u8]> {
    let first = usize::try_from(address.checked_sub(start)?).ok()?;
    memory.get(first..first.checked_add(bytes)?)
}

/// "A five-bit channel v (red highest) becomes 8v + floor(v/4), the single, lowest alpha
/// bit 0 or 255; an 8-bit value fills red, green and blue with alpha 255; a 32-bit pixel
/// is copied."
fn rgba(pixel: &[u8]) -> [u8; RGBA_BYTES] {
    match *pixel {
        [value] => [value, value, value, 255],
        [high, low] => rgba_of_16_bits(u16::from_be_bytes([high, low])),
        [red, green, blue, alpha] => [red, green, blue, alpha],
        _ => unreachable!("ground 27 was tested"),
    }
}

fn rgba_of_16_bits(pixel: u16) -> [u8; RGBA_BYTES] {
    let channel = |low: u32| {
        let v = (pixel >> low & 31) as u8;
        8 * v + v / 4
    };
    let alpha = if pixel & 1 == 1 { 255 } else { 0 };
    [channel(11), channel(6), channel(1), alpha]
}
