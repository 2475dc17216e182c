//! Functions of C as a side of the comparison, called with slices.

use crate::comparison::side::Side;
use crate::packed;
use crate::record::Record;
use crate::view::Image;

pub type Check = unsafe extern "C" fn(*const u8, usize) -> u64;
pub type Repair = unsafe extern "C" fn(*const u8, usize, *mut u8, usize, *mut u8, usize) -> u64;
pub type Draw = unsafe extern "C" fn(*const u8, usize, *mut u8, usize, u64, *mut u8, usize) -> u64;
pub type Decode = unsafe extern "C" fn(*const u8, usize, *mut u64, usize) -> u64;
pub type Encode =
    unsafe extern "C" fn(u32, *const u64, usize, *const u8, usize, *mut u8, usize) -> u64;
pub type Words = unsafe extern "C" fn(u64) -> u64;
pub type Step = unsafe extern "C" fn(u32, u32) -> u64;
pub type Feed = unsafe extern "C" fn(*mut Record, *const u8, usize) -> u64;
pub type Close = unsafe extern "C" fn(*mut Record) -> u64;
pub type Translate = unsafe extern "C" fn(*const u8, usize, u32, *mut u8, usize) -> u64;
pub type Compare = unsafe extern "C" fn(*const u8, usize, *const u8, usize, *mut u32, usize) -> u64;
pub type Rest = unsafe extern "C" fn(*const u8, usize, *const u8, usize, usize) -> u64;
pub type IndexBuild = unsafe extern "C" fn(*const u8, usize, *mut u32, usize) -> u64;
pub type IndexAsk = unsafe extern "C" fn(*const u8, usize, *const u32, usize, u32) -> u64;
pub type IndexReplace =
    unsafe extern "C" fn(*mut u8, usize, *mut u32, usize, u32, *const u8, usize) -> u64;
pub type View =
    unsafe extern "C" fn(*const u8, usize, u64, u64, u32, u32, u32, *mut u8, usize) -> u64;

/// Functions that ask of their pointers only that each lends as much as the
/// length after it says.
pub struct Foreign {
    pub check: Check,
    pub repair: Repair,
    pub draw: Draw,
    pub feed: Feed,
    pub close: Close,
    pub translate: Translate,
    pub repair_afresh: Repair,
    pub compare: Compare,
    pub rest: Rest,
    pub view: View,
    /// Where there is none, this crate's stands in.
    pub decode: Option<Decode>,
    pub encode: Option<Encode>,
    pub words: Option<Words>,
    pub step: Option<Step>,
    pub index_build: Option<IndexBuild>,
    pub index_ask: Option<IndexAsk>,
    pub index_replace: Option<IndexReplace>,
}

/// Declares functions of C by their names, and gives them as a `Foreign`: those
/// that the plain C version has too, and the others where there are such. They touch
/// no bytes but those lent, and write only those lent for writing.
#[macro_export]
macro_rules! foreign {
    (
        $check:ident, $repair:ident, $draw:ident, $feed:ident, $close:ident,
        $translate:ident, $repair_afresh:ident, $compare:ident, $rest:ident,
        $view:ident
        $(
            , $decode:ident, $encode:ident, $words:ident, $step:ident,
            $index_build:ident, $index_ask:ident, $index_replace:ident
        )?
    ) => {{
        extern "C" {
            fn $check(list: *const u8, list_length: usize) -> u64;
            fn $draw(
                list: *const u8,
                list_length: usize,
                memory: *mut u8,
                memory_length: usize,
                start: u64,
                texture: *mut u8,
                texture_length: usize,
            ) -> u64;
            fn $feed(
                record: *mut $crate::record::Record,
                portion: *const u8,
                portion_length: usize,
            ) -> u64;
            fn $close(record: *mut $crate::record::Record) -> u64;
            fn $translate(
                memory: *const u8,
                memory_length: usize,
                start: u32,
                out: *mut u8,
                out_length: usize,
            ) -> u64;
            fn $compare(
                first: *const u8,
                first_length: usize,
                second: *const u8,
                second_length: usize,
                entries: *mut u32,
                count: usize,
            ) -> u64;
            fn $rest(
                first: *const u8,
                first_length: usize,
                second: *const u8,
                second_length: usize,
                count: usize,
            ) -> u64;
            fn $view(
                memory: *const u8,
                memory_length: usize,
                start: u64,
                address: u64,
                width: u32,
                height: u32,
                size: u32,
                out: *mut u8,
                out_length: usize,
            ) -> u64;
            $(
                fn $decode(
                    list: *const u8,
                    list_length: usize,
                    fields: *mut u64,
                    count: usize,
                ) -> u64;
                fn $encode(
                    number: u32,
                    fields: *const u64,
                    count: usize,
                    suffix: *const u8,
                    suffix_length: usize,
                    out: *mut u8,
                    out_length: usize,
                ) -> u64;
                fn $words(first_word: u64) -> u64;
                fn $step(hazards: u32, number: u32) -> u64;
                fn $index_build(
                    list: *const u8,
                    list_length: usize,
                    entries: *mut u32,
                    count: usize,
                ) -> u64;
                fn $index_ask(
                    list: *const u8,
                    list_length: usize,
                    entries: *const u32,
                    count: usize,
                    place: u32,
                ) -> u64;
                fn $index_replace(
                    list: *mut u8,
                    list_length: usize,
                    entries: *mut u32,
                    count: usize,
                    place: u32,
                    new: *const u8,
                    new_length: usize,
                ) -> u64;
            )?
        }
        $crate::repairs!($repair, $repair_afresh);
        $crate::comparison::foreign::Foreign {
            check: $check,
            repair: $repair,
            draw: $draw,
            feed: $feed,
            close: $close,
            translate: $translate,
            repair_afresh: $repair_afresh,
            compare: $compare,
            rest: $rest,
            view: $view,
            decode: $crate::foreign!($($decode)?),
            encode: $crate::foreign!($($encode)?),
            words: $crate::foreign!($($words)?),
            step: $crate::foreign!($($step)?),
            index_build: $crate::foreign!($($index_build)?),
            index_ask: $crate::foreign!($($index_ask)?),
            index_replace: $crate::foreign!($($index_replace)?),
        }
    }};
    () => { None };
    ($function:ident) => { Some($function) };
}

/// Declares repairs by their names: both take the same.
#[macro_export]
macro_rules! repairs {
    ($($repair:ident),*) => {
        extern "C" {
            $(
                fn $repair(
                    list: *const u8,
                    list_length: usize,
                    work: *mut u8,
                    work_length: usize,
                    out: *mut u8,
                    out_length: usize,
                ) -> u64;
            )*
        }
    };
}

/// The proved library.
#[macro_export]
macro_rules! archive {
    () => {
        $crate::foreign!(
            lanyardrove_check,
            lanyardrove_repair,
            lanyardrove_draw,
            lanyardrove_stream_feed,
            lanyardrove_stream_close,
            lanyardrove_translate,
            lanyardrove_repair_afresh,
            lanyardrove_compare,
            lanyardrove_rest,
            lanyardrove_view,
            lanyardrove_decode,
            lanyardrove_encode,
            lanyardrove_words,
            lanyardrove_step,
            lanyardrove_index_build,
            lanyardrove_index_ask,
            lanyardrove_index_replace
        )
    };
}

/// The plain C version of the benchmark.
#[macro_export]
macro_rules! plain {
    () => {
        $crate::foreign!(
            plain_check,
            plain_repair,
            plain_draw,
            plain_stream_feed,
            plain_stream_close,
            plain_translate,
            plain_repair_afresh,
            plain_compare,
            plain_rest,
            plain_view
        )
    };
}

fn call_repair(repair: Repair, list: &[u8], work: &mut [u8], out: &mut [u8]) -> u64 {
    let (list, list_length) = (list.as_ptr(), list.len());
    let (work, work_length) = (work.as_mut_ptr(), work.len());
    let (out, out_length) = (out.as_mut_ptr(), out.len());
    unsafe { repair(list, list_length, work, work_length, out, out_length) }
}

impl Side for Foreign {
    fn check(&self, list: &[u8]) -> u64 {
        unsafe { (self.check)(list.as_ptr(), list.len()) }
    }

    fn repair(&self, list: &[u8], work: &mut [u8], out: &mut [u8]) -> u64 {
        call_repair(self.repair, list, work, out)
    }

    fn draw(&self, list: &[u8], memory: &mut [u8], start: u64, texture: &mut [u8]) -> u64 {
        let (list, list_length) = (list.as_ptr(), list.len());
        let (memory, memory_length) = (memory.as_mut_ptr(), memory.len());
        let (texture, texture_length) = (texture.as_mut_ptr(), texture.len());
        unsafe {
            (self.draw)(
                list,
                list_length,
                memory,
                memory_length,
                start,
                texture,
                texture_length,
            )
        }
    }

    fn decode(&self, list: &[u8], fields: &mut [u64]) -> u64 {
        let Some(decode) = self.decode else {
            return packed::decode(list, fields);
        };
        unsafe { decode(list.as_ptr(), list.len(), fields.as_mut_ptr(), fields.len()) }
    }

    fn encode(&self, number: u32, fields: &[u64], suffix: &[u8], out: &mut [u8]) -> u64 {
        let Some(encode) = self.encode else {
            return packed::encode(number, fields, suffix, out);
        };
        let (fields, count) = (fields.as_ptr(), fields.len());
        let (suffix, suffix_length) = (suffix.as_ptr(), suffix.len());
        let (out, out_length) = (out.as_mut_ptr(), out.len());
        unsafe {
            encode(
                number,
                fields,
                count,
                suffix,
                suffix_length,
                out,
                out_length,
            )
        }
    }

    fn words(&self, first_word: u64) -> u64 {
        match self.words {
            Some(words) => unsafe { words(first_word) },
            None => packed::words(first_word),
        }
    }

    fn step(&self, hazards: u32, number: u32) -> u64 {
        match self.step {
            Some(step) => unsafe { step(hazards, number) },
            None => packed::step(hazards, number),
        }
    }

    fn feed(&self, record: &mut Record, portion: &[u8]) -> u64 {
        unsafe { (self.feed)(record, portion.as_ptr(), portion.len()) }
    }

    fn close(&self, record: &mut Record) -> u64 {
        unsafe { (self.close)(record) }
    }

    fn translate(&self, memory: &[u8], start: u32, out: &mut [u8]) -> u64 {
        let (memory, memory_length) = (memory.as_ptr(), memory.len());
        let (out, out_length) = (out.as_mut_ptr(), out.len());
        unsafe { (self.translate)(memory, memory_length, start, out, out_length) }
    }

    fn repair_afresh(&self, list: &[u8], work: &mut [u8], out: &mut [u8]) -> u64 {
        call_repair(self.repair_afresh, list, work, out)
    }

    fn compare(&self, first: &[u8], second: &[u8], entries: &mut [u32]) -> u64 {
        let (first, first_length) = (first.as_ptr(), first.len());
        let (second, second_length) = (second.as_ptr(), second.len());
        let (entries, count) = (entries.as_mut_ptr(), entries.len());
        unsafe { (self.compare)(first, first_length, second, second_length, entries, count) }
    }

    fn rest(&self, first: &[u8], second: &[u8], count: usize) -> u64 {
        let (first, first_length) = (first.as_ptr(), first.len());
        let (second, second_length) = (second.as_ptr(), second.len());
        unsafe { (self.rest)(first, first_length, second, second_length, count) }
    }

    fn index_build(&self, list: &[u8], entries: &mut [u32]) -> u64 {
        let Some(build) = self.index_build else {
            return packed::index_build(list, entries);
        };
        let (entries, count) = (entries.as_mut_ptr(), entries.len());
        unsafe { build(list.as_ptr(), list.len(), entries, count) }
    }

    fn index_ask(&self, list: &[u8], entries: &[u32], place: u32) -> u64 {
        let Some(ask) = self.index_ask else {
            return packed::index_ask(list, entries, place);
        };
        let (entries, count) = (entries.as_ptr(), entries.len());
        unsafe { ask(list.as_ptr(), list.len(), entries, count, place) }
    }

    fn index_replace(&self, list: &mut [u8], entries: &mut [u32], place: u32, new: &[u8]) -> u64 {
        let Some(replace) = self.index_replace else {
            return packed::index_replace(list, entries, place, new);
        };
        let (list, list_length) = (list.as_mut_ptr(), list.len());
        let (entries, count) = (entries.as_mut_ptr(), entries.len());
        let (new, new_length) = (new.as_ptr(), new.len());
        unsafe { replace(list, list_length, entries, count, place, new, new_length) }
    }

    fn view(&self, memory: &[u8], start: u64, image: Image, out: &mut [u8]) -> u64 {
        let (memory, memory_length) = (memory.as_ptr(), memory.len());
        let (out, out_length) = (out.as_mut_ptr(), out.len());
        unsafe {
            (self.view)(
                memory,
                memory_length,
                start,
                image.address,
                image.width,
                image.height,
                image.size,
                out,
                out_length,
            )
        }
    }
}
