//! One call of one of the C functions, with everything that its caller lends.

use std::fmt;

use crate::comparison::lent::Lent;
use crate::comparison::portions::Portions;
use crate::comparison::side::Side;
use crate::view::Image;

#[derive(Clone, Copy, Debug, PartialEq, Eq)]
pub enum Function {
    Check,
    Repair,
    Draw,
    Decode,
    Encode,
    Words,
    Step,
    Stream,
    Translate,
    Afresh,
    Compare,
    Rest,
    IndexBuild,
    IndexAsk,
    IndexReplace,
    View,
}

impl Function {
    pub const COUNT: usize = 16;
    pub const ALL: [Function; Function::COUNT] = [
        Function::Check,
        Function::Repair,
        Function::Draw,
        Function::Decode,
        Function::Encode,
        Function::Words,
        Function::Step,
        Function::Stream,
        Function::Translate,
        Function::Afresh,
        Function::Compare,
        Function::Rest,
        Function::IndexBuild,
        Function::IndexAsk,
        Function::IndexReplace,
        Function::View,
    ];

    pub fn name(self) -> &'static str {
        match self {
            Function::Check => "check",
            Function::Repair => "repair",
            Function::Draw => "draw",
            Function::Decode => "decode",
            Function::Encode => "encode",
            Function::Words => "words",
            Function::Step => "step",
            Function::Stream => "stream",
            Function::Translate => "translate",
            Function::Afresh => "afresh",
            Function::Compare => "compare",
            Function::Rest => "rest",
            Function::IndexBuild => "build",
            Function::IndexAsk => "ask",
            Function::IndexReplace => "replace",
            Function::View => "view",
        }
    }
}

/// One call: what the caller lends, before it and after it. What a function
/// does not take is empty.
#[derive(Clone, Debug, PartialEq, Eq)]
pub struct Call {
    pub function: Function,
    /// The command number for encoding and for a step.
    pub number: u32,
    /// The first word of a command.
    pub word: u64,
    /// The marks before a step.
    pub hazards: u32,
    /// The address of lent memory, or the offset of a display list in it.
    pub start: u64,
    pub list: Lent<u8>,
    /// The list that a first one is compared with, or a new command.
    pub second: Lent<u8>,
    /// The place that an index is asked for.
    pub place: u32,
    /// The numbers that were lent for entries.
    pub count: usize,
    pub entries: Lent<u32>,
    pub suffix: Lent<u8>,
    pub fields: Lent<u64>,
    pub work: Lent<u8>,
    pub out: Lent<u8>,
    pub memory: Lent<u8>,
    pub texture: Lent<u8>,
    /// The image in memory that is viewed.
    pub image: Image,
    /// How the list is fed to a record, and what becomes of it.
    pub portions: Portions,
}

impl Call {
    /// A call that lends nothing yet.
    pub fn of(function: Function) -> Call {
        Call {
            function,
            number: 0,
            word: 0,
            hazards: 0,
            start: 0,
            list: Lent::default(),
            second: Lent::default(),
            place: 0,
            count: 0,
            entries: Lent::default(),
            suffix: Lent::default(),
            fields: Lent::default(),
            work: Lent::default(),
            out: Lent::default(),
            memory: Lent::default(),
            texture: Lent::default(),
            image: Image::default(),
            portions: Portions::default(),
        }
    }

    /// Makes the call on one side.
    pub fn make(&mut self, side: &dyn Side) -> u64 {
        let list = self.list.slice();
        match self.function {
            Function::Check => side.check(list),
            Function::Repair => side.repair(list, self.work.slice_mut(), self.out.slice_mut()),
            Function::Draw => {
                let (memory, texture) = (self.memory.slice_mut(), self.texture.slice_mut());
                side.draw(list, memory, self.start, texture)
            }
            Function::Decode => side.decode(list, self.fields.slice_mut()),
            Function::Encode => side.encode(
                self.number,
                self.fields.slice(),
                self.suffix.slice(),
                self.out.slice_mut(),
            ),
            Function::Words => side.words(self.word),
            Function::Step => side.step(self.hazards, self.number),
            Function::Stream => self.portions.make(side, list),
            Function::Translate => {
                let start = self.start as u32;
                side.translate(self.memory.slice(), start, self.out.slice_mut())
            }
            Function::Afresh => {
                side.repair_afresh(list, self.work.slice_mut(), self.out.slice_mut())
            }
            Function::Compare => side.compare(list, self.second.slice(), self.entries.slice_mut()),
            Function::Rest => side.rest(list, self.second.slice(), self.count),
            Function::IndexBuild => side.index_build(list, self.entries.slice_mut()),
            Function::IndexAsk => side.index_ask(list, self.entries.slice(), self.place),
            Function::IndexReplace => {
                let (list, entries) = (self.list.slice_mut(), self.entries.slice_mut());
                side.index_replace(list, entries, self.place, self.second.slice())
            }
            Function::View => {
                let memory = self.memory.slice();
                side.view(memory, self.start, self.image, self.out.slice_mut())
            }
        }
    }

    /// The first buffer in which two calls differ, and the place there.
    pub fn first_difference(&self, other: &Call) -> Option<(&'static str, i64)> {
        let bytes = [
            ("list", &self.list, &other.list),
            ("second", &self.second, &other.second),
            ("suffix", &self.suffix, &other.suffix),
            ("work", &self.work, &other.work),
            ("out", &self.out, &other.out),
            ("memory", &self.memory, &other.memory),
            ("texture", &self.texture, &other.texture),
        ];
        let differs = |(name, left, right): (&'static str, &Lent<u8>, &Lent<u8>)| {
            left.first_difference(right).map(|place| (name, place))
        };
        let fields = self.fields.first_difference(&other.fields);
        let in_fields = fields.map(|place| ("fields", place));
        let entries = self.entries.first_difference(&other.entries);
        let in_entries = entries.map(|place| ("entries", place));
        let in_portions = self.portions.first_difference(&other.portions);
        bytes
            .into_iter()
            .find_map(differs)
            .or(in_fields)
            .or(in_entries)
            .or(in_portions)
    }
}

/// The call's inputs: the list in hexadecimal and the buffers' lengths.
impl fmt::Display for Call {
    fn fmt(&self, f: &mut fmt::Formatter) -> fmt::Result {
        writeln!(
            f,
            "list ({} bytes): {}",
            self.list.len(),
            hexadecimal(self.list.slice())
        )?;
        match self.function {
            Function::Check => Ok(()),
            Function::Repair | Function::Afresh => {
                writeln!(
                    f,
                    "work {} bytes, out {} bytes",
                    self.work.len(),
                    self.out.len()
                )
            }
            Function::Draw => {
                writeln!(
                    f,
                    "memory {} bytes, start {:#x}, texture memory {} bytes",
                    self.memory.len(),
                    self.start,
                    self.texture.len()
                )
            }
            Function::Decode => writeln!(f, "fields {}", self.fields.len()),
            Function::Encode => self.describe_encoding(f),
            Function::Words => writeln!(f, "first word {:016X}", self.word),
            Function::Step => {
                writeln!(f, "hazards {:#x}, number {:#x}", self.hazards, self.number)
            }
            Function::Stream => write!(f, "{}", self.portions),
            Function::Translate => self.describe_translation(f),
            Function::Compare | Function::Rest => self.describe_pair(f),
            Function::IndexBuild => writeln!(f, "entries {} numbers", self.entries.len()),
            Function::IndexAsk | Function::IndexReplace => self.describe_index(f),
            Function::View => self.describe_view(f),
        }
    }
}

impl Call {
    fn describe_encoding(&self, f: &mut fmt::Formatter) -> fmt::Result {
        writeln!(f, "command number {:#x}", self.number)?;
        writeln!(f, "fields {:x?}", self.fields.slice())?;
        writeln!(f, "suffix {}", hexadecimal(self.suffix.slice()))?;
        writeln!(f, "out {} bytes", self.out.len())
    }

    fn describe_pair(&self, f: &mut fmt::Formatter) -> fmt::Result {
        let second = self.second.slice();
        writeln!(
            f,
            "second ({} bytes): {}",
            second.len(),
            hexadecimal(second)
        )?;
        let count = self.count.max(self.entries.len());
        writeln!(f, "entries {count} numbers")
    }

    fn describe_index(&self, f: &mut fmt::Formatter) -> fmt::Result {
        writeln!(f, "entries {:?}", self.entries.slice())?;
        let new = hexadecimal(self.second.slice());
        writeln!(f, "place {}, new command {new}", self.place)
    }

    fn describe_view(&self, f: &mut fmt::Formatter) -> fmt::Result {
        let (memory, out) = (self.memory.len(), self.out.len());
        writeln!(f, "{:?}", self.image)?;
        writeln!(
            f,
            "memory {memory} bytes, start {:#x}, out {out} bytes",
            self.start
        )
    }

    fn describe_translation(&self, f: &mut fmt::Formatter) -> fmt::Result {
        let memory = self.memory.slice();
        writeln!(
            f,
            "memory ({} bytes): {}",
            memory.len(),
            hexadecimal(memory)
        )?;
        writeln!(f, "start {:#x}, out {} bytes", self.start, self.out.len())
    }
}

fn hexadecimal(bytes: &[u8]) -> String {
    bytes.iter().map(|byte| format!("{byte:02X}")).collect()
}
