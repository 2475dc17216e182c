//! How often each function gave each ground.

use std::fmt;

use crate::comparison::calls::Function;

/// The greatest number of a ground.
const MOST: u8 = 28;

/// Counts for each function and each ground, 0 (accepted) to 28.
#[derive(Clone, Debug, Default, PartialEq, Eq)]
pub struct Counts {
    counts: [[u64; MOST as usize + 1]; Function::COUNT],
    /// Repairs whose plan was compared with all other plans.
    pub searched: u64,
}

impl Counts {
    pub fn count(&mut self, function: Function, ground: u8) {
        self.counts[function as usize][usize::from(ground)] += 1;
    }

    pub fn of(&self, function: Function, ground: u8) -> u64 {
        self.counts[function as usize][usize::from(ground)]
    }

    /// The grounds that a function can give and that were never reached.
    pub fn missing(&self) -> Vec<(Function, u8)> {
        Function::ALL
            .into_iter()
            .flat_map(|function| {
                possible(function)
                    .iter()
                    .map(move |ground| (function, *ground))
            })
            .filter(|(function, ground)| self.of(*function, *ground) == 0)
            .collect()
    }
}

/// The grounds that a function can give, 01's "Order".
pub fn possible(function: Function) -> &'static [u8] {
    match function {
        Function::Check => &[0, 1, 2, 3, 4, 5, 6, 7, 8, 9, 19],
        Function::Repair | Function::Afresh => &[0, 1, 2, 3, 4, 5, 6, 13, 14, 19],
        Function::Draw => &[0, 1, 2, 3, 4, 5, 6, 7, 8, 9, 10, 11, 12, 16, 17, 18, 19],
        Function::Decode => &[0, 3, 14],
        Function::Encode => &[0, 14, 15],
        Function::Words | Function::Step => &[0],
        Function::Stream => &[0, 1, 2, 3, 4, 5, 6, 7, 8, 9, 19, 28],
        Function::Compare | Function::Rest => &[0, 1, 2, 3, 14],
        Function::IndexBuild => &[0, 1, 2, 3, 14],
        Function::IndexAsk => &[0, 1, 2, 3, 24, 26],
        Function::IndexReplace => &[0, 1, 2, 3, 14, 24, 25, 26],
        Function::View => &[0, 12, 14, 27],
        Function::Translate => &[0, 14, 20, 21, 22, 23],
    }
}

impl fmt::Display for Counts {
    fn fmt(&self, f: &mut fmt::Formatter) -> fmt::Result {
        write!(f, "ground")?;
        for function in Function::ALL {
            write!(f, "{:>10}", function.name())?;
        }
        writeln!(f)?;
        let is_given = |ground: &u8| Function::ALL.iter().any(|f| possible(*f).contains(ground));
        for ground in (0..=MOST).filter(is_given) {
            write!(f, "{ground:>6}")?;
            for function in Function::ALL {
                write_count(
                    f,
                    possible(function).contains(&ground),
                    self.of(function, ground),
                )?;
            }
            writeln!(f)?;
        }
        writeln!(f, "repairs compared with all plans: {}", self.searched)
    }
}

fn write_count(f: &mut fmt::Formatter, possible: bool, count: u64) -> fmt::Result {
    if possible || count > 0 {
        write!(f, "{count:>10}")
    } else {
        write!(f, "{:>10}", "-")
    }
}
