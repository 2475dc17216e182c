//! The comparison of this crate with a second side: seeded cases go through
//! both, and every answer and every byte of every lent buffer must be the same.

pub mod builder;
pub mod calls;
pub mod cases;
pub mod counts;
pub mod displays;
pub mod encodings;
pub mod foreign;
pub mod indices;
pub mod laws;
pub mod lent;
pub mod lists;
pub mod mixed;
pub mod pairs;
pub mod portions;
pub mod rng;
pub mod run;
pub mod scenes;
pub mod side;
pub mod textures;
pub mod views;
