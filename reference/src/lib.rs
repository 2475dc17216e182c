//! A second, independent implementation of the rules of paper 01 about command
//! lists of the Nintendo 64's display processor (RDP), written from the papers
//! alone. It is naive on purpose: each function follows one sentence of 01
//! ("01" below) or one table of the N64brew command page ("000" below).

pub mod answer;
pub mod area;
pub mod check;
pub mod comparison;
pub mod decode;
pub mod differences;
pub mod display;
pub mod draw;
pub mod encode;
pub mod fields;
pub mod index;
pub mod kinds;
pub mod marks;
pub mod packed;
pub mod record;
pub mod registers;
pub mod repair;
pub mod stream;
pub mod texture;
pub mod view;
pub mod words;
