//! The two sides of the comparison.

use crate::packed;
use crate::record::Record;
use crate::view::Image;

/// The C functions, over slices. Every answer is one packed 64-bit number, but
/// for the plain count of a command's words.
pub trait Side {
    fn check(&self, list: &[u8]) -> u64;
    fn repair(&self, list: &[u8], work: &mut [u8], out: &mut [u8]) -> u64;
    fn draw(&self, list: &[u8], memory: &mut [u8], start: u64, texture: &mut [u8]) -> u64;
    fn decode(&self, list: &[u8], fields: &mut [u64]) -> u64;
    fn encode(&self, number: u32, fields: &[u64], suffix: &[u8], out: &mut [u8]) -> u64;
    fn words(&self, first_word: u64) -> u64;
    fn step(&self, hazards: u32, number: u32) -> u64;
    fn feed(&self, record: &mut Record, portion: &[u8]) -> u64;
    fn close(&self, record: &mut Record) -> u64;
    fn translate(&self, memory: &[u8], start: u32, out: &mut [u8]) -> u64;
    fn repair_afresh(&self, list: &[u8], work: &mut [u8], out: &mut [u8]) -> u64;
    fn compare(&self, first: &[u8], second: &[u8], entries: &mut [u32]) -> u64;
    fn rest(&self, first: &[u8], second: &[u8], count: usize) -> u64;
    fn index_build(&self, list: &[u8], entries: &mut [u32]) -> u64;
    fn index_ask(&self, list: &[u8], entries: &[u32], place: u32) -> u64;
    fn index_replace(&self, list: &mut [u8], entries: &mut [u32], place: u32, new: &[u8]) -> u64;
    fn view(&self, memory: &[u8], start: u64, image: Image, out: &mut [u8]) -> u64;
}

/// This crate.
pub struct Reference;

impl Side for Reference {
    fn check(&self, list: &[u8]) -> u64 {
        packed::check(list)
    }

    fn repair(&self, list: &[u8], work: &mut [u8], out: &mut [u8]) -> u64 {
        packed::repair(list, work, out)
    }

    fn draw(&self, list: &[u8], memory: &mut [u8], start: u64, texture: &mut [u8]) -> u64 {
        packed::draw(list, memory, start, texture)
    }

    fn decode(&self, list: &[u8], fields: &mut [u64]) -> u64 {
        packed::decode(list, fields)
    }

    fn encode(&self, number: u32, fields: &[u64], suffix: &[u8], out: &mut [u8]) -> u64 {
        packed::encode(number, fields, suffix, out)
    }

    fn words(&self, first_word: u64) -> u64 {
        packed::words(first_word)
    }

    fn step(&self, hazards: u32, number: u32) -> u64 {
        packed::step(hazards, number)
    }

    fn feed(&self, record: &mut Record, portion: &[u8]) -> u64 {
        packed::feed(record, portion)
    }

    fn close(&self, record: &mut Record) -> u64 {
        packed::close(record)
    }

    fn translate(&self, memory: &[u8], start: u32, out: &mut [u8]) -> u64 {
        packed::translate(memory, start, out)
    }

    fn repair_afresh(&self, list: &[u8], work: &mut [u8], out: &mut [u8]) -> u64 {
        packed::repair_afresh(list, work, out)
    }

    fn compare(&self, first: &[u8], second: &[u8], entries: &mut [u32]) -> u64 {
        packed::compare(first, second, entries)
    }

    fn rest(&self, first: &[u8], second: &[u8], count: usize) -> u64 {
        packed::rest(first, second, count)
    }

    fn index_build(&self, list: &[u8], entries: &mut [u32]) -> u64 {
        packed::index_build(list, entries)
    }

    fn index_ask(&self, list: &[u8], entries: &[u32], place: u32) -> u64 {
        packed::index_ask(list, entries, place)
    }

    fn index_replace(&self, list: &mut [u8], entries: &mut [u32], place: u32, new: &[u8]) -> u64 {
        packed::index_replace(list, entries, place, new)
    }

    fn view(&self, memory: &[u8], start: u64, image: Image, out: &mut [u8]) -> u64 {
        packed::view(memory, start, image, out)
    }
}
