//! The functions of include/puffbramble.h. Each takes a slice's own pointer and length, which is all that the header asks for.

use std::mem::size_of;

use crate::{Areas, Run};

#[repr(C)]
#[derive(Clone, Copy)]
pub struct Answer {
    pub number: u64,
    pub at: u64,
    pub end: u64,
    pub name: u64,
    pub length: u64,
    pub function: u64,
    pub around: u64,
}

// What the header says: an archive from before the last two fields does not fit.
const _: () = assert!(size_of::<Answer>() == 56);

extern "C" {
    fn puffbramble_compile(
        tree: *const u8,
        tree_len: usize,
        options: u32,
        out: *mut u8,
        out_len: usize,
        table: *mut u64,
        table_words: usize,
        code: *mut u8,
        code_len: usize,
        spans: *mut u32,
        spans_words: usize,
    ) -> Answer;
    fn puffbramble_read(tree: *const u8, tree_len: usize) -> Answer;
    fn puffbramble_check(image: *const u8, image_len: usize) -> Answer;
    fn puffbramble_code_answer(image: *const u8, image_len: usize, k: usize) -> Answer;
    fn puffbramble_code_of(image: *const u8, image_len: usize, k: usize) -> Answer;
    fn puffbramble_directory_of(image: *const u8, image_len: usize) -> Answer;
    fn puffbramble_code_through(image: *const u8, image_len: usize, place: usize, k: usize) -> Answer;
    fn puffbramble_touch(image: *const u8, image_len: usize, name: u16) -> Answer;
    fn puffbramble_span_of(words: *const u32, words_len: usize, offset: usize) -> Answer;
}

pub fn compile(tree: &[u8], options: u32, areas: &mut Areas) -> Answer {
    let Areas { table, code, spans, output } = areas;
    // Five slices that do not overlap: four are borrowed to be changed.
    unsafe {
        puffbramble_compile(
            tree.as_ptr(),
            tree.len(),
            options,
            output.as_mut_ptr(),
            output.len(),
            table.as_mut_ptr(),
            table.len(),
            code.as_mut_ptr(),
            code.len(),
            spans.as_mut_ptr(),
            spans.len(),
        )
    }
}

pub fn read(tree: &[u8]) -> Answer {
    unsafe { puffbramble_read(tree.as_ptr(), tree.len()) }
}

pub fn check(image: &[u8]) -> Answer {
    unsafe { puffbramble_check(image.as_ptr(), image.len()) }
}

pub fn code_answer(image: &[u8], k: usize) -> Answer {
    unsafe { puffbramble_code_answer(image.as_ptr(), image.len(), k) }
}

pub fn code_of(image: &[u8], k: usize) -> Answer {
    unsafe { puffbramble_code_of(image.as_ptr(), image.len(), k) }
}

pub fn directory_of(image: &[u8]) -> Answer {
    unsafe { puffbramble_directory_of(image.as_ptr(), image.len()) }
}

pub fn code_through(image: &[u8], place: usize, k: usize) -> Answer {
    unsafe { puffbramble_code_through(image.as_ptr(), image.len(), place, k) }
}

pub fn touch(image: &[u8], name: u16) -> Answer {
    unsafe { puffbramble_touch(image.as_ptr(), image.len(), name) }
}

pub fn span_of(runs: &[Run], offset: usize) -> Answer {
    // A run is three words in a row; so many fit into memory, so the product does not wrap.
    unsafe { puffbramble_span_of(runs.as_ptr().cast(), 3 * runs.len(), offset) }
}
