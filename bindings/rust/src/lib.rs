//! Puffbramble for Rust programs: tree files to images, images checked, and the lookups, over the functions of include/puffbramble.h.
//! What they answer is proved; this crate lends them memory and gives the answers types. Nothing here panics, whatever the bytes.
//!
//! The stack: `check`, `code_answer`, `code_of`, `directory_of` and what an `Image` is asked for take up to 1.2 MB of it, so a thread that calls them
//! needs 2 MB, Rust's default; the others take up to 256 KB.
//!
//! The archive is x86-64's: elsewhere this crate is empty.
#![cfg(target_arch = "x86_64")]

mod image;
mod raw;
mod refusal;

use std::ops::Range;

pub use image::{Function, Image};
pub use refusal::{Refusal, Span, Within};

/// No tree file is longer, in bytes.
pub const MAX_TREE: usize = 1_048_576;
/// The words of the table; with fewer the answer is `WorkShort`.
pub const TABLE_WORDS: usize = 17_412;
const MAX_CODE: usize = 262_144;

/// What is lent to the compiler.
#[derive(Clone, Copy, Debug, Eq, PartialEq)]
pub struct Sizes {
    pub table_words: usize,
    pub code_bytes: usize,
    pub span_words: usize,
    pub output_bytes: usize,
}

impl Sizes {
    /// Room for every tree file of so many bytes: proved to suffice, but where more code is open than any room takes.
    /// A file that is too long is refused before it is looked at, and so needs none.
    pub const fn enough(tree_bytes: usize) -> Self {
        let n = if tree_bytes > MAX_TREE { 0 } else { tree_bytes };
        let code_bytes = if n < MAX_CODE { n } else { MAX_CODE };
        Self { table_words: TABLE_WORDS, code_bytes, span_words: 3 * code_bytes, output_bytes: 17 * n }
    }

    /// Room for an ordinary script of so many bytes. All that is lent is cleared, so that a smaller room takes less time; a tree that needs
    /// more is refused by `CodeFull` or `OutFull`.
    pub const fn first(tree_bytes: usize) -> Self {
        let n = if tree_bytes > MAX_TREE { 0 } else { tree_bytes };
        let code_bytes = if n / 3 + 64 < MAX_CODE { n / 3 + 64 } else { MAX_CODE };
        Self { table_words: TABLE_WORDS, code_bytes, span_words: 3 * code_bytes, output_bytes: 4 * n + 64 }
    }
}

/// Memory for the compiler, to be used for one tree after the other. What it holds before a call does not matter.
#[derive(Clone, Debug)]
pub struct Areas {
    pub(crate) table: Vec<u64>,
    pub(crate) code: Vec<u8>,
    pub(crate) spans: Vec<u32>,
    pub(crate) output: Vec<u8>,
}

impl Areas {
    /// Areas of these sizes; what is above the most that any tree can use is left out, as it changes no answer.
    pub fn new(sizes: Sizes) -> Self {
        let most = Sizes::enough(MAX_TREE);
        Self {
            table: vec![0; sizes.table_words.min(most.table_words)],
            code: vec![0; sizes.code_bytes.min(most.code_bytes)],
            spans: vec![0; sizes.span_words.min(most.span_words)],
            output: vec![0; sizes.output_bytes.min(most.output_bytes)],
        }
    }
}

/// What is asked for beside the image.
#[derive(Clone, Copy, Debug, Default, Eq, PartialEq)]
pub struct Options {
    /// The image ends in a directory.
    pub directory: bool,
}

impl Options {
    fn bits(self) -> u32 {
        if self.directory { 2 } else { 0 }
    }
}

/// Compiles a tree file to an image, in memory of its own: in the first room, and where that is too small in one that is enough. Where
/// the first is enough, the other gives the same.
pub fn compile(tree: &[u8]) -> Result<Vec<u8>, Refusal> {
    compile_with(tree, Options::default())
}

/// The same, with what is asked for beside the image.
pub fn compile_with(tree: &[u8], options: Options) -> Result<Vec<u8>, Refusal> {
    match in_room(tree, options, Sizes::first(tree.len())) {
        Err(Refusal::CodeFull { .. } | Refusal::OutFull { .. }) => in_room(tree, options, Sizes::enough(tree.len())),
        answer => answer,
    }
}

fn in_room(tree: &[u8], options: Options, sizes: Sizes) -> Result<Vec<u8>, Refusal> {
    let mut areas = Areas::new(sizes);
    let length = compile_in(tree, options, &mut areas)?.len();
    let mut image = areas.output;
    image.truncate(length);
    Ok(image)
}

/// Compiles a tree file to an image in the areas that are lent.
pub fn compile_in<'a>(tree: &[u8], options: Options, areas: &'a mut Areas) -> Result<&'a [u8], Refusal> {
    let answer = raw::compile(tree, options.bits(), areas);
    Refusal::of(answer)?;
    // the length is never above the output's: the contract says that the output holds the image
    Ok(usize::try_from(answer.length).ok().and_then(|length| areas.output.get(..length)).unwrap_or(&[]))
}

/// Reads a tree file without compiling it: `TreeTooLong`, `TreeForm`, `TreeTooDeep`, `TooManyOpen`, or nothing against it.
pub fn read(tree: &[u8]) -> Result<(), Refusal> {
    Refusal::of(raw::read(tree))
}

/// Checks an image: the number of its instructions, or `ImageRefused`.
pub fn check(image: &[u8]) -> Result<u64, Refusal> {
    let answer = raw::check(image);
    Refusal::of(answer).map(|()| answer.length)
}

/// Whether these bytes are an image with a function `k`: `ImageRefused` comes before `NoSuchFunction`. It checks the whole image.
pub fn code_answer(image: &[u8], k: usize) -> Result<(), Refusal> {
    Refusal::of(raw::code_answer(image, k))
}

/// The code of function `k`: that stretch of these bytes. `ImageRefused` comes before `NoSuchFunction`. It checks the whole image.
pub fn code_of(image: &[u8], k: usize) -> Result<&[u8], Refusal> {
    // the place lies in the image: the contract says so
    Ok(image.get(place_of(image, k)?).unwrap_or(&[]))
}

/// Where the code of function `k` stands.
pub(crate) fn place_of(image: &[u8], k: usize) -> Result<Range<usize>, Refusal> {
    let answer = raw::code_of(image, k);
    Refusal::of(answer).map(|()| answer.at as usize..answer.end as usize)
}

/// Where the directory of an image stands, or none: `ImageRefused` where these bytes are no image. It checks the whole image.
pub fn directory_of(image: &[u8]) -> Result<Option<usize>, Refusal> {
    let answer = raw::directory_of(image);
    Refusal::of(answer).map(|()| (answer.at > 0).then_some(answer.at as usize))
}

/// Where the code of function `k` stands, from the directory's entry and that function's record alone. For an image that was checked and its directory's
/// place it is what `code_of` gives; for other bytes and places a stretch of the bytes, `ImageRefused` or `NoSuchFunction`.
pub fn code_through(image: &[u8], place: usize, k: usize) -> Result<Range<usize>, Refusal> {
    let answer = raw::code_through(image, place, k);
    Refusal::of(answer).map(|()| answer.at as usize..answer.end as usize)
}

/// Where an image first names a global: a GET_GLOBAL, SET_GLOBAL or DEFINE_GLOBAL of that name.
#[derive(Clone, Copy, Debug, Eq, PartialEq)]
pub struct Touch {
    pub function: usize,
    /// The offset of the instruction in its function's code.
    pub offset: usize,
}

/// The first place where an image names the global with this number, if any, and how many instructions were read up to and including it, or all;
/// `ImageRefused`. It checks the whole image.
pub fn touch(image: &[u8], name: u16) -> Result<(Option<Touch>, u64), Refusal> {
    let answer = raw::touch(image, name);
    Refusal::of(answer)?;
    let place = Touch { function: answer.name as usize, offset: answer.at as usize };
    Ok(((answer.end > 0).then_some(place), answer.length))
}

/// The names of a tree file in the order of their numbers, the four that are never written among them; none where the file cannot be read.
fn names(tree: &[u8]) -> impl Iterator<Item = &[u8]> {
    const FIXED: [&[u8]; 4] = [b"this", b"super", b"init", b"<script>"];
    let number = |at: usize| tree.get(at..at + 2).map(|two| u16::from_le_bytes([two[0], two[1]]));
    let is_sound = read(tree).is_ok();
    let count = if is_sound { number(2).unwrap_or(0) } else { 0 };
    let mut at = 6;
    let written = (0..count).map_while(move |_| {
        let size = usize::from(number(at + 2)?);
        let text = tree.get(at + 4..at + 4 + size)?;
        at += 4 + size;
        Some(text)
    });
    FIXED.into_iter().filter(move |_| is_sound).chain(written)
}

/// The number of a text in the name table of a tree file, where the file can be read and has it.
pub fn name_number(tree: &[u8], text: &[u8]) -> Option<u16> {
    names(tree).position(|name| name == text).map(|place| place as u16)
}

/// The text of a name in the name table of a tree file, where the file can be read and has it.
pub fn name_text(tree: &[u8], number: u16) -> Option<&[u8]> {
    names(tree).nth(number.into())
}

/// The same by the name's text, in the name table of the tree file that the image was made of: no place where the file has no such name.
pub fn touch_text(image: &[u8], tree: &[u8], text: &[u8]) -> Result<(Option<Touch>, u64), Refusal> {
    match name_number(tree, text) {
        Some(name) => touch(image, name),
        None => check(image).map(|count| (None, count)),
    }
}

/// So many code bytes in a row come from one span.
#[repr(C)]
#[derive(Clone, Copy, Debug, Eq, PartialEq)]
pub struct Run {
    pub start: u32,
    pub end: u32,
    pub count: u32,
}

/// The span of one code byte, or `NoSuchByte`.
pub fn span_of(runs: &[Run], offset: usize) -> Result<Span, Refusal> {
    let answer = raw::span_of(runs, offset);
    Refusal::of(answer).map(|()| Span { start: answer.at, end: answer.end })
}
