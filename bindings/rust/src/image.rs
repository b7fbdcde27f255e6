//! An image that was checked once, and what is looked up in it.

use std::ops::Range;

use crate::{check, code_through, directory_of, place_of, span_of, Refusal, Run, Span};

/// The bytes of a run's record.
const RUN: usize = 11;

/// An image. That there is one means that the checker accepted its bytes.
#[derive(Clone, Debug, Eq, PartialEq)]
pub struct Image {
    bytes: Vec<u8>,
    instructions: u64,
    directory: Option<usize>,
}

/// One function of an image, as its record has it.
#[derive(Clone, Debug, Eq, PartialEq)]
pub struct Function<'a> {
    /// The number of its name in the tree's table.
    pub name: u16,
    pub arity: u8,
    pub upvalues: u16,
    pub runs: Vec<Run>,
    pub code: &'a [u8],
}

impl Image {
    /// Checks the bytes.
    pub fn new(bytes: Vec<u8>) -> Result<Self, Refusal> {
        let instructions = check(&bytes)?;
        let directory = directory_of(&bytes)?;
        Ok(Self { bytes, instructions, directory })
    }

    pub fn bytes(&self) -> &[u8] {
        &self.bytes
    }

    pub fn instructions(&self) -> u64 {
        self.instructions
    }

    /// How many functions there are; the last is the script.
    pub fn functions(&self) -> usize {
        self.number(2, 4) as usize
    }

    /// Whether a directory stands at the image's end.
    pub fn has_directory(&self) -> bool {
        self.directory.is_some()
    }

    /// Where the code of function `k` stands: through the directory, or where there is none by a walk that checks the bytes anew.
    fn place(&self, k: usize) -> Result<Range<usize>, Refusal> {
        match self.directory {
            Some(place) => code_through(&self.bytes, place, k),
            None => place_of(&self.bytes, k),
        }
    }

    /// Function `k`, or `NoSuchFunction`.
    pub fn function(&self, k: usize) -> Result<Function<'_>, Refusal> {
        let code = self.place(k)?;
        // a record ends with its code, so function `k` begins where the code before it ends
        let begin = match k.checked_sub(1) {
            Some(before) => self.place(before)?.end,
            None => 6,
        };
        // the runs stand before the code and its mark of two bytes
        let count = self.number(begin + 9, 4) as usize;
        let first = code.start.saturating_sub(2 + RUN * count);
        Ok(Function {
            name: self.number(begin + 2, 2) as u16,
            arity: self.number(begin + 4, 1) as u8,
            upvalues: self.number(begin + 5, 2) as u16,
            runs: (0..count).map(|run| self.run(first + RUN * run)).collect(),
            code: self.bytes.get(code).unwrap_or(&[]),
        })
    }

    /// The code of function `k`: that stretch of the image's own bytes.
    pub fn code(&self, k: usize) -> Result<&[u8], Refusal> {
        // the place lies in the image: the contract says so
        Ok(self.bytes.get(self.place(k)?).unwrap_or(&[]))
    }

    /// Where in the text a code byte of function `k` comes from: `NoSuchFunction`, `NoSuchByte`, or the span.
    pub fn span(&self, k: usize, offset: usize) -> Result<Span, Refusal> {
        span_of(&self.function(k)?.runs, offset)
    }

    fn run(&self, at: usize) -> Run {
        Run { start: self.number(at + 2, 4), end: self.number(at + 6, 4), count: self.number(at + 10, 1) }
    }

    /// A number of at most four bytes, the lowest first.
    fn number(&self, at: usize, width: usize) -> u32 {
        let bytes = self.bytes.get(at..).unwrap_or(&[]);
        bytes.iter().take(width).rev().fold(0, |number, &byte| number << 8 | u32::from(byte))
    }
}
