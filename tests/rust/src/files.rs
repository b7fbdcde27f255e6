//! Case, answer and image files: little-endian u32 numbers and the bytes that they count.

use std::fs;
use std::io;

/// A number that says that there is room enough.
pub const PLENTY: u32 = u32::MAX;

/// The bit of `options` that asks for a directory.
pub const DIRECTORY: u32 = 2;

/// What is asked for, what is lent (code bytes, span words, output bytes, count words), and a tree file.
#[derive(Clone, Debug, Eq, PartialEq)]
pub struct Case {
    pub options: u32,
    pub code: u32,
    pub spans: u32,
    pub output: u32,
    pub counts: u32,
    pub tree: Vec<u8>,
}

impl Case {
    /// A case with plenty of everything, and nothing asked for beside the image.
    pub fn plenty(tree: Vec<u8>) -> Self {
        Self::lent(PLENTY, PLENTY, PLENTY, tree)
    }

    pub fn lent(code: u32, spans: u32, output: u32, tree: Vec<u8>) -> Self {
        Self { options: 0, code, spans, output, counts: PLENTY, tree }
    }
}

#[derive(Clone, Debug, Default, Eq, PartialEq)]
pub struct Answer {
    pub number: u32,
    pub at: u32,
    pub end: u32,
    pub name: u32,
    pub length: u32,
    pub function: u32,
    pub around: u32,
    pub image: Vec<u8>,
    pub counts: Vec<u32>,
}

/// One function of an image that is looked up.
#[derive(Clone, Debug, Eq, PartialEq)]
pub struct Lookup {
    pub k: u32,
    pub image: Vec<u8>,
}

/// A global that an image is asked about.
#[derive(Clone, Debug, Eq, PartialEq)]
pub struct Ask {
    pub name: u32,
    pub image: Vec<u8>,
}

/// Takes numbers and bytes off the front of a file's bytes.
pub struct Source<'a>(pub &'a [u8]);

impl<'a> Source<'a> {
    pub fn is_empty(&self) -> bool {
        self.0.is_empty()
    }

    pub fn bytes(&mut self, count: usize) -> io::Result<&'a [u8]> {
        let (bytes, rest) = self.0.split_at_checked(count).ok_or_else(|| io::Error::other("the file is cut"))?;
        self.0 = rest;
        Ok(bytes)
    }

    pub fn u16(&mut self) -> io::Result<u16> {
        Ok(u16::from_le_bytes(self.bytes(2)?.try_into().unwrap()))
    }

    pub fn u32(&mut self) -> io::Result<u32> {
        Ok(u32::from_le_bytes(self.bytes(4)?.try_into().unwrap()))
    }

    /// A length, and that many bytes.
    pub fn counted(&mut self) -> io::Result<Vec<u8>> {
        let count = self.u32()? as usize;
        Ok(self.bytes(count)?.to_vec())
    }

    /// All items that one function takes off, to the end.
    pub fn all<T>(mut self, mut take: impl FnMut(&mut Self) -> io::Result<T>) -> io::Result<Vec<T>> {
        let mut items = vec![];
        while !self.is_empty() {
            items.push(take(&mut self)?);
        }
        Ok(items)
    }
}

pub fn put(out: &mut Vec<u8>, numbers: &[u32]) {
    for number in numbers {
        out.extend(number.to_le_bytes());
    }
}

pub fn put_counted(out: &mut Vec<u8>, bytes: &[u8]) {
    put(out, &[bytes.len() as u32]);
    out.extend(bytes);
}

pub fn read_cases(path: &str) -> io::Result<Vec<Case>> {
    Source(&fs::read(path)?)
        .all(|source| Ok(Case::lent(source.u32()?, source.u32()?, source.u32()?, source.counted()?)))
}

/// Cases with all that can be asked for and lent.
pub fn read_full(path: &str) -> io::Result<Vec<Case>> {
    Source(&fs::read(path)?).all(|source| {
        Ok(Case {
            options: source.u32()?,
            code: source.u32()?,
            spans: source.u32()?,
            output: source.u32()?,
            counts: source.u32()?,
            tree: source.counted()?,
        })
    })
}

pub fn write_full(path: &str, cases: &[Case]) -> io::Result<()> {
    let mut out = vec![];
    for case in cases {
        put(&mut out, &[case.options, case.code, case.spans, case.output, case.counts]);
        put_counted(&mut out, &case.tree);
    }
    fs::write(path, out)
}

/// Answers with all their fields.
pub fn read_full_answers(path: &str) -> io::Result<Vec<Answer>> {
    Source(&fs::read(path)?).all(|source| {
        Ok(Answer {
            number: source.u32()?,
            at: source.u32()?,
            end: source.u32()?,
            name: source.u32()?,
            length: source.u32()?,
            function: source.u32()?,
            around: source.u32()?,
            image: source.counted()?,
            counts: {
                let count = source.u32()?;
                (0..count).map(|_| source.u32()).collect::<io::Result<_>>()?
            },
        })
    })
}

pub fn write_full_answers(path: &str, answers: &[Answer]) -> io::Result<()> {
    let mut out = vec![];
    for a in answers {
        put(&mut out, &[a.number, a.at, a.end, a.name, a.length, a.function, a.around]);
        put_counted(&mut out, &a.image);
        put(&mut out, &[a.counts.len() as u32]);
        put(&mut out, &a.counts);
    }
    fs::write(path, out)
}

pub fn write_cases(path: &str, cases: &[Case]) -> io::Result<()> {
    let mut out = vec![];
    for case in cases {
        put(&mut out, &[case.code, case.spans, case.output]);
        put_counted(&mut out, &case.tree);
    }
    fs::write(path, out)
}

pub fn read_answers(path: &str) -> io::Result<Vec<Answer>> {
    Source(&fs::read(path)?).all(|source| {
        Ok(Answer {
            number: source.u32()?,
            at: source.u32()?,
            end: source.u32()?,
            name: source.u32()?,
            length: source.u32()?,
            image: source.counted()?,
            ..Answer::default()
        })
    })
}

pub fn write_answers(path: &str, answers: &[Answer]) -> io::Result<()> {
    let mut out = vec![];
    for a in answers {
        put(&mut out, &[a.number, a.at, a.end, a.name, a.length]);
        put_counted(&mut out, &a.image);
    }
    fs::write(path, out)
}

pub fn read_images(path: &str) -> io::Result<Vec<Vec<u8>>> {
    Source(&fs::read(path)?).all(Source::counted)
}

pub fn write_images(path: &str, images: &[Vec<u8>]) -> io::Result<()> {
    let mut out = vec![];
    for image in images {
        put_counted(&mut out, image);
    }
    fs::write(path, out)
}

pub fn read_lookups(path: &str) -> io::Result<Vec<Lookup>> {
    Source(&fs::read(path)?).all(|source| Ok(Lookup { k: source.u32()?, image: source.counted()? }))
}

pub fn write_lookups(path: &str, lookups: &[Lookup]) -> io::Result<()> {
    let mut out = vec![];
    for lookup in lookups {
        put(&mut out, &[lookup.k]);
        put_counted(&mut out, &lookup.image);
    }
    fs::write(path, out)
}

pub fn read_asks(path: &str) -> io::Result<Vec<Ask>> {
    Source(&fs::read(path)?).all(|source| Ok(Ask { name: source.u32()?, image: source.counted()? }))
}

pub fn write_asks(path: &str, asks: &[Ask]) -> io::Result<()> {
    let mut out = vec![];
    for ask in asks {
        put(&mut out, &[ask.name]);
        put_counted(&mut out, &ask.image);
    }
    fs::write(path, out)
}
