//! Shorter variants of a file, for making a case small that two sides answer differently. A variant need not be sound.

use crate::checker::{self, Constant, Function, Run};
use crate::images::written;

/// Variants of one file take no more than this together.
const MOST_BYTES: usize = 64_000_000;

/// The bytes without one stretch: halves first, then shorter and shorter ones.
pub fn bytes(file: &[u8]) -> Vec<Vec<u8>> {
    let mut made = vec![];
    let mut left = MOST_BYTES;
    let mut size = file.len().div_ceil(2);
    while size > 0 && left > file.len() * file.len() / size {
        left -= file.len() * file.len() / size;
        made.extend((0..file.len()).step_by(size).map(|at| without(file, at, (at + size).min(file.len()))));
        size /= 2;
    }
    made
}

fn without(file: &[u8], from: usize, to: usize) -> Vec<u8> {
    [&file[..from], &file[to..]].concat()
}

/// An image without a function, a constant, a run or a stretch of code, the counts put right; and its bytes.
pub fn images(image: &[u8]) -> Vec<Vec<u8>> {
    let mut made = bytes(image);
    if let Some(functions) = checker::read(image) {
        let mut left = MOST_BYTES / image.len();
        for number in 0..functions.len() {
            let mut push = |function: Function| {
                if left > 0 {
                    let mut functions = functions.clone();
                    functions[number] = function;
                    made.push(written(&functions));
                    left -= 1;
                }
            };
            smaller_functions(&functions[number]).into_iter().for_each(&mut push);
            made.push(written(&without_function(&functions, number)));
            made.extend(alone(&functions[number]).into_iter().map(|function| written(&[function])));
        }
    }
    // Or making smaller would not end.
    made.retain(|smaller| smaller.len() < image.len());
    made
}

/// A function that is an image by itself, with a few bytes of its code.
fn alone(function: &Function) -> Vec<Function> {
    let constants = function.constants.iter().filter(|constant| !matches!(constant, Constant::Function(_)));
    let bare = Function { constants: constants.copied().collect(), ..function.clone() };
    let stretches = (1..=8).flat_map(|size| function.code.windows(size)).take(20_000);
    stretches.map(|code| Function { code: code.to_vec(), runs: plain_runs(code.len()), ..bare.clone() }).collect()
}

fn smaller_functions(function: &Function) -> Vec<Function> {
    let mut made: Vec<Function> = (0..function.constants.len())
        .map(|place| {
            let mut function = function.clone();
            function.constants.remove(place);
            function
        })
        .collect();
    made.extend(bytes(&function.code).into_iter().map(|code| Function {
        runs: plain_runs(code.len()),
        code,
        ..function.clone()
    }));
    made.push(Function { runs: plain_runs(function.code.len()), ..function.clone() });
    made
}

/// Runs of one span for so many bytes.
fn plain_runs(bytes: usize) -> Vec<Run> {
    let run = |count| Run { start: 0, end: 0, count };
    let mut runs = vec![run(255); bytes / 255];
    runs.extend((bytes % 255 > 0).then(|| run((bytes % 255) as u8)));
    runs
}

/// The functions but one; who named it names nothing there, and later numbers move up.
fn without_function(functions: &[Function], number: usize) -> Vec<Function> {
    let mut functions = functions.to_vec();
    functions.remove(number);
    for function in &mut functions {
        function.constants.retain(|constant| *constant != Constant::Function(number as u32));
        for constant in &mut function.constants {
            if let Constant::Function(named) = constant {
                *named -= u32::from(*named > number as u32);
            }
        }
    }
    functions
}

/// A record of a tree: where it stands, and where the number stands that counts it among its neighbours.
struct Record {
    start: usize,
    end: usize,
    counted_at: Option<usize>,
}

/// A tree without a record that is counted, with a small one or one from within it in a record's place, or without its
/// last name; and its bytes.
pub fn trees(tree: &[u8]) -> Vec<Vec<u8>> {
    let mut made = bytes(tree);
    let mut walk = Walk { tree, at: 0, last_name: None, records: vec![] };
    if walk.file().is_some() {
        let most = MOST_BYTES / tree.len();
        made.extend(walk.last_name.and_then(|name| name.removed(tree)));
        for record in walk.records.iter().take(most) {
            made.extend(record.removed(tree));
            made.extend(record.replaced(tree));
        }
        let within =
            walk.records.iter().flat_map(|outer| walk.records.iter().filter_map(|inner| outer.hoisted(inner, tree)));
        made.extend(within.take(most));
    }
    made
}

impl Record {
    fn removed(&self, tree: &[u8]) -> Option<Vec<u8>> {
        let at = self.counted_at?;
        let mut smaller = without(tree, self.start, self.end);
        let count = u16::from_le_bytes([tree[at], tree[at + 1]]) - 1;
        smaller[at..at + 2].copy_from_slice(&count.to_le_bytes());
        Some(smaller)
    }

    /// A record from within, of the same kind.
    fn hoisted(&self, inner: &Record, tree: &[u8]) -> Option<Vec<u8>> {
        let is_within = self.start < inner.start && inner.end <= self.end && tree[self.start] == tree[inner.start];
        is_within.then(|| [&tree[..self.start], &tree[inner.start..inner.end], &tree[self.end..]].concat())
    }

    /// An empty block for a statement, nil for an expression, of the same span.
    fn replaced(&self, tree: &[u8]) -> Option<Vec<u8>> {
        let (mark, fields): (_, &[u8]) = if tree[self.start] == b'S' { (b"SB", &[0, 0]) } else { (b"EL", &[2]) };
        let small = [mark, &tree[self.start + 2..self.start + 10], fields].concat();
        let is_smaller = small.len() < self.end - self.start;
        is_smaller.then(|| [&tree[..self.start], &small, &tree[self.end..]].concat())
    }
}

/// A walk over a tree whose form is sound, as far as it goes.
struct Walk<'a> {
    tree: &'a [u8],
    at: usize,
    last_name: Option<Record>,
    records: Vec<Record>,
}

impl Walk<'_> {
    fn skip(&mut self, count: usize) -> Option<()> {
        self.at += count;
        (self.at <= self.tree.len()).then_some(())
    }

    fn byte(&mut self) -> Option<u8> {
        self.at += 1;
        self.tree.get(self.at - 1).copied()
    }

    fn count(&mut self) -> Option<u16> {
        Some(u16::from_le_bytes([self.byte()?, self.byte()?]))
    }

    fn file(&mut self) -> Option<()> {
        self.skip(2)?;
        let names = self.count()?;
        let counted_at = self.at;
        let statements = self.count()?;
        for _ in 0..names {
            let start = self.at;
            self.skip(2)?;
            let length = self.count()?;
            self.skip(length.into())?;
            self.last_name = Some(Record { start, end: self.at, counted_at: Some(2) });
        }
        self.many(statements, Some(counted_at))
    }

    fn many(&mut self, count: u16, counted_at: Option<usize>) -> Option<()> {
        (0..count).try_for_each(|_| self.record(counted_at))
    }

    /// A count, and that many records that it counts.
    fn counted(&mut self) -> Option<()> {
        let counted_at = self.at;
        let count = self.count()?;
        self.many(count, Some(counted_at))
    }

    fn record(&mut self, counted_at: Option<usize>) -> Option<()> {
        let start = self.at;
        let mark = [self.byte()?, self.byte()?];
        self.skip(8)?;
        self.below(&mark)?;
        self.records.push(Record { start, end: self.at, counted_at });
        Some(())
    }

    /// The fields of a record and the records below it.
    fn below(&mut self, mark: &[u8; 2]) -> Option<()> {
        match mark {
            b"SB" => self.counted(),
            b"SC" => {
                self.skip(2)?;
                let above = self.byte()?;
                let counted_at = self.at;
                let methods = self.count()?;
                self.many(above.into(), None)?;
                self.many(methods, Some(counted_at))
            }
            b"SF" => {
                self.skip(2)?;
                let params = self.count()?;
                self.skip(2 * usize::from(params))?;
                self.counted()
            }
            b"SO" => {
                let flags = self.byte()?;
                self.many(1 + flags.count_ones() as u16, None)
            }
            b"SI" => {
                let other = self.byte()?;
                self.many(2 + u16::from(other), None)
            }
            b"SR" => {
                let value = self.byte()?;
                self.many(value.into(), None)
            }
            b"SV" => {
                self.skip(2)?;
                let value = self.byte()?;
                self.many(value.into(), None)
            }
            b"EC" => {
                let counted_at = self.at;
                let args = self.count()?;
                self.many(1, None)?;
                self.many(args, Some(counted_at))
            }
            b"EL" => match self.byte()? {
                3 => self.skip(8),
                4 => self.skip(2),
                _ => Some(()),
            },
            _ => self.fixed(mark),
        }
    }

    /// A record with always the same fields and number of records below it.
    fn fixed(&mut self, mark: &[u8; 2]) -> Option<()> {
        let (fields, below) = match mark {
            b"SE" | b"SP" => (0, 1),
            b"SW" => (0, 2),
            b"EP" => (1, 1),
            b"EI" => (1, 2),
            b"EA" | b"EG" => (2, 1),
            b"ES" => (2, 2),
            b"EU" | b"EV" => (2, 0),
            _ => return None,
        };
        self.skip(fields)?;
        self.many(below, None)
    }
}
