//! All small trees in order: first those of no record, then of one, of two, ..
//!
//! A tree is made by a series of choices. The next one takes the last choice that has more to offer one further and
//! forgets what followed it, so that no tree is missed and none comes twice.

use crate::node::*;

/// Two fixed names with rules of their own, the initializer's, and a written one.
const NAMES: [u16; 4] = [0, 1, 2, 4];
const LITERALS: usize = 5;
const INFIX: [u8; 3] = [0, 10, 11];

pub struct Small {
    records: usize,
    choices: Vec<(usize, usize)>,
    next: usize,
    is_new: bool,
}

impl Small {
    pub fn new() -> Self {
        Self { records: 0, choices: vec![], next: 0, is_new: true }
    }

    /// Chooses a number below `count`.
    fn choose(&mut self, count: usize) -> usize {
        if self.next == self.choices.len() {
            self.choices.push((0, count));
        }
        self.next += 1;
        self.choices[self.next - 1].0
    }

    /// Steps to the next series of choices; false where this was the last.
    fn step(&mut self) -> bool {
        while let Some((choice, count)) = self.choices.pop() {
            if choice + 1 < count {
                self.choices.push((choice + 1, count));
                return true;
            }
        }
        false
    }

    fn name(&mut self) -> u16 {
        NAMES[self.choose(NAMES.len())]
    }

    /// Spans differ by how many records are left, and the last one's is 0..0.
    fn span(left: usize) -> Span {
        (left as u32 - 1, 2 * (left as u32 - 1))
    }

    /// Statements of so many records in all.
    fn stmts(&mut self, records: usize) -> Vec<Node> {
        let mut stmts = vec![];
        let mut left = records;
        while left > 0 {
            let first = 1 + self.choose(left);
            stmts.push(self.stmt(first));
            left -= first;
        }
        stmts
    }

    fn stmt(&mut self, records: usize) -> Node {
        let span = Self::span(records);
        let left = records - 1;
        // How many children each kind needs at least; kinds with too many or none to take are not offered.
        let kinds: &[u8] = match left {
            0 => b"BCFRV",
            1 => b"BCcFEPRVO",
            2 => b"BCcFEPRVOoIW",
            _ => b"BCcFEPRVOoIWe",
        };
        match kinds[self.choose(kinds.len())] {
            b'B' => block(span, self.stmts(left)),
            b'C' => class(span, self.name(), None, self.methods(left)),
            b'c' => {
                let superclass = name(Self::span(left), self.name());
                class(span, self.name(), Some(superclass), self.methods(left - 1))
            }
            b'F' => self.function(records),
            b'E' => eval(span, self.expr(left)),
            b'P' => print(span, self.expr(left)),
            b'R' if left == 0 => return_(span, None),
            b'R' => return_(span, Some(self.expr(left))),
            b'V' if left == 0 => var(span, self.name(), None),
            b'V' => var(span, self.name(), Some(self.expr(left))),
            b'O' => for_(span, None, None, self.stmt(left), None),
            b'o' => {
                let first = 1 + self.choose(left - 1);
                match self.choose(3) {
                    0 => for_(span, Some(self.stmt(first)), None, self.stmt(left - first), None),
                    1 => for_(span, None, Some(self.expr(first)), self.stmt(left - first), None),
                    _ => for_(span, None, None, self.stmt(first), Some(self.expr(left - first))),
                }
            }
            b'I' => {
                let first = 1 + self.choose(left - 1);
                if_(span, self.expr(first), self.stmt(left - first), None)
            }
            b'W' => {
                let first = 1 + self.choose(left - 1);
                while_(span, self.expr(first), self.stmt(left - first))
            }
            _ => {
                let first = 1 + self.choose(left - 2);
                let second = 1 + self.choose(left - first - 1);
                let cond = self.expr(first);
                let then = self.stmt(second);
                if_(span, cond, then, Some(self.stmt(left - first - second)))
            }
        }
    }

    fn methods(&mut self, records: usize) -> Vec<Node> {
        let mut methods = vec![];
        let mut left = records;
        while left > 0 {
            let first = 1 + self.choose(left);
            methods.push(self.function(first));
            left -= first;
        }
        methods
    }

    fn function(&mut self, records: usize) -> Node {
        let name = self.name();
        let params: Vec<u16> = (0..self.choose(2)).map(|_| NAMES[3]).collect();
        fun(Self::span(records), name, &params, self.stmts(records - 1))
    }

    fn expr(&mut self, records: usize) -> Node {
        let span = Self::span(records);
        let left = records - 1;
        let kinds: &[u8] = match left {
            0 => b"LUV",
            1 => b"ACGP",
            _ => b"ACGPISc",
        };
        match kinds[self.choose(kinds.len())] {
            b'L' => match self.choose(LITERALS) {
                3 => number(span, 0x3FF0_0000_0000_0000),
                4 => string(span, 4),
                kind => word(span, kind as u8),
            },
            b'U' => super_(span, self.name()),
            b'V' => name(span, self.name()),
            b'A' => assign(span, self.name(), self.expr(left)),
            b'C' => call(span, self.expr(left), vec![]),
            b'G' => get(span, self.name(), self.expr(left)),
            b'P' => prefix(span, self.choose(2) as u8, self.expr(left)),
            b'I' => {
                let op = INFIX[self.choose(INFIX.len())];
                let first = 1 + self.choose(left - 1);
                infix(span, op, self.expr(first), self.expr(left - first))
            }
            b'S' => {
                let name = self.name();
                let first = 1 + self.choose(left - 1);
                set(span, name, self.expr(first), self.expr(left - first))
            }
            _ => {
                let first = 1 + self.choose(left - 1);
                call(span, self.expr(first), vec![self.expr(left - first)])
            }
        }
    }
}

impl Iterator for Small {
    type Item = Vec<u8>;

    fn next(&mut self) -> Option<Vec<u8>> {
        if !self.is_new && !self.step() {
            self.records += 1;
        }
        self.is_new = false;
        self.next = 0;
        let stmts = self.stmts(self.records);
        Some(tree(1, stmts).bytes())
    }
}
