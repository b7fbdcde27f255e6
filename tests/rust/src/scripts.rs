//! Scripts worth timing, each of a kind and of about a size in bytes. All are accepted: they keep to 256 constants and 255 locals a function.

use crate::node::*;

/// The size that a kind is grown to, and the tree file.
pub type Make = fn(usize) -> Vec<u8>;

pub const SCRIPTS: [(&str, Make); 6] = [
    ("ordinary", ordinary),
    ("wide blocks", wide),
    ("constants", constants),
    ("captures", captures),
    ("classes", classes),
    ("functions", functions),
];

const NAMES: u16 = 240;
/// Additions, subtractions and comparisons, as `OpInfix` numbers them.
const ADD: u8 = 0;
const SUBTRACT: u8 = 1;
const LESS: u8 = 4;
const GREATER: u8 = 6;
const THIS: u16 = 0;
const INIT: u16 = 2;

/// A file with the names n000, n001, .. as numbers 4, 5, ..
fn file(stmts: Vec<Node>) -> Vec<u8> {
    Tree { names: (0..NAMES).map(|n| format!("name{n:03}").into_bytes()).collect(), stmts }.bytes()
}

fn n(number: usize) -> u16 {
    4 + number as u16 % NAMES
}

/// Spans that rise, as a parser gives them.
struct Spans(u32);

impl Spans {
    fn next(&mut self) -> Span {
        self.0 += 7;
        (self.0, self.0 + 6)
    }

    fn var(&mut self, number: u16) -> Node {
        name(self.next(), number)
    }

    fn number(&mut self, value: f64) -> Node {
        number(self.next(), value.to_bits())
    }

    fn infix(&mut self, op: u8, left: Node, right: Node) -> Node {
        infix(self.next(), op, left, right)
    }
}

/// Statements, one made after the other, until so many bytes are reached.
fn grown(bytes: usize, mut make: impl FnMut(usize) -> Node) -> Vec<Node> {
    let mut stmts: Vec<Node> = vec![];
    let mut size = 0;
    while size < bytes {
        stmts.push(make(stmts.len()));
        size += Tree { names: vec![], stmts: vec![stmts[stmts.len() - 1].clone()] }.bytes().len() - 6;
    }
    stmts
}

/// Functions of some forty statements: sums, calls, branches, loops, returns.
fn ordinary(bytes: usize) -> Vec<u8> {
    let mut s = Spans(0);
    let each = (bytes / 100).clamp(300, 12_000);
    file(grown(bytes, |k| {
        let body = grown(each, |i| turn(&mut s, i));
        fun(s.next(), n(5 + k % 200), &[n(1), n(2)], body)
    }))
}

/// One statement of an ordinary function with the parameters 1 and 2.
fn turn(s: &mut Spans, i: usize) -> Node {
    let (a, b) = (n(1), n(2));
    match i % 5 {
        0 => {
            let (left, right) = (s.var(b), s.number(i as f64 % 50.0));
            let sum = s.infix(ADD, left, right);
            eval(s.next(), assign(s.next(), a, sum))
        }
        1 => {
            let (left, right) = (s.var(a), s.number(10.0));
            let test = s.infix(LESS, left, right);
            let (then, other) = (print(s.next(), s.var(a)), return_(s.next(), Some(s.var(b))));
            if_(s.next(), test, block(s.next(), vec![then]), Some(block(s.next(), vec![other])))
        }
        2 => {
            let args = vec![s.var(a), s.number(1.0)];
            let callee = s.var(n(i));
            eval(s.next(), call(s.next(), callee, args))
        }
        3 => {
            let (left, right) = (s.var(a), s.number(0.0));
            let test = s.infix(GREATER, left, right);
            let (left, right) = (s.var(a), s.number(1.0));
            let less = s.infix(SUBTRACT, left, right);
            let step = eval(s.next(), assign(s.next(), a, less));
            while_(s.next(), test, block(s.next(), vec![step]))
        }
        _ => {
            let object = s.var(n(i + 1));
            let value = get(s.next(), n(i + 2), object);
            let inner = vec![var(s.next(), n(3), Some(value)), print(s.next(), string(s.next(), n(i + 3)))];
            block(s.next(), inner)
        }
    }
}

/// One block of statements after the other, each of one size.
fn wide(bytes: usize) -> Vec<u8> {
    let mut s = Spans(0);
    let first = var(s.next(), n(0), Some(s.number(1.0)));
    let rest = grown(bytes, |_| print(s.next(), s.var(n(0))));
    let inner = [first].into_iter().chain(rest).collect();
    file(vec![block((0, 9), inner)])
}

/// Functions that each have 200 numbers of their own.
fn constants(bytes: usize) -> Vec<u8> {
    let mut s = Spans(0);
    file(grown(bytes, |k| {
        let body = (0..200).map(|i| print(s.next(), s.number((1_000 * k + i) as f64))).collect();
        fun(s.next(), n(0), &[], body)
    }))
}

/// Sixteen functions in one another; the innermost uses a parameter of each.
fn captures(bytes: usize) -> Vec<u8> {
    let mut s = Spans(0);
    file(grown(bytes, |_| {
        let mut body: Vec<Node> = (0..200).map(|i| print(s.next(), s.var(n(2 * (i % 16))))).collect();
        for level in (0..16).rev() {
            let uses = print(s.next(), s.var(n(2 * level)));
            body = vec![fun(s.next(), n(2 * level + 1), &[n(2 * level)], body), uses];
            body.truncate(if level == 0 { 1 } else { 2 });
        }
        body.remove(0)
    }))
}

/// Functions of up to ten classes, each with a superclass and twenty methods that call its own.
fn classes(bytes: usize) -> Vec<u8> {
    let mut s = Spans(0);
    file(grown(bytes, |k| {
        let each = (0..(bytes / 5_000).clamp(1, 10)).map(|place| one_class(&mut s, place)).collect();
        fun(s.next(), n(180 + k % 50), &[], each)
    }))
}

fn one_class(s: &mut Spans, place: usize) -> Node {
    let methods = (0..20).map(|i| method(s, i)).collect();
    let above = s.var(n(100));
    class(s.next(), n(50 + place), Some(above), methods)
}

fn method(s: &mut Spans, i: usize) -> Node {
    let value = set(s.next(), n(i), s.var(n(150)), s.var(THIS));
    let up = call(s.next(), super_(s.next(), n(i + 1)), vec![s.var(n(150))]);
    let own = call(s.next(), get(s.next(), n(i + 2), s.var(THIS)), vec![]);
    let body = vec![eval(s.next(), value), eval(s.next(), up), eval(s.next(), own)];
    fun(s.next(), if i == 0 { INIT } else { n(i) }, &[n(150)], body)
}

/// Functions of up to ten functions that each hold 200 that do nothing.
fn functions(bytes: usize) -> Vec<u8> {
    let mut s = Spans(0);
    file(grown(bytes, |_| {
        let each = (0..(bytes / 4_000).clamp(1, 10)).map(|place| {
            let inner = (0..200).map(|i| fun(s.next(), n(i), &[], vec![])).collect();
            fun(s.next(), n(210 + place), &[], inner)
        });
        let each = each.collect();
        fun(s.next(), n(230), &[], each)
    }))
}
