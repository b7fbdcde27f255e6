//! Random numbers and random trees.

mod refused;

use crate::node::*;
pub use refused::refused_tree;

/// A small generator (splitmix64): the same seed gives the same numbers everywhere.
pub struct Rng(u64);

impl Rng {
    pub fn new(seed: u64) -> Self {
        Self(seed)
    }

    pub fn next(&mut self) -> u64 {
        self.0 = self.0.wrapping_add(0x9E37_79B9_7F4A_7C15);
        let mut x = self.0;
        x = (x ^ (x >> 30)).wrapping_mul(0xBF58_476D_1CE4_E5B9);
        x = (x ^ (x >> 27)).wrapping_mul(0x94D0_49BB_1331_11EB);
        x ^ (x >> 31)
    }

    /// A number below `count`, which is above 0.
    pub fn below(&mut self, count: usize) -> usize {
        (self.next() % count as u64) as usize
    }

    /// True in so many of a hundred cases.
    pub fn chance(&mut self, percent: usize) -> bool {
        self.below(100) < percent
    }

    pub fn pick<T: Copy>(&mut self, items: &[T]) -> T {
        items[self.below(items.len())]
    }

    pub fn byte(&mut self) -> u8 {
        self.next() as u8
    }
}

/// Written names to choose from: short, empty, close to the fixed ones, beyond ASCII, and two that are not UTF-8.
const TEXTS: [&[u8]; 20] = [
    b"",
    b"<script",
    b"<script>!",
    b"a",
    b"ab",
    b"b",
    b"c",
    b"d",
    b"e",
    b"f",
    b"ini",
    b"init0",
    b"supe",
    b"super!",
    b"thi",
    b"thisx",
    "\u{e9}".as_bytes(),
    "\u{1f980}".as_bytes(),
    b"\xC3\x28",
    b"\xFF",
];
const BITS: [u64; 8] = [
    0,
    1,
    0x3FF0_0000_0000_0000,
    0x4000_0000_0000_0000,
    0x4008_0000_0000_0000,
    0x7FEF_FFFF_FFFF_FFFF,
    0x7FF0_0000_0000_0000,
    0x2424_2424_2424_2424,
];
const FIXED: u16 = 4;
const THIS: u16 = 0;
const INIT: u16 = 2;
/// How many functions may be open, the script aside.
const MOST_OPEN: usize = 16;
const MOST_DEPTH: usize = 40;

#[derive(Clone, Copy, PartialEq)]
enum Kind {
    Script,
    Function,
    Method,
    Init,
}

/// An open function and the names declared in its open scopes, as far as the maker keeps account of them.
struct Open {
    kind: Kind,
    scopes: Vec<Vec<u16>>,
}

/// How spans are chosen.
#[derive(Clone, Copy)]
enum Spans {
    Zero,
    Equal(Span),
    Rising,
    Mixed,
}

/// Makes one tree. It keeps to what the compiler accepts, save where it chooses at random (`wild` of a hundred
/// times) not to: else nearly every larger tree would be refused early.
pub struct Maker<'a> {
    rng: &'a mut Rng,
    names: u16,
    wild: usize,
    left: i32,
    spans: Spans,
    last: Span,
    serial: u32,
    open: Vec<Open>,
    classes: Vec<bool>,
    /// Names of variables whose own values are being made.
    unready: Vec<u16>,
}

/// A random tree of about so many records.
pub fn random_tree(rng: &mut Rng, records: usize) -> Tree {
    let names = some_names(rng);
    let spans = some_spans(rng);
    let wild = rng.pick(&[0, 0, 0, 2, 5, 10, 20, 50]);
    let mut maker = Maker::new(rng, names.len(), spans, wild, records);
    let mut stmts = vec![];
    while maker.left > 0 {
        stmts.push(maker.stmt(1));
    }
    Tree { names, stmts }
}

fn some_names(rng: &mut Rng) -> Vec<Vec<u8>> {
    let count = rng.pick(&[0, 1, 2, 3, 4, 6, 8, 12]);
    let utf8 = !rng.chance(5);
    let most = if utf8 { TEXTS.len() - 2 } else { TEXTS.len() };
    let mut names: Vec<Vec<u8>> = (0..count).map(|_| TEXTS[rng.below(most)].to_vec()).collect();
    names.sort();
    names.dedup();
    names
}

fn some_spans(rng: &mut Rng) -> Spans {
    match rng.below(8) {
        0 => Spans::Zero,
        1 => Spans::Equal((rng.below(9) as u32, rng.next() as u32)),
        2..=4 => Spans::Rising,
        _ => Spans::Mixed,
    }
}

/// Wraps a tree's statements in many records of one kind, to about the limits of depth and of open functions.
pub fn nested(rng: &mut Rng, mut tree: Tree) -> Tree {
    let (kind, most) = rng.pick(&[(0, 130), (1, 130), (2, 18), (3, 18), (4, 18), (5, 130)]);
    let times = most - rng.below(5);
    for time in 0..times {
        let span = (time as u32, rng.below(3) as u32);
        // Names in turn, so that no function declares its own.
        let number = 2 + (time % 2) as u16;
        let stmts = std::mem::take(&mut tree.stmts);
        tree.stmts = vec![match kind {
            0 => block(span, stmts),
            1 => if_(span, word(span, 1), block(span, stmts), None),
            2 => fun(span, number, &[], stmts),
            3 => class(span, number, None, vec![fun(span, 3, &[], stmts)]),
            4 => class(span, number, Some(name(span, 1)), vec![fun(span, 2, &[1], stmts)]),
            _ => while_(span, word(span, 1), block(span, stmts)),
        }];
    }
    tree
}

impl<'a> Maker<'a> {
    /// A maker of about so many records, with so many written names.
    fn new(rng: &'a mut Rng, names: usize, spans: Spans, wild: usize, records: usize) -> Self {
        Self {
            names: FIXED + names as u16,
            wild,
            left: records as i32,
            spans,
            last: (0, 0),
            serial: 0,
            open: vec![Open { kind: Kind::Script, scopes: vec![vec![]] }],
            classes: vec![],
            unready: vec![],
            rng,
        }
    }

    fn wild(&mut self) -> bool {
        self.wild > 0 && self.rng.chance(self.wild)
    }

    /// As `wild`, oftener: for refusals that few places can have.
    fn bold(&mut self) -> bool {
        self.wild() || self.wild() || self.wild()
    }

    fn span(&mut self) -> Span {
        self.serial += 1;
        let span = match self.spans {
            Spans::Zero => (0, 0),
            Spans::Equal(span) => span,
            Spans::Rising => (self.serial, self.serial + self.rng.below(9) as u32),
            Spans::Mixed => match self.rng.below(6) {
                0 => (0, 0),
                1 | 2 => self.last,
                3 => (self.serial, 0),
                4 => (self.rng.next() as u32, self.rng.next() as u32),
                _ => (self.serial, self.serial + 1),
            },
        };
        self.last = span;
        span
    }

    fn any_name(&mut self) -> u16 {
        let names = usize::from(self.names);
        if self.names > FIXED && self.rng.chance(75) {
            return FIXED + self.rng.below(names - usize::from(FIXED)) as u16;
        }
        self.rng.below(names) as u16
    }

    /// A name to declare here.
    fn new_name(&mut self) -> u16 {
        let mut name = self.any_name();
        if self.wild() || self.is_global() {
            return name;
        }
        for _ in 0..12 {
            if !self.scope().contains(&name) {
                break;
            }
            name = self.rng.below(usize::from(self.names)) as u16;
        }
        name
    }

    fn is_global(&self) -> bool {
        self.open.len() == 1 && self.open[0].scopes.len() == 1
    }

    fn function(&mut self) -> &mut Open {
        self.open.last_mut().expect("the script stays open")
    }

    fn scope(&mut self) -> &mut Vec<u16> {
        self.function().scopes.last_mut().expect("a function has a scope")
    }

    fn declare(&mut self, name: u16) {
        self.scope().push(name);
    }

    /// No name is free here: a declaration would be refused.
    fn is_full(&mut self) -> bool {
        let names = self.names;
        !self.is_global() && (0..names).all(|name| self.scope().contains(&name))
    }

    /// A name to get or set: often one that is declared around here, in this function or one around it.
    fn used_name(&mut self, is_get: bool) -> u16 {
        for _ in 0..12 {
            let mut name = self.any_name();
            if self.rng.chance(70) {
                let function = self.rng.below(self.open.len());
                let scope = self.rng.below(self.open[function].scopes.len());
                let scope = &self.open[function].scopes[scope];
                if !scope.is_empty() {
                    name = scope[self.rng.below(scope.len())];
                }
            }
            let is_refused = self.unready.contains(&name) || is_get && name == THIS && self.classes.is_empty();
            if !is_refused || self.wild() {
                return name;
            }
        }
        let names = self.names;
        (1..names).find(|name| !self.unready.contains(name)).unwrap_or(1)
    }

    fn scoped<T>(&mut self, make: impl FnOnce(&mut Self) -> T) -> T {
        self.function().scopes.push(vec![]);
        let made = make(self);
        self.function().scopes.pop();
        made
    }

    fn stmts(&mut self, depth: usize) -> Vec<Node> {
        let count = self.rng.pick(&[0, 1, 1, 2, 2, 3, 4, 6]);
        let mut stmts = vec![];
        while stmts.len() < count && self.left > 0 {
            stmts.push(self.stmt(depth));
        }
        stmts
    }

    fn stmt(&mut self, depth: usize) -> Node {
        self.left -= 1;
        let span = self.span();
        let is_leaf = self.left <= 0 || depth > MOST_DEPTH;
        let kind = if is_leaf { self.rng.below(5) } else { self.rng.below(26) };
        match kind {
            0 | 24 => self.return_or_print(span, depth),
            1 => block(span, vec![]),
            2 | 5..=8 => self.var(span, depth),
            3 => eval(span, self.expr(depth + 1)),
            4 | 9 => print(span, self.expr(depth + 1)),
            10..=12 => block(span, self.scoped(|maker| maker.stmts(depth + 1))),
            13..=15 => self.class(span, depth),
            16..=18 => self.fun(span, depth),
            19 | 20 => self.for_(span, depth),
            21 | 22 => {
                let cond = self.expr(depth + 1);
                let then = self.stmt(depth + 1);
                let else_ = self.rng.chance(50).then(|| self.stmt(depth + 1));
                if_(span, cond, then, else_)
            }
            23 => while_(span, self.expr(depth + 1), self.stmt(depth + 1)),
            _ => eval(span, self.expr(depth + 1)),
        }
    }

    fn return_or_print(&mut self, span: Span, depth: usize) -> Node {
        let has_value = self.rng.chance(60);
        let is_refused = match self.function().kind {
            Kind::Script => true,
            Kind::Init => has_value,
            Kind::Function | Kind::Method => false,
        };
        let is_wild = if self.open.len() > 1 { self.bold() } else { self.wild() };
        if is_refused && !is_wild {
            return print(span, self.expr(depth + 1));
        }
        return_(span, has_value.then(|| self.expr(depth + 1)))
    }

    fn var(&mut self, span: Span, depth: usize) -> Node {
        if self.is_full() && !self.wild() {
            return print(span, self.expr(depth + 1));
        }
        let name = self.new_name();
        let is_global = self.is_global();
        self.declare(name);
        if !is_global {
            self.unready.push(name);
        }
        let value = self.rng.chance(70).then(|| self.expr(depth + 1));
        if !is_global {
            self.unready.pop();
        }
        var(span, name, value)
    }

    fn for_(&mut self, span: Span, depth: usize) -> Node {
        self.scoped(|maker| {
            let init = maker.rng.chance(60).then(|| maker.stmt(depth + 1));
            let cond = maker.rng.chance(60).then(|| maker.expr(depth + 1));
            let body = maker.stmt(depth + 1);
            let incr = maker.rng.chance(60).then(|| maker.expr(depth + 1));
            for_(span, init, cond, body, incr)
        })
    }

    fn class(&mut self, span: Span, depth: usize) -> Node {
        if self.is_full() && !self.wild() {
            return block(span, vec![]);
        }
        let name = self.new_name();
        self.declare(name);
        let has_super = self.rng.chance(50);
        self.classes.push(has_super);
        let made = self.scoped(|maker| {
            let superclass = has_super.then(|| maker.superclass(name));
            let count = maker.rng.pick(&[0, 1, 1, 2, 3]);
            let mut methods = vec![];
            while methods.len() < count && maker.can_open() {
                methods.push(maker.method(depth + 1));
            }
            class(span, name, superclass, methods)
        });
        self.classes.pop();
        made
    }

    fn superclass(&mut self, class: u16) -> Node {
        self.left -= 1;
        self.declare(1);
        let mut superclass = self.used_name(true);
        if superclass != class && self.bold() {
            superclass = class;
        } else if superclass == class && !self.bold() {
            superclass = (1..).find(|&other| other != class).unwrap_or(1);
        }
        name(self.span(), superclass)
    }

    fn can_open(&mut self) -> bool {
        self.left > 0 && (self.open.len() <= MOST_OPEN || self.wild())
    }

    fn method(&mut self, depth: usize) -> Node {
        let name = if self.rng.chance(30) { INIT } else { self.any_name() };
        let kind = if name == INIT { Kind::Init } else { Kind::Method };
        let span = self.span();
        self.function_of(span, kind, name, THIS, depth)
    }

    fn fun(&mut self, span: Span, depth: usize) -> Node {
        if !self.can_open() || self.is_full() && !self.wild() {
            return block(span, vec![]);
        }
        let name = self.new_name();
        let made = self.function_of(span, Kind::Function, name, name, depth);
        self.declare(name);
        made
    }

    fn function_of(&mut self, span: Span, kind: Kind, name: u16, slot: u16, depth: usize) -> Node {
        self.function_with(span, kind, name, slot, |maker| maker.stmts(depth + 1))
    }

    fn function_with(
        &mut self,
        span: Span,
        kind: Kind,
        name: u16,
        slot: u16,
        body: impl FnOnce(&mut Self) -> Vec<Node>,
    ) -> Node {
        self.left -= 1;
        self.open.push(Open { kind, scopes: vec![vec![slot]] });
        let count = self.rng.pick(&[0, 0, 1, 1, 2, 3]);
        let mut params = vec![];
        for _ in 0..count {
            if self.is_full() {
                break;
            }
            let param = self.new_name();
            self.declare(param);
            params.push(param);
        }
        let body = body(self);
        self.open.pop();
        fun(span, name, &params, body)
    }

    fn expr(&mut self, depth: usize) -> Node {
        self.left -= 1;
        let span = self.span();
        let is_leaf = self.left <= 0 || depth > MOST_DEPTH;
        let kind = if is_leaf { self.rng.below(7) } else { self.rng.below(24) };
        match kind {
            0..=2 | 7 => name(span, self.used_name(true)),
            3..=5 => self.literal(span),
            6 | 8 => self.super_(span),
            9..=11 => {
                let name = self.used_name(false);
                assign(span, name, self.expr(depth + 1))
            }
            12..=15 => self.call(span, depth),
            16 | 17 => {
                let name = self.any_name();
                get(span, name, self.expr(depth + 1))
            }
            18 => {
                let op = self.rng.below(2) as u8;
                prefix(span, op, self.expr(depth + 1))
            }
            19 | 20 => {
                let name = self.any_name();
                set(span, name, self.expr(depth + 1), self.expr(depth + 1))
            }
            _ => {
                let op = if self.rng.chance(40) { 10 + self.rng.below(2) } else { self.rng.below(10) };
                infix(span, op as u8, self.expr(depth + 1), self.expr(depth + 1))
            }
        }
    }

    fn literal(&mut self, span: Span) -> Node {
        match self.rng.below(5) {
            3 => {
                let bits = self.rng.next() % (BITS[6] + 1);
                number(span, if self.rng.chance(10) { bits } else { self.rng.pick(&BITS) })
            }
            4 => string(span, self.any_name()),
            kind => word(span, kind as u8),
        }
    }

    fn super_(&mut self, span: Span) -> Node {
        let is_wild = match self.classes.last() {
            Some(true) => true,
            Some(false) => self.bold(),
            None => self.wild() && self.rng.chance(25),
        };
        if !is_wild {
            return self.literal(span);
        }
        super_(span, self.any_name())
    }

    fn call(&mut self, span: Span, depth: usize) -> Node {
        let callee = match self.rng.below(3) {
            0 => self.expr(depth + 1),
            1 => {
                self.left -= 1;
                let span = self.span();
                let name = self.any_name();
                get(span, name, self.expr(depth + 2))
            }
            _ => {
                self.left -= 1;
                let span = self.span();
                self.super_(span)
            }
        };
        let count = self.rng.pick(&[0, 0, 1, 1, 2, 3]);
        let mut args = vec![];
        while args.len() < count && self.left > 0 {
            args.push(self.expr(depth + 1));
        }
        call(span, callee, args)
    }
}
