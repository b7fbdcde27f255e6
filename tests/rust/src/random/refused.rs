//! Trees that are refused on purpose: an error that is asked for by its number, at a random place in random nesting, among statements
//! that are accepted. Which number comes in the end is the Rust's to say; nearly always it is the one that was asked for.

use super::{some_names, some_spans, Kind, Maker, Rng, FIXED, INIT, MOST_OPEN, THIS};
use crate::node::*;

/// Written names where an error needs many different ones.
const MANY: usize = 300;
/// Parameters of a function that has no room for another local.
const FULL: u16 = 255;
/// Functions around the place; as many as there may be, at most.
const LEVELS: [usize; 14] = [0, 0, 0, 1, 1, 1, 2, 2, 3, 4, 6, 9, 12, 16];
/// Records of the statements around.
const RECORDS: [usize; 6] = [0, 0, 4, 10, 25, 60];
/// Of an `or` in a row of them, in code bytes: two jumps, POP, and the right operand.
const OR_BYTES: usize = 8;
const ORS: usize = 40;
const AND: u8 = 10;
const OR: u8 = 11;
const NIL: u8 = 2;

/// A tree with an error of this number; with 30, one whose CLOSURE needs more bytes than the function that it closes.
pub fn refused_tree(rng: &mut Rng, number: u32) -> Tree {
    let names = if matches!(number, 15 | 16 | 18) { many_names(MANY) } else { some_names(rng) };
    let spans = some_spans(rng);
    let records = rng.pick(&RECORDS);
    let levels = rng.pick(&LEVELS).min(MOST_OPEN - functions_of(number));
    let mut maker = Maker::new(rng, names.len(), spans, 0, records);
    let stmts = maker.around(number, if number == 20 { 0 } else { levels }, 1);
    Tree { names, stmts }
}

/// How many functions in one another an error may bring with it.
fn functions_of(number: u32) -> usize {
    match number {
        18 => 4,
        10 | 16 => 2,
        11 | 12 | 13 | 14 | 20 | 21 | 23 => 0,
        _ => 1,
    }
}

impl Maker<'_> {
    /// The error in so many functions, with other statements before and behind.
    fn around(&mut self, number: u32, levels: usize, depth: usize) -> Vec<Node> {
        let mut stmts = self.few(depth);
        let is_wrapped = self.rng.chance(25) && depth < 40;
        match (is_wrapped, levels) {
            (true, _) => stmts.push(self.in_statement(number, levels, depth)),
            (false, 0) => stmts.extend(self.error(number, depth)),
            (false, _) => stmts.push(self.in_function(number, levels - 1, depth)),
        }
        stmts.extend(self.few(depth));
        stmts
    }

    fn few(&mut self, depth: usize) -> Vec<Node> {
        if self.rng.chance(50) {
            self.stmts(depth)
        } else {
            vec![]
        }
    }

    /// In a block, a branch or a loop.
    fn in_statement(&mut self, number: u32, levels: usize, depth: usize) -> Node {
        let span = self.span();
        let kind = self.rng.below(5);
        let cond = self.expr(depth + 1);
        let inner = self.scoped(|maker| maker.around(number, levels, depth + 2));
        let inner = block(self.span(), inner);
        match kind {
            0 => if_(span, cond, inner, None),
            1 => if_(span, cond, block(span, vec![]), Some(inner)),
            2 => while_(span, cond, inner),
            3 => for_(span, None, Some(cond), inner, None),
            _ => inner,
        }
    }

    /// In a function or method, with so many more to come.
    fn in_function(&mut self, number: u32, levels: usize, depth: usize) -> Node {
        let span = self.span();
        if matches!(number, 21 | 23) || self.rng.chance(55) {
            let name = self.any_name();
            return self
                .function_with(span, Kind::Function, name, name, |maker| maker.around(number, levels, depth + 1));
        }
        let (has_super, is_init) = (self.rng.chance(50), self.rng.chance(40));
        self.in_method(span, has_super, is_init, depth, |maker| maker.around(number, levels, depth + 2))
    }

    fn in_method(
        &mut self,
        span: Span,
        has_super: bool,
        is_init: bool,
        depth: usize,
        body: impl FnOnce(&mut Self) -> Vec<Node>,
    ) -> Node {
        let name = self.new_name();
        self.declare(name);
        self.classes.push(has_super);
        let made = self.scoped(|maker| {
            let superclass = has_super.then(|| maker.superclass(name));
            let before = maker.rng.chance(30) && maker.can_open();
            let mut methods: Vec<Node> = before.then(|| maker.method(depth + 1)).into_iter().collect();
            let (kind, number) = if is_init { (Kind::Init, INIT) } else { (Kind::Method, maker.other_than(INIT)) };
            let own = maker.span();
            methods.push(maker.function_with(own, kind, number, THIS, body));
            class(span, name, superclass, methods)
        });
        self.classes.pop();
        made
    }

    fn other_than(&mut self, not: u16) -> u16 {
        let name = self.any_name();
        if name == not {
            THIS
        } else {
            name
        }
    }

    /// The error itself.
    fn error(&mut self, number: u32, depth: usize) -> Vec<Node> {
        let span = self.span();
        match number {
            10 => vec![self.already_defined(span, depth)],
            11 => vec![self.own_initializer(span, depth)],
            12 => {
                let name_ = self.new_name();
                vec![class(span, name_, Some(name(self.span(), name_)), vec![])]
            }
            13 => vec![self.too_far(span)],
            14 => {
                let made = self.too_many_args(span);
                vec![self.embedded(made, depth)]
            }
            15 => self.too_many_constants(),
            16 => vec![self.too_many_locals(span)],
            17 => vec![self.too_many_params(span)],
            18 => vec![self.too_many_upvalues(span)],
            19 => vec![self.value_in_initializer(span, depth)],
            20 => vec![self.return_of(span, depth)],
            21 => vec![self.of_super(span, depth)],
            22 => vec![self.super_in_class(span, depth)],
            23 => {
                let this = name(span, THIS);
                vec![self.embedded(this, depth)]
            }
            _ => vec![self.long_closure(span)],
        }
    }

    /// Some record that declares this name.
    fn declaring(&mut self, number: u16) -> Node {
        let span = self.span();
        match self.rng.below(6) {
            0 | 1 => var(span, number, None),
            2 => var(span, number, Some(word(span, NIL))),
            3 => fun(span, number, &[], vec![]),
            4 => class(span, number, None, vec![]),
            _ => {
                let superclass = if number == 1 { 2 } else { 1 };
                class(span, number, Some(name(span, superclass)), vec![])
            }
        }
    }

    fn already_defined(&mut self, span: Span, depth: usize) -> Node {
        let (first, second) = (self.any_name(), self.any_name());
        let twice = match self.rng.below(4) {
            0 => vec![first, first],
            1 => vec![second, first, second],
            2 => vec![second],
            _ => vec![first, second, second],
        };
        match self.rng.below(7) {
            0 | 1 => block(span, vec![self.declaring(first), self.declaring(first)]),
            2 => for_(span, Some(var(span, first, None)), None, self.declaring(first), None),
            3 => fun(span, second, &twice, vec![]),
            4 => fun(span, first, &[second], vec![self.declaring(second)]),
            5 => fun(span, first, &[], vec![self.declaring(first)]),
            _ => {
                let params = if self.rng.chance(50) { vec![THIS] } else { vec![first, THIS] };
                let method = self.rng.pick(&[INIT, first]);
                let methods = vec![fun(span, method, &params, self.few(depth + 3))];
                block(span, vec![class(span, second, None, methods)])
            }
        }
    }

    fn own_initializer(&mut self, span: Span, depth: usize) -> Node {
        let own = 1 + self.rng.below(usize::from(self.names) - 1) as u16;
        let inner = self.span();
        let used = if self.rng.chance(70) { name(inner, own) } else { assign(inner, own, word(inner, NIL)) };
        let value = self.layered(used, depth);
        let declared = var(span, own, Some(value));
        if self.rng.chance(30) {
            return for_(self.span(), Some(declared), None, block(span, vec![]), None);
        }
        block(self.span(), vec![declared])
    }

    /// An expression within a few others, none of which is refused before it.
    fn layered(&mut self, inner: Node, depth: usize) -> Node {
        let layers = if depth < 100 { self.rng.below(4) } else { 0 };
        (0..layers).fold(inner, |inner, _| {
            let (span, number) = (self.span(), self.any_name());
            let other = self.literal(span);
            let op = self.rng.below(12) as u8;
            match self.rng.below(9) {
                0 => prefix(span, op % 2, inner),
                1 => infix(span, op, inner, other),
                2 => infix(span, op, other, inner),
                3 => call(span, inner, vec![other]),
                4 => call(span, other, vec![inner]),
                5 => get(span, number, inner),
                6 => set(span, number, inner, other),
                7 => set(span, number, other, inner),
                _ => call(span, get(span, number, other), vec![inner]),
            }
        })
    }

    /// A statement with this expression somewhere in it.
    fn embedded(&mut self, inner: Node, depth: usize) -> Node {
        let value = self.layered(inner, depth);
        let span = self.span();
        let empty = || block(span, vec![]);
        let can_return = matches!(self.function().kind, Kind::Function | Kind::Method);
        match self.rng.below(9) {
            0 => print(span, value),
            1 => if_(span, value, empty(), None),
            2 => while_(span, value, empty()),
            3 => for_(span, None, Some(value), empty(), None),
            4 => for_(span, None, None, empty(), Some(value)),
            5 => block(span, vec![eval(span, value)]),
            6 if can_return => return_(span, Some(value)),
            _ => eval(span, value),
        }
    }

    fn too_many_args(&mut self, span: Span) -> Node {
        let count = 256 + self.rng.pick(&[0, 0, 1, 44, 256]);
        let number = self.any_name();
        let callee = match self.rng.below(3) {
            0 => word(span, NIL),
            1 => get(span, number, word(span, NIL)),
            _ => super_(span, number),
        };
        call(span, callee, vec![word(span, NIL); count])
    }

    fn too_many_params(&mut self, span: Span) -> Node {
        let count = 256 + self.rng.pick(&[0, 0, 1, 44, 256]);
        let (number, param) = (self.any_name(), self.any_name());
        let function = |name| fun(span, name, &vec![param; count], vec![]);
        match self.rng.below(4) {
            0 => class(span, number, None, vec![function(number)]),
            1 => class(span, number, None, vec![function(INIT)]),
            _ => function(number),
        }
    }

    /// Nearly as many constants as there is room for, and then some of each kind.
    fn too_many_constants(&mut self) -> Vec<Node> {
        let span = self.span();
        let numbers = (0..236 + self.rng.below(20) as u64).map(|bits| number(span, bits)).collect();
        let mut stmts = vec![eval(span, call(span, word(span, NIL), numbers))];
        let first = FIXED + self.rng.below(MANY - 60) as u16;
        stmts.extend((first..first + 50).map(|fresh| self.with_constant(fresh)));
        stmts
    }

    fn with_constant(&mut self, fresh: u16) -> Node {
        let span = self.span();
        let nil = || word(span, NIL);
        let has_super = self.classes.last() == Some(&true);
        match self.rng.below(12) {
            0 => eval(span, number(span, 1_000 + u64::from(fresh))),
            1 => eval(span, string(span, fresh)),
            2 => eval(span, name(span, fresh)),
            3 => eval(span, assign(span, fresh, nil())),
            4 => eval(span, get(span, fresh, nil())),
            5 => eval(span, set(span, fresh, nil(), nil())),
            6 => eval(span, call(span, get(span, fresh, nil()), vec![])),
            7 if has_super => eval(span, super_(span, fresh)),
            8 if has_super => eval(span, call(span, super_(span, fresh), vec![])),
            7 | 8 => class(span, fresh, None, vec![fun(span, fresh, &[], vec![])]),
            9 => class(span, fresh, None, vec![fun(span, INIT, &[], vec![]), fun(span, fresh - 1, &[], vec![])]),
            10 => var(span, fresh, None),
            _ => fun(span, fresh, &[], vec![]),
        }
    }

    /// A function whose parameters leave no room or hardly any, or nearly as many locals in a block; and then more of each kind.
    fn too_many_locals(&mut self, span: Span) -> Node {
        let first = FIXED + self.rng.below(8) as u16;
        let count = FULL - self.rng.pick(&[0, 0, 0, 1, 1, 2, 20]);
        let mut more: Vec<Node> = (first + count..first + count + 24).map(|fresh| self.declaring(fresh)).collect();
        if self.rng.chance(60) {
            let params: Vec<u16> = (first..first + count).collect();
            return fun(span, 3, &params, more);
        }
        let mut stmts: Vec<Node> = (first..first + count).map(|fresh| var(span, fresh, None)).collect();
        stmts.append(&mut more);
        block(span, stmts)
    }

    /// In f, with 255 parameters, a function g that captures all that f has; and then one variable more, of what is around f, in g or
    /// in a function in it. Or a function in g whose own list is the full one.
    fn too_many_upvalues(&mut self, span: Span) -> Node {
        let first = FIXED + self.rng.below(20) as u16;
        let [x, f, g, h, k] = [0, 1, 2, 3, 4].map(|place| first + place);
        let params: Vec<u16> = (first + 5..first + 5 + FULL).collect();
        let inner = self.span();
        let more = match self.rng.below(3) {
            0 => eval(inner, assign(inner, x, word(inner, NIL))),
            _ => eval(inner, name(inner, x)),
        };
        let all_with =
            |callee| eval(span, call(span, name(span, callee), params.iter().map(|&p| name(span, p)).collect()));
        let function = |name, body| fun(span, name, &[], body);
        let method = |method, body| class(span, h, None, vec![fun(span, method, &[], body)]);
        let body = match self.rng.below(6) {
            0 => vec![all_with(f), more],
            1 => vec![all_with(f), function(h, vec![more])],
            2 => vec![all_with(f), function(h, vec![function(k, vec![more])])],
            3 => vec![all_with(f), method(self.rng.pick(&[INIT, k]), vec![more])],
            4 => vec![function(h, vec![all_with(f), more])],
            _ => vec![var(span, h, None), function(k, vec![all_with(h), eval(inner, name(inner, f)), more])],
        };
        block(span, vec![var(span, x, None), fun(span, f, &params, vec![function(g, body)])])
    }

    fn return_of(&mut self, span: Span, depth: usize) -> Node {
        let value = self.rng.chance(50).then(|| self.expr(depth + 1));
        return_(span, value)
    }

    fn value_in_initializer(&mut self, span: Span, depth: usize) -> Node {
        let value = |maker: &mut Self| {
            let value = maker.expr(depth + 3);
            vec![return_(span, Some(value))]
        };
        if self.function().kind == Kind::Init {
            return value(self).remove(0);
        }
        let has_super = self.rng.chance(50);
        self.in_method(span, has_super, true, depth, value)
    }

    fn of_super(&mut self, span: Span, depth: usize) -> Node {
        let super_ = super_(span, self.any_name());
        let inner = if self.rng.chance(50) { super_ } else { call(span, super_, vec![word(span, NIL)]) };
        self.embedded(inner, depth)
    }

    fn super_in_class(&mut self, span: Span, depth: usize) -> Node {
        if self.classes.last() == Some(&false) {
            return self.of_super(span, depth);
        }
        let is_init = self.rng.chance(40);
        self.in_method(span, false, is_init, depth, |maker| {
            let span = maker.span();
            vec![maker.of_super(span, depth + 2)]
        })
    }

    /// So many `or`s in a row: one code byte and `OR_BYTES` for each.
    fn ors(span: Span, count: usize) -> Node {
        (0..count).fold(word(span, NIL), |left, _| infix(span, OR, left, word(span, NIL)))
    }

    /// A jump over some 65,536 bytes.
    fn too_far(&mut self, span: Span) -> Node {
        let bytes = 65_536 + self.rng.below(12);
        let nil = || word(span, NIL);
        let kind = self.rng.below(7);
        if kind >= 5 {
            // Each argument has 257 bytes.
            let right = call(span, nil(), vec![Self::ors(span, 32); 255]);
            let far = infix(span, if kind == 5 { AND } else { OR }, nil(), right);
            return eval(self.span(), far);
        }
        let each = 2 + OR_BYTES * ORS;
        let mut stmts = vec![eval(span, Self::ors(span, ORS)); bytes / each];
        stmts.extend(vec![eval(span, nil()); bytes % each / 2]);
        let body = block(span, stmts);
        match kind {
            0 => if_(span, nil(), body, None),
            1 => if_(span, nil(), block(span, vec![]), Some(body)),
            2 => while_(span, nil(), body),
            3 => for_(span, None, None, body, None),
            _ => for_(span, Some(eval(span, nil())), Some(nil()), body, Some(nil())),
        }
    }

    /// A function that captures one variable or more and whose code is one byte shorter than the CLOSURE that is made of it.
    fn long_closure(&mut self, span: Span) -> Node {
        let count = 1 + self.rng.below(usize::from(self.names - 1).min(4));
        let captured: Vec<u16> = (1..=count as u16).collect();
        let last = name(self.span(), captured[0]);
        let value = captured[1..].iter().fold(last, |value, &number| assign(span, number, value));
        let mut stmts: Vec<Node> = captured.iter().map(|&number| var(span, number, None)).collect();
        let returning = |name| fun(span, name, &[], vec![return_(span, Some(value.clone()))]);
        stmts.push(match self.rng.below(3) {
            0 => class(span, THIS, None, vec![returning(3)]),
            _ => returning(THIS),
        });
        block(span, stmts)
    }
}
