//! Which function a refusal is in: each row of request M-105's table in several places. What is expected stands here as the request has it, and
//! the Rust must tell the same.

use crate::answer::peak;
use crate::files::Case;
use crate::limits::{in_functions, nil, nils};
use crate::node::*;

/// The span of nearly everything here.
const S: Span = (1, 2);
/// That of the record that is refused.
const HERE: Span = (3, 4);
const THIS: u16 = 0;
const INIT: u16 = 2;
const SCRIPT: u16 = 3;
/// The functions of the places, a method and a class of theirs.
const F: u16 = 4;
const G: u16 = 5;
const M: u16 = 6;
const C: u16 = 7;
/// What the errors name.
const X: u16 = 8;
const Y: u16 = 9;
const NAMES: usize = 6;
/// From here on names that nothing else has; there are enough to fill a function.
const FRESH: u16 = 10;
const MANY: usize = 263;
/// The parameters of a function that has no room for another local.
const FULL: u16 = 255;
const MOST_OPEN: usize = 16;
const LONG: usize = 65_536;

/// A case that must be refused with this number, in the function of this name, with so many around it.
pub struct Within {
    pub label: String,
    pub number: u32,
    pub function: u16,
    pub around: u32,
    pub case: Case,
}

#[derive(Clone, Copy, PartialEq)]
enum Class {
    None,
    Alone,
    WithSuper,
}

/// Where an error is put: the innermost function there, how many are around it, and its class.
#[derive(Clone, Copy)]
struct Place {
    label: &'static str,
    function: u16,
    around: usize,
    class: Class,
    put: fn(Vec<Node>) -> Vec<Node>,
}

/// What is wrong, and in which function: the place's, or a new one of this name, which is one deeper.
struct Error {
    label: &'static str,
    number: u32,
    stmts: Vec<Node>,
    inner: Option<u16>,
    /// How many functions in one another it has.
    opens: usize,
}

fn of_class(superclass: Option<Node>, method: u16, stmts: Vec<Node>) -> Vec<Node> {
    vec![class(S, C, superclass, vec![fun(S, method, &[], stmts)])]
}

const PLACES: [Place; 11] = {
    use Class::*;
    const fn place(
        label: &'static str,
        function: u16,
        around: usize,
        class: Class,
        put: fn(Vec<Node>) -> Vec<Node>,
    ) -> Place {
        Place { label, function, around, class, put }
    }
    [
        place("the script", SCRIPT, 0, None, |stmts| stmts),
        place("a block", SCRIPT, 0, None, |stmts| vec![block(S, stmts)]),
        place("f", F, 1, None, |stmts| vec![fun(S, F, &[], stmts)]),
        place("a method", M, 1, Alone, |stmts| of_class(Option::None, M, stmts)),
        place("an initializer", INIT, 1, Alone, |stmts| of_class(Option::None, INIT, stmts)),
        place("g in f", G, 2, None, |stmts| vec![fun(S, F, &[], vec![nil_(), fun(S, G, &[], stmts)])]),
        place("f in a method", F, 2, Alone, |stmts| of_class(Option::None, M, vec![fun(S, F, &[], stmts)])),
        place("a method with a superclass", M, 1, WithSuper, |stmts| of_class(Some(name(S, F)), M, stmts)),
        place("a method of a class in f", M, 2, Alone, |stmts| vec![fun(S, F, &[], of_class(Option::None, M, stmts))]),
        place("a function named <script>", SCRIPT, 1, None, |stmts| vec![fun(S, SCRIPT, &[], stmts)]),
        place("the innermost of 16", F, MOST_OPEN, None, |stmts| in_functions(MOST_OPEN, stmts)),
    ]
};

fn nil_() -> Node {
    eval(S, nil())
}

impl Error {
    fn new(label: &'static str, number: u32, stmts: Vec<Node>) -> Self {
        Self { label, number, stmts, inner: None, opens: 0 }
    }

    fn opens(self, opens: usize) -> Self {
        Self { opens, ..self }
    }

    /// In the function of this name that it has itself, and that it opens with so many others.
    fn inner(self, function: u16, opens: usize) -> Self {
        Self { inner: Some(function), opens, ..self }
    }

    /// At this place, with hardly more code than it needs until it is refused, and no output.
    fn at(&self, place: &Place, names: usize) -> Within {
        let tree = Tree { names: many_names(names), stmts: (place.put)(self.stmts.clone()) }.bytes();
        let code = peak(&tree) as u32 + 1;
        Within {
            label: format!("{} {}, in {}", self.number, self.label, place.label),
            number: self.number,
            function: self.inner.unwrap_or(place.function),
            around: (place.around + self.inner.map_or(0, |_| self.opens)) as u32,
            case: Case::lent(code, 3 * code, 0, tree),
        }
    }

    /// Whether this number can come there.
    fn fits(&self, place: &Place) -> bool {
        let is_here = match self.number {
            19 => place.function == INIT,
            20 => place.around == 0,
            21 | 23 => place.class == Class::None,
            22 => place.class == Class::Alone,
            _ => true,
        };
        is_here && place.around + self.opens <= MOST_OPEN
    }
}

pub fn within() -> Vec<Within> {
    let mut all = vec![];
    for error in names_wrong().into_iter().chain(counts_wrong()).chain(words_wrong()) {
        all.extend(PLACES.iter().filter(|place| error.fits(place)).map(|place| error.at(place, NAMES)));
    }
    // The longer ones in a few places each: the script, f, a method, g in f.
    for error in constants().into_iter().chain(full_functions()) {
        all.extend([0, 2, 3].map(|place| error.at(&PLACES[place], MANY)));
    }
    all.push(global_constant().at(&PLACES[0], NAMES));
    all.push(full_block().at(&PLACES[0], MANY));
    for error in upvalues() {
        all.extend([0, 3].map(|place| error.at(&PLACES[place], MANY)));
    }
    for (place, error) in [0, 2, 3, 5, 10].into_iter().zip(jumps()) {
        all.push(error.at(&PLACES[place], NAMES));
    }
    all.extend(budgets());
    all
}

/// 10, 11 and 12.
fn names_wrong() -> Vec<Error> {
    let twice = |second| vec![block(S, vec![var(S, X, None), second])];
    let method = |name, params: &[u16]| vec![block(S, vec![class(S, Y, None, vec![fun(HERE, name, params, vec![])])])];
    vec![
        Error::new("a variable twice", 10, twice(var(HERE, X, None))),
        Error::new("a local class again", 10, twice(class(HERE, X, None, vec![]))),
        // Its name is declared when it has ended.
        Error::new("a local function again", 10, twice(fun(HERE, X, &[], vec![nil_()]))).opens(1),
        Error::new("a parameter twice", 10, vec![fun(HERE, X, &[Y, Y], vec![])]).inner(X, 1),
        Error::new("a parameter of the function's own name", 10, vec![fun(HERE, X, &[Y, X], vec![])]).inner(X, 1),
        Error::new("a method's parameter this", 10, method(X, &[THIS])).inner(X, 1),
        Error::new("an initializer's parameter this", 10, method(INIT, &[X, THIS])).inner(INIT, 1),
        Error::new("a variable of the function's own name", 10, vec![fun(S, X, &[], vec![var(HERE, X, None)])])
            .inner(X, 1),
        Error::new("its own initializer", 11, vec![block(S, vec![var(S, X, Some(name(HERE, X)))])]),
        Error::new("a class from itself", 12, vec![class(HERE, X, Some(name(S, X)), vec![])]),
    ]
}

/// 14 and 17.
fn counts_wrong() -> Vec<Error> {
    let function = |name| fun(HERE, name, &[Y; 256], vec![]);
    let of_class = |name| vec![block(S, vec![class(S, X, None, vec![function(name)])])];
    vec![
        Error::new("arguments 256", 14, vec![eval(S, call(HERE, nil(), nils(256)))]),
        // This context is not opened.
        Error::new("parameters 256", 17, vec![function(X)]).opens(1),
        Error::new("a method's parameters 256", 17, of_class(X)).opens(1),
        Error::new("an initializer's parameters 256", 17, of_class(INIT)).opens(1),
    ]
}

/// 19 to 23.
fn words_wrong() -> Vec<Error> {
    let value = return_(HERE, Some(nil()));
    vec![
        Error::new("a value", 19, vec![value.clone()]),
        Error::new("a value in a loop", 19, vec![while_(S, nil(), block(S, vec![value]))]),
        Error::new("a return", 20, vec![return_(HERE, None)]),
        Error::new("super.x", 21, vec![eval(S, super_(HERE, X))]),
        Error::new("super.x()", 21, vec![eval(S, call(HERE, super_(S, X), vec![]))]),
        Error::new("super.x", 22, vec![print(S, super_(HERE, X))]),
        Error::new("super.x()", 22, vec![eval(S, call(HERE, super_(S, X), vec![]))]),
        Error::new("this", 23, vec![eval(S, name(HERE, THIS))]),
    ]
}

/// A call with so many different numbers as arguments.
fn numbers(count: u64) -> Node {
    eval(S, call(S, nil(), (0..count).map(|bits| number(S, bits)).collect()))
}

fn with_numbers(count: u64, last: Vec<Node>) -> Vec<Node> {
    vec![numbers(count), block(S, last)]
}

/// 15. The names of a class and of its methods are constants too, and each function is one.
fn constants() -> Vec<Error> {
    let two = |kind: fn(u16) -> Node| [X, Y].map(kind).to_vec();
    let strings = || two(|text| eval(S, string(HERE, text)));
    let functions = two(|name| fun(HERE, name, &[], vec![]));
    let class = class(S, X, None, vec![fun(HERE, Y, &[], vec![])]);
    vec![
        Error::new("a string", 15, with_numbers(255, strings())),
        Error::new("CLOSURE", 15, with_numbers(255, functions)).opens(1),
        Error::new("METHOD", 15, with_numbers(254, vec![class])).opens(1),
        Error::new("its own", 15, vec![fun(S, X, &[], with_numbers(255, strings()))]).inner(X, 1),
    ]
}

/// 15 of DEFINE_GLOBAL, after the CLOSURE of a function that has ended.
fn global_constant() -> Error {
    Error::new("DEFINE_GLOBAL", 15, vec![numbers(255), fun(HERE, X, &[], vec![])])
}

/// A local of each kind.
fn locals() -> [(&'static str, Node); 4] {
    let last = FRESH + FULL;
    [
        ("a variable", var(HERE, last, None)),
        ("a local function", fun(HERE, last, &[], vec![])),
        ("a local class", class(HERE, last, None, vec![])),
        ("the hidden super", class(S, last, Some(name(S, X)), vec![])),
    ]
}

/// 16 in a function whose parameters take what is there, but for the class whose superclass is the one too many.
fn full_functions() -> Vec<Error> {
    locals()
        .into_iter()
        .map(|(label, local)| {
            let count = if label == "the hidden super" { FULL - 1 } else { FULL };
            let params: Vec<u16> = (FRESH..FRESH + count).collect();
            Error::new(label, 16, vec![fun(S, X, &params, vec![local])]).inner(X, 1)
        })
        .collect()
}

/// 16 of a function's own name in a block: when it has ended.
fn full_block() -> Error {
    let mut stmts: Vec<Node> = (F..F + 256).map(|number| var(S, number, None)).collect();
    stmts.push(fun(HERE, FRESH + FULL, &[], vec![nil_()]));
    Error::new("a local function of a block", 16, vec![block(S, stmts)])
}

/// 18. In a function with 255 parameters g captures all of them and the function; one more is a variable around both.
fn upvalues() -> Vec<Error> {
    let params: Vec<u16> = (FRESH..FRESH + FULL).collect();
    let all = |callee| eval(S, call(S, name(S, callee), params.iter().map(|&param| name(S, param)).collect()));
    let more = || eval(S, name(HERE, Y));
    let function = |name, body| fun(S, name, &[], body);
    let in_method = class(S, M, None, vec![function(INIT, vec![more()])]);
    let around = |body| {
        let outer = fun(S, X, &params, vec![function(G, body)]);
        vec![block(S, vec![var(S, Y, None), outer])]
    };
    vec![
        Error::new("its own list", 18, around(vec![all(X), more()])).inner(G, 2),
        Error::new("the list around it", 18, around(vec![all(X), function(F, vec![more()])])).inner(F, 3),
        Error::new("the list two around it", 18, around(vec![all(X), function(F, vec![function(M, vec![more()])])]))
            .inner(M, 4),
        Error::new("the list around a method", 18, around(vec![all(X), in_method])).inner(INIT, 3),
        Error::new("its own list before the one around it", 18, {
            let uses = vec![all(M), eval(S, name(HERE, X))];
            around(vec![var(S, M, None), function(F, uses)])
        })
        .inner(F, 3),
    ]
}

/// Some more than 65,535 code bytes, in rows of `nil or nil`: eight bytes for each.
fn long(bytes: usize) -> Vec<Node> {
    const ORS: usize = 40;
    let ors = (0..ORS).fold(nil(), |left, _| infix(S, 11, left, nil()));
    vec![eval(S, ors); bytes / (8 * ORS) + 1]
}

/// 13.
fn jumps() -> Vec<Error> {
    let body = || block(S, long(LONG));
    let argument = (0..32).fold(nil(), |left, _| infix(S, 11, left, nil()));
    let right = call(S, nil(), vec![argument; 255]);
    vec![
        Error::new("if", 13, vec![if_(HERE, nil(), body(), None)]),
        Error::new("else", 13, vec![if_(HERE, nil(), nil_(), Some(body()))]),
        Error::new("while", 13, vec![while_(HERE, nil(), body())]),
        Error::new("and", 13, vec![eval(S, infix(HERE, 10, nil(), right))]),
        Error::new("for", 13, vec![for_(HERE, None, None, body(), None)]),
    ]
}

/// 30: the functions by whose bytes each budget is passed, from no byte on; the next budget is enough. Function and how many are
/// around it, and how many budgets.
fn budgets() -> Vec<Within> {
    let empty = |name| fun(S, name, &[], vec![]);
    let returning = |value| vec![fun(S, F, &[X, Y], vec![fun(S, G, &[], vec![return_(S, Some(value))])])];
    let printing = || print(S, number(S, 1));
    let f_and_g = vec![fun(S, F, &[], vec![printing(), fun(S, G, &[], vec![printing()]), printing()])];
    let method = |number| vec![class(S, C, None, vec![empty(number)])];
    let trees: [(&str, Vec<Node>, &[(u16, u32, u32)]); 9] = [
        ("print 1;", vec![printing()], &[(SCRIPT, 0, 5)]),
        // NIL RETURN; then CLOSURE, DEFINE_GLOBAL and the script's own return.
        ("fun f() {}", vec![empty(F)], &[(F, 1, 2), (SCRIPT, 0, 4)]),
        ("fun f() { print 1; fun g() { print 1; } print 1; }", f_and_g, &[(F, 1, 3), (G, 2, 5), (F, 1, 2)]),
        // GET_UPVALUE RETURN has three bytes and its CLOSURE four, the last of which is f's.
        ("fun g() { return x; } in f", returning(name(S, X)), &[(G, 2, 3), (F, 1, 3)]),
        ("fun g() { return x = y; } in f", returning(assign(S, X, name(S, Y))), &[(G, 2, 5), (F, 1, 3)]),
        ("class c { m() {} }", method(M), &[(SCRIPT, 0, 6), (M, 1, 2), (SCRIPT, 0, 5)]),
        // GET_LOCAL 0 RETURN.
        ("class c { init() {} }", method(INIT), &[(SCRIPT, 0, 6), (INIT, 1, 3), (SCRIPT, 0, 4)]),
        ("class c { m() {} } in f", vec![fun(S, F, &[], method(M))], &[(F, 1, 4), (M, 2, 2), (F, 1, 5)]),
        ("16 functions", in_functions(MOST_OPEN, vec![]), &[(F, 16, 2), (G, 15, 2), (SCRIPT, 0, 2)]),
    ];
    trees.into_iter().flat_map(|(label, stmts, rows)| budgets_of(label, stmts, rows)).collect()
}

fn budgets_of(label: &str, stmts: Vec<Node>, rows: &[(u16, u32, u32)]) -> Vec<Within> {
    let tree = Tree { names: many_names(NAMES), stmts }.bytes();
    let expected = rows.iter().flat_map(|&(function, around, count)| vec![(function, around); count as usize]);
    let made: Vec<Within> = expected
        .zip(0..)
        .map(|((function, around), code)| Within {
            label: format!("30 {label}, code {code}"),
            number: 30,
            function,
            around,
            // The code's bytes in every other case, else the span words.
            case: if code % 2 == 0 {
                Case::lent(code, 3 * code + 9, 0, tree.clone())
            } else {
                Case::lent(code + 3, 3 * code + 2, 0, tree.clone())
            },
        })
        .collect();
    assert_eq!(made.len(), peak(&tree), "{label}: the last budget is the last that is too small");
    made
}
