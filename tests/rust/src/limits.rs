//! Each limit of document 01 on both sides, and the traps that the Rust fixes. Large trees repeat one record with one
//! span, so that they pack well.

use crate::answer::peak;
use crate::examples::{examples, Told};
use crate::files::{Case, PLENTY};
use crate::node::*;

/// The span of nearly everything here.
const S: Span = (1, 2);
const THIS: u16 = 0;
const SUPER: u16 = 1;
const INIT: u16 = 2;
const A: u16 = 4;
const B: u16 = 5;
const C: u16 = 6;
const MOST_CODE: usize = 262_144;
const MOST_BITS: u64 = 0x7FF0_0000_0000_0000;

/// A case that must have the answer number `expected`.
pub struct Limit {
    pub label: String,
    pub expected: u32,
    pub case: Case,
}

#[derive(Default)]
struct List(Vec<Limit>);

impl List {
    fn case(&mut self, label: &str, expected: u32, case: Case) {
        self.0.push(Limit { label: label.to_string(), expected, case });
    }

    fn bytes(&mut self, label: &str, expected: u32, tree: Vec<u8>) {
        self.case(label, expected, Case::plenty(tree));
    }

    fn tree(&mut self, label: &str, expected: u32, names: usize, stmts: Vec<Node>) {
        self.bytes(label, expected, Tree { names: many_names(names), stmts }.bytes());
    }

    /// A tree refused with `expected`: so with just the code that it needs until then, and 30 with one byte less.
    fn refused_before_30(&mut self, label: &str, expected: u32, names: usize, stmts: Vec<Node>) {
        let tree = Tree { names: many_names(names), stmts }.bytes();
        let code = peak(&tree) as u32;
        let lent = |code| Case { code, ..Case::plenty(tree.clone()) };
        self.case(&format!("{label}, code {code}"), expected, lent(code));
        self.case(&format!("{label}, code {}", code - 1), 30, lent(code - 1));
    }
}

pub fn nil() -> Node {
    word(S, 2)
}

pub fn nils(count: usize) -> Vec<Node> {
    vec![nil(); count]
}

/// Variables named from `first` on, without values.
fn vars(first: u16, count: u16) -> Vec<Node> {
    (first..first + count).map(|number| var(S, number, None)).collect()
}

fn gets(numbers: impl IntoIterator<Item = u16>) -> Vec<Node> {
    numbers.into_iter().map(|number| eval(S, name(S, number))).collect()
}

/// Statements of so many code bytes, at least 2: `nil;` has two, `a;` three.
fn code(bytes: usize) -> Vec<Node> {
    let nils = match bytes % 3 {
        0 => 0,
        1 => 2,
        _ => 1,
    };
    let mut stmts = vec![eval(S, nil()); nils];
    stmts.extend(vec![eval(S, name(S, A)); (bytes - 2 * nils) / 3]);
    stmts
}

/// An expression of so many code bytes, somewhat above 255 times 256: a call with calls as arguments.
fn long_expr(bytes: usize) -> Node {
    // A call of nil with `n` arguments nil has n + 3 bytes, so each argument here has 256.
    let argument = call(S, nil(), nils(253));
    let callee = call(S, nil(), nils(bytes - 2 - 255 * 256 - 3));
    call(S, callee, vec![argument; 255])
}

pub fn limits() -> Vec<Limit> {
    let mut list = List::default();
    table(&mut list);
    arguments(&mut list);
    parameters(&mut list);
    locals(&mut list);
    constants(&mut list);
    upvalues(&mut list);
    jumps(&mut list);
    runs(&mut list);
    depth(&mut list);
    nesting(&mut list);
    last_byte(&mut list);
    names_and_numbers(&mut list);
    fields(&mut list);
    places(&mut list);
    tree_length(&mut list);
    code_limit(&mut list);
    traps(&mut list);
    list.0
}

/// P1 to P12, and the budgets that document 01 names.
fn table(list: &mut List) {
    for example in examples() {
        let expected = match example.told {
            Told::Codes(_) => 0,
            Told::Refused(number) => number,
        };
        list.bytes(example.label, expected, example.tree.bytes());
    }
    let p2 = || examples()[1].tree.bytes();
    let lent = |code, spans, output| Case::lent(code, spans, output, p2());
    list.case("P2, output 73", 0, lent(PLENTY, PLENTY, 73));
    list.case("P2, output 72", 31, lent(PLENTY, PLENTY, 72));
    list.case("P2, output 0", 31, lent(PLENTY, PLENTY, 0));
    list.case("P2, code 5", 0, lent(5, PLENTY, 73));
    list.case("P2, code 4", 30, lent(4, PLENTY, 73));
    list.case("P2, span words 15", 0, lent(PLENTY, 15, 73));
    list.case("P2, span words 14", 30, lent(PLENTY, 14, 73));
    list.case("P2, code 4 and output 0", 30, lent(4, PLENTY, 0));
    let empty = tree(1, vec![fun(S, A, &[], vec![])]).bytes();
    list.case("fun f(){}, code 6", 0, Case { code: 6, ..Case::plenty(empty.clone()) });
    list.case("fun f(){}, code 5", 30, Case { code: 5, ..Case::plenty(empty) });
}

fn arguments(list: &mut List) {
    for (count, number) in [(255, 0), (256, 14)] {
        let plain = call((3, 4), nil(), nils(count));
        list.tree(&format!("arguments {count}"), number, 1, vec![eval(S, plain)]);
        let invoke = call((3, 4), get(S, A, nil()), nils(count));
        list.tree(&format!("arguments {count}, method"), number, 1, vec![eval(S, invoke)]);
        let invoke = call((3, 4), super_(S, A), nils(count));
        let method = fun(S, A, &[], vec![eval(S, invoke.clone())]);
        let with_super = class(S, A, Some(name(S, B)), vec![method.clone()]);
        list.tree(&format!("arguments {count}, super"), number, 2, vec![with_super]);
        let number = |other| if count == 256 { 14 } else { other };
        let without = class(S, A, None, vec![method]);
        list.tree(&format!("arguments {count}, super without superclass"), number(22), 2, vec![without]);
        list.tree(&format!("arguments {count}, super outside class"), number(21), 1, vec![eval(S, invoke)]);
    }
}

fn parameters(list: &mut List) {
    for (count, number) in [(255, 0), (256, 17)] {
        let params: Vec<u16> = (B..B + count).collect();
        let function = fun((3, 4), A, &params, vec![]);
        list.tree(&format!("parameters {count}"), number, 257, vec![function.clone()]);
        let method = class(S, A, None, vec![function]);
        list.tree(&format!("parameters {count}, method"), number, 257, vec![method]);
    }
    list.tree("parameters 256, all one name", 17, 2, vec![fun((3, 4), A, &[B; 256], vec![])]);
    list.tree("parameters 255, all one name", 10, 2, vec![fun((3, 4), A, &[B; 255], vec![])]);
}

fn locals(list: &mut List) {
    let function = |count| vec![fun(S, A, &[], vars(B, count))];
    list.tree("further locals 255", 0, 257, function(255));
    list.tree("further locals 256", 16, 257, function(256));
    list.tree("locals of a script block 256", 0, 257, vec![block(S, vars(A, 256))]);
    list.tree("locals of a script block 257", 16, 257, vec![block(S, vars(A, 257))]);
    let params: Vec<u16> = (B..B + 255).collect();
    list.tree("parameters 255 and a local", 16, 257, vec![fun(S, A, &params, vec![var((3, 4), 260, None)])]);
    let after = |count, last| {
        let mut stmts = vars(A, count);
        stmts.push(last);
        vec![block(S, stmts)]
    };
    let function = fun((3, 4), 260, &[], vec![]);
    list.tree("local function as the 256th", 0, 257, after(255, function.clone()));
    list.tree("local function as the 257th", 16, 257, after(256, function));
    let plain = class((3, 4), 260, None, vec![]);
    list.tree("local class as the 256th", 0, 257, after(255, plain.clone()));
    list.tree("local class as the 257th", 16, 257, after(256, plain));
    let with_super = class((3, 4), 260, Some(name(S, A)), vec![]);
    list.tree("hidden super as the 256th", 0, 257, after(254, with_super.clone()));
    list.tree("hidden super as the 257th", 16, 257, after(255, with_super));
    let again = var((3, 4), A, None);
    list.tree("the 257th is already defined", 10, 256, after(256, again));
}

fn constants(list: &mut List) {
    let numbers = |count: u64| (0..count).map(|bits| eval(S, number((3, 4), bits))).collect::<Vec<_>>();
    list.tree("constants 256", 0, 1, numbers(256));
    list.tree("constants 257", 15, 1, numbers(257));
    let mut again = numbers(256);
    again.push(eval(S, number(S, 7)));
    list.tree("constants 256, one again", 0, 1, again);
    let with = |last| {
        let mut stmts = numbers(256);
        stmts.push(last);
        stmts
    };
    list.tree("constants 257, a string", 15, 1, with(eval(S, string(S, A))));
    list.tree("constants 257, a global", 15, 1, with(eval(S, name(S, A))));
    list.tree("constants 257, a function", 15, 1, with(fun((5, 6), A, &[], vec![])));
    list.tree("constants 257, a function that has its own", 15, 1, with(block(S, vec![fun(S, A, &[], numbers(9))])));
    list.refused_before_30("constants 257", 15, 1, numbers(257));
    let class_again = class((5, 6), A, Some(name(S, A)), vec![]);
    list.tree("constants 257, a local class again", 15, 1, with(block(S, vec![var(S, A, None), class_again])));
}

/// Three functions in one another: f with 254 parameters and g as its last local, g with one, and h, which gets the
/// variables of g that are asked for, and then as many of f's.
fn captured(of_g: &[u16], of_f: usize) -> Vec<Node> {
    const OF_G: u16 = 7;
    let params: Vec<u16> = (OF_G + 1..OF_G + 255).collect();
    // f's own name is its slot 0.
    let of_f = [A].into_iter().chain(params.clone()).take(of_f);
    let inner = fun(S, C, &[], gets(of_g.iter().copied().chain(of_f)));
    vec![fun(S, A, &params, vec![fun(S, B, &[OF_G], vec![inner])])]
}

fn upvalues(list: &mut List) {
    list.tree("upvalues 255", 0, 260, captured(&[], 255));
    list.tree("upvalues 256", 0, 260, captured(&[B], 255));
    list.tree("upvalues 256, one again", 0, 260, captured(&[B, 9, 9], 255));
    list.tree("upvalues 257", 18, 260, captured(&[B, 7], 255));
    list.refused_before_30("upvalues 257", 18, 260, captured(&[B, 7], 255));
    // Each level between passes the variable on.
    let mut inner = vec![print(S, name(S, A)), eval(S, assign(S, A, nil()))];
    for level in (0..15).rev() {
        inner = vec![fun(S, B + level % 2, &[], inner)];
    }
    list.tree("captured over 16 levels", 0, 3, vec![fun(S, C, &[A], inner)]);
}

fn jumps(list: &mut List) {
    let body = |bytes| block(S, code(bytes));
    for (distance, number) in [(65_535, 0), (65_536, 13)] {
        let mut add = |what: &str, stmts| list.tree(&format!("{what} {distance}"), number, 1, stmts);
        // POP and the branch, and behind a then-branch the JUMP's three bytes.
        add("if over then", vec![if_((3, 4), nil(), body(distance - 4), None)]);
        add("if over else", vec![if_((3, 4), nil(), body(2), Some(body(distance - 1)))]);
        add("and", vec![eval(S, infix((3, 4), 10, nil(), long_expr(distance - 1)))]);
        add("or", vec![eval(S, infix((3, 4), 11, nil(), long_expr(distance - 1)))]);
        // Condition, jump, POP and LOOP; the jump out is four bytes and the condition shorter, so LOOP comes first.
        add("while, LOOP", vec![while_((3, 4), nil(), body(distance - 8))]);
        add("for, LOOP", vec![for_((3, 4), None, None, body(distance - 3), None)]);
        add("for with all, LOOP", vec![for_((3, 4), Some(body(2)), Some(nil()), body(distance - 10), Some(nil()))]);
    }
    list.refused_before_30("LOOP 65536", 13, 1, vec![while_((3, 4), nil(), body(65_528))]);
    list.refused_before_30("if over then 65536", 13, 1, vec![if_((3, 4), nil(), body(65_532), None)]);
}

fn runs(list: &mut List) {
    for bytes in [254, 255, 256, 510, 511] {
        list.tree(&format!("{bytes} bytes of one span"), 0, 1, code(bytes));
    }
    // With 0..0 the script's own NIL and RETURN go on with the run.
    for count in [126, 127, 254] {
        let stmts = vec![eval((0, 0), word((0, 0), 2)); count];
        list.tree(&format!("{} bytes of 0..0", 2 * count + 2), 0, 0, stmts);
    }
    let body = vec![eval((0, 0), word((0, 0), 2)); 127];
    list.tree("256 bytes of 0..0 in a function", 0, 1, vec![fun((0, 0), A, &[], body)]);
}

/// A statement in so many blocks.
fn in_blocks(count: usize, stmt: Node) -> Node {
    (0..count).fold(stmt, |inner, _| block(S, vec![inner]))
}

fn depth(list: &mut List) {
    for (deepest, number) in [(128, 0), (129, 4)] {
        let mut add = |what: &str, stmt| list.tree(&format!("depth {deepest}, {what}"), number, 2, vec![stmt]);
        add("statement", in_blocks(deepest - 1, block(S, vec![])));
        let operand = (0..deepest - 2).fold(nil(), |inner, _| prefix(S, 1, inner));
        add("expression", eval(S, operand));
        add("superclass", in_blocks(deepest - 2, class(S, A, Some(name(S, B)), vec![])));
        add("method", in_blocks(deepest - 2, class(S, A, None, vec![fun(S, A, &[], vec![])])));
        let branch = (0..deepest - 1).fold(block(S, vec![]), |inner, _| if_(S, nil(), inner, None));
        add("branch", branch);
        let right = (0..deepest - 2).fold(nil(), |inner, _| infix(S, 10, nil(), inner));
        add("right operand", eval(S, right));
    }
    let deep = Tree { names: vec![], stmts: vec![in_blocks(128, block(S, vec![]))] }.bytes();
    let start = deep.len() - 12;
    list.bytes("depth 129, cut after the mark", 4, deep[..start + 2].to_vec());
    list.bytes("depth 129, cut in the mark", 3, deep[..start + 1].to_vec());
    let mut wrong = deep.clone();
    wrong[start] = b'E';
    list.bytes("depth 129, wrong mark", 3, wrong);
    let mut expression = deep;
    expression[start..start + 2].copy_from_slice(b"EV");
    list.bytes("depth 129, an expression for a statement", 3, expression);
    let method = Tree { names: many_names(2), stmts: vec![in_blocks(127, class(S, A, None, vec![block(S, vec![])]))] };
    list.bytes("depth 129, a method that is no function", 3, method.bytes());
}

/// So many functions in one another around some statements. The names take turns: a function may not declare its own.
pub fn in_functions(count: usize, stmts: Vec<Node>) -> Vec<Node> {
    (0..count).fold(stmts, |inner, level| vec![fun(S, A + (level % 2) as u16, &[], inner)])
}

fn in_methods(count: usize, stmts: Vec<Node>) -> Vec<Node> {
    (0..count).fold(stmts, |inner, _| vec![class(S, C, None, vec![fun(S, B, &[], inner)])])
}

fn nesting(list: &mut List) {
    for (count, number) in [(16, 0), (17, 5)] {
        list.tree(&format!("nesting {count}, functions"), number, 2, in_functions(count, vec![]));
        list.tree(&format!("nesting {count}, methods"), number, 3, in_methods(count, vec![]));
        let mixed = in_functions(8, in_methods(count - 8, vec![]));
        list.tree(&format!("nesting {count}, mixed"), number, 3, mixed);
        let beside = vec![block(S, vec![]), in_functions(count, vec![]).remove(0), block(S, vec![])];
        list.tree(&format!("nesting {count}, among others"), number, 2, beside);
    }
    let deep = Tree { names: many_names(2), stmts: in_functions(17, vec![]) }.bytes();
    list.bytes("nesting 17, cut after the mark", 5, deep[..deep.len() - 14].to_vec());
    let both = (0..112).fold(in_functions(17, vec![]), |inner, _| vec![block(S, inner)]);
    list.tree("nesting 17 at depth 129", 4, 2, both);
    let both = (0..111).fold(in_functions(17, vec![]), |inner, _| vec![block(S, inner)]);
    list.tree("nesting 17 at depth 128", 5, 2, both);
}

/// Functions whose last byte is 36 or close to it, as an operand.
fn last_byte(list: &mut List) {
    for slot in [35, 36, 37] {
        // Slot 0 is f's own; parameters 1 to 39.
        let params: Vec<u16> = (B..B + 39).collect();
        let value = name(S, A + slot);
        let body = vec![var(S, B + 39, Some(value))];
        list.tree(&format!("last operand {slot}, a local"), 0, 42, vec![fun(S, A, &params, body)]);
        let body = vec![var(S, B, Some(call(S, nil(), nils(usize::from(slot)))))];
        list.tree(&format!("last operand {slot}, arguments"), 0, 2, vec![fun(S, A, &[], body)]);
        let mut body: Vec<Node> = (0..u64::from(slot)).map(|bits| eval(S, number(S, bits))).collect();
        body.push(var(S, B, Some(number(S, 99))));
        list.tree(&format!("last operand {slot}, a constant"), 0, 2, vec![fun(S, A, &[], body)]);
        let inner = fun(S, A, &[], vec![print(S, name(S, A + slot))]);
        let function = fun(S, B + 39, &params, vec![inner]);
        list.tree(&format!("last operand {slot}, a captured local"), 0, 42, vec![function]);
        // A jump of this distance, and then a return as the last byte.
        let then = block(S, code(usize::from(slot) - 4));
        let body = vec![if_(S, name(S, A), then, Some(return_(S, None)))];
        list.tree(&format!("last byte a return, jump {slot}"), 0, 2, vec![fun(S, A, &[], body)]);
        let init = fun(S, INIT, &params, vec![var(S, B + 39, Some(name(S, A + slot)))]);
        list.tree(&format!("last operand {slot}, in an initializer"), 0, 42, vec![class(S, A, None, vec![init])]);
    }
    list.tree("a class without code but its own last", 0, 2, vec![fun(S, A, &[], vec![class(S, B, None, vec![])])]);
}

fn names_and_numbers(list: &mut List) {
    let header = |names: u16| [&b"TR"[..], &names.to_le_bytes(), &[0, 0]].concat();
    list.tree("names 4096", 0, 4096, vec![eval(S, name(S, 4099))]);
    list.tree("names 4097", 3, 4097, vec![]);
    list.bytes("names 4097, no more", 3, header(4097));
    list.bytes("names 65535, no more", 3, header(65_535));
    list.tree("names 0, number 3", 0, 0, vec![eval(S, name(S, 3))]);
    list.tree("names 0, number 4", 3, 0, vec![eval(S, name(S, 4))]);
    for (bits, expected) in [(0, 0), (MOST_BITS, 0), (MOST_BITS + 1, 3), (1 << 63, 3), (u64::MAX, 3)] {
        list.tree(&format!("number bits {bits:016X}"), expected, 0, vec![eval(S, number(S, bits))]);
    }
    let named = |names: &[&[u8]]| {
        let names = names.iter().map(|text| text.to_vec()).collect();
        Tree { names, stmts: vec![] }.bytes()
    };
    list.bytes("names rise", 0, named(&[b"", b"a", b"aa", b"b"]));
    list.bytes("a name after its own prefix", 0, named(&[b"a", b"a\0"]));
    list.bytes("a prefix after its name", 3, named(&[b"aa", b"a"]));
    list.bytes("a name twice", 3, named(&[b"a", b"a"]));
    list.bytes("the empty name twice", 3, named(&[b"", b""]));
    list.bytes("bytes above 127 rise", 0, named(&[b"\x7F", b"\x80", b"\xFF"]));
    for fixed in [&b"this"[..], b"super", b"init", b"<script>"] {
        let label = format!("the fixed name {} is written", String::from_utf8_lossy(fixed));
        list.bytes(&label, 3, named(&[b"", fixed]));
    }
}

/// Every field with a bound, at it and one above. What stands below fits a reader that lets the wrong value pass.
fn fields(list: &mut List) {
    let empty = || block(S, vec![]);
    let raw = |mark, fields: &[u8], below| Node::new(mark, S, fields.to_vec(), below);
    let in_function = |stmt| fun(S, A, &[], vec![stmt]);
    for above in [0, 1] {
        let expected = 3 * u32::from(above);
        let mut add = |what: &str, stmt| {
            let side = if above == 0 { "at its bound" } else { "above its bound" };
            list.tree(&format!("{what} {side}"), expected, 2, vec![stmt]);
        };
        add("SI else", raw("SI", &[1 + above], vec![nil(), empty(), empty()]));
        add("SR value", in_function(raw("SR", &[1 + above], vec![nil()])));
        add("SV value", raw("SV", &[4, 0, 1 + above], vec![nil()]));
        add("SC super", raw("SC", &[4, 0, 1 + above, 0, 0], vec![name(S, B)]));
        let all = if above == 0 { vec![empty(), nil(), empty(), nil()] } else { vec![empty()] };
        add("SO flags", raw("SO", &[7 + above], all));
        add("EI operator", eval(S, raw("EI", &[11 + above], vec![nil(), nil()])));
        add("EP operator", eval(S, raw("EP", &[1 + above], vec![nil()])));
        add("EL kind", eval(S, if above == 0 { string(S, B) } else { raw("EL", &[5], vec![]) }));
        // The tree has the names 4 and 5.
        let last = B + u16::from(above);
        add("EA name", eval(S, assign(S, last, nil())));
        add("EG name", eval(S, get(S, last, nil())));
        add("ES name", eval(S, set(S, last, nil(), nil())));
        add("EV name", eval(S, name(S, last)));
        add("EL name", eval(S, string(S, last)));
        add("SV name", var(S, last, None));
        add("SC name", class(S, last, None, vec![]));
        add("SF name", fun(S, last, &[], vec![]));
        add("SF parameter", fun(S, A, &[INIT, last], vec![]));
        let method = fun(S, A, &[], vec![eval(S, super_(S, last))]);
        add("EU name", class(S, A, Some(name(S, B)), vec![method]));
        let method = fun(S, last, &[], vec![]);
        add("a method's name", class(S, A, None, vec![method]));
        add("a superclass's name", class(S, A, Some(name(S, last)), vec![]));
    }
}

/// Records in places that do not take them.
fn places(list: &mut List) {
    let mut add = |what: &str, stmt| list.tree(what, 3, 2, vec![stmt]);
    add("an expression for a statement", name(S, A));
    add("a statement for an expression", eval(S, block(S, vec![])));
    add("an expression for a body", while_(S, nil(), nil()));
    add("a statement for an argument", eval(S, call(S, nil(), vec![eval(S, nil())])));
    add("a statement for an increment", for_(S, None, None, block(S, vec![]), Some(block(S, vec![]))));
    add("a superclass nil", class(S, A, Some(nil()), vec![]));
    add("a superclass super.b", class(S, A, Some(super_(S, B)), vec![]));
    add("a superclass assigned", class(S, A, Some(assign(S, B, nil())), vec![]));
    add("a method that is a block", class(S, A, None, vec![block(S, vec![])]));
    add("a method that is a class", class(S, A, None, vec![class(S, B, None, vec![])]));
    add("a method that is a variable", class(S, A, None, vec![var(S, B, None)]));
    add("a header for a statement", Node::new("TR", S, vec![], vec![]));
    add("a name for a statement", Node::new("NM", S, vec![], vec![]));
    add("a mark that is none", Node::new("SX", S, vec![0; 9], vec![]));
    let operand = (0..127).fold(block(S, vec![]), |inner, _| prefix(S, 1, inner));
    add("depth 129, a statement for an expression", eval(S, operand));
    let deep = class(S, A, Some(nil()), vec![]);
    add("depth 129, a superclass nil", in_blocks(127, deep));
    let tree = tree(1, vec![eval(S, nil())]).bytes();
    let twice = [&tree[..], &tree[11..]].concat();
    list.bytes("a sound record too many", 3, twice);
    list.bytes("a byte too many", 3, [&tree[..], &[0]].concat());
}

fn tree_length(list: &mut List) {
    // Names of one letter each, every one longer than the one before.
    let of_length = |first: usize| {
        let lengths = [first].into_iter().chain(65_519..65_535);
        Tree { names: lengths.map(|length| vec![b'a'; length]).collect(), stmts: vec![] }.bytes()
    };
    let (fits, too_long) = (of_length(78), of_length(79));
    assert!(fits.len() == 1_048_576 && too_long.len() == 1_048_577);
    list.bytes("tree length 1048576", 0, fits);
    list.bytes("tree length 1048577", 2, too_long);
    list.bytes("tree length 1048576, no tree", 3, vec![0; 1_048_576]);
    list.bytes("tree length 1048577, no tree", 2, vec![0; 1_048_577]);
}

/// A method whose code brings the open code to so many bytes: `super.b` has 12 bytes in the tree and 6 in the code.
fn open_code(bytes: usize) -> Vec<Node> {
    let invoke = call(S, super_(S, B), vec![super_(S, B); 255]);
    let with = |last: Vec<Node>| {
        let mut stmts = vec![eval(S, invoke.clone()); 170];
        stmts.extend(last);
        vec![class(S, A, Some(name(S, B)), vec![fun(S, B, &[], stmts)])]
    };
    let base = Tree { names: many_names(2), stmts: with(vec![]) }.bytes();
    with(code(bytes - peak(&base)))
}

fn code_limit(list: &mut List) {
    list.tree("code 262144", 0, 2, open_code(MOST_CODE));
    list.tree("code 262145", 30, 2, open_code(MOST_CODE + 1));
    let tree = Tree { names: many_names(2), stmts: open_code(MOST_CODE) }.bytes();
    let spans = 3 * MOST_CODE as u32;
    list.case("code 262144, span words 786432", 0, Case { spans, ..Case::plenty(tree.clone()) });
    list.case("code 262144, span words 786431", 30, Case { spans: spans - 1, ..Case::plenty(tree) });
}

/// What the Rust does and a reader of it easily gets wrong.
fn traps(list: &mut List) {
    let in_block = |stmts| vec![block(S, stmts)];
    let returns_this = fun(S, A, &[], vec![return_(S, Some(name((3, 4), THIS)))]);
    list.tree(
        "a local function's name is declared after its body",
        23,
        1,
        in_block(vec![var(S, A, None), returns_this]),
    );
    let local_function = fun((3, 4), A, &[], vec![]);
    list.tree("a local function again", 10, 1, in_block(vec![var(S, A, None), local_function]));
    let own = var(S, A, Some(assign((3, 4), A, nil())));
    list.tree("assignment in its own initializer", 11, 1, in_block(vec![own]));
    let hidden = vec![var(S, A, None), block(S, vec![var(S, A, Some(name((3, 4), A)))])];
    list.tree("an outer variable of that name is no way out", 11, 1, in_block(hidden));
    list.tree("a global in its own initializer", 0, 1, vec![var(S, A, Some(name(S, A)))]);
    let this = |use_: Node| in_block(vec![var(S, THIS, None), use_]);
    list.tree("a local named this, printed", 23, 0, this(print(S, name((3, 4), THIS))));
    list.tree("a local named this, set", 0, 0, this(eval(S, assign(S, THIS, nil()))));
    list.tree("class a < this", 0, 1, vec![class(S, A, Some(name(S, THIS)), vec![])]);
    list.tree("class a < super", 0, 1, vec![class(S, A, Some(name(S, SUPER)), vec![])]);
    list.tree("class this < this", 12, 1, vec![class((3, 4), THIS, Some(name(S, THIS)), vec![])]);
    let with_value = fun(S, INIT, &[], vec![return_((3, 4), Some(nil()))]);
    list.tree("a function named init returns a value", 0, 0, vec![with_value.clone()]);
    list.tree("an initializer returns a value", 19, 1, vec![class(S, A, None, vec![with_value.clone()])]);
    let inner = class(S, A, None, vec![fun(S, INIT, &[], vec![with_value])]);
    list.tree("a function named init in an initializer", 0, 1, vec![inner]);
    list.tree("an initializer returns", 0, 1, vec![class(S, A, None, vec![fun(S, INIT, &[], vec![return_(S, None)])])]);
    let again = class((3, 4), A, Some(name(S, A)), vec![]);
    list.tree("a local class again, from itself", 10, 1, in_block(vec![var(S, A, None), again.clone()]));
    list.tree("a local class from itself", 12, 1, in_block(vec![again]));
    let method = |body| fun((5, 6), B, &[], body);
    let inner = class((3, 4), B, None, vec![method(vec![eval(S, super_((7, 8), A))])]);
    let outer = class((3, 4), A, Some(name(S, B)), vec![method(vec![inner])]);
    list.tree("super in an inner class without superclass", 22, 2, vec![outer]);
    let in_function = vec![fun(S, C, &[], vec![eval(S, super_((7, 8), A)), eval(S, name((7, 8), THIS))])];
    let outer = class((3, 4), A, Some(name(S, B)), vec![method(in_function)]);
    list.tree("super and this captured from a method", 0, 3, vec![outer]);
    let param = fun(S, B, &[THIS], vec![]);
    list.tree("a method's parameter named this", 10, 2, vec![class(S, A, None, vec![param])]);
    let later = vec![print(S, nil()), return_((3, 4), None)];
    let tree = tree(0, later).bytes();
    list.case("a later error comes before 31", 20, Case { output: 0, ..Case::plenty(tree) });
    list.tree("an empty function gets its return", 0, 1, vec![fun(S, A, &[], vec![])]);
    list.tree("return outside, with a bad value", 20, 0, vec![return_((3, 4), Some(name(S, THIS)))]);
}
