//! The rules of `examples/`: their text, and the tree that a parser makes of it. Spans are found in the text.

use crate::node::*;

/// A rule that is accepted.
pub const FAN: &str = "\
fun fan(gas) {
  var speed = 1;
  if (gas > 2) speed = 3;
  return speed;
}
print fan(2);
";

/// A rule that is refused: a variable is read inside its own initializer.
pub const REFUSED: &str = "\
fun fan(gas) {
  var speed = speed + gas;
  return speed;
}
";

const NAMES: [&str; 3] = ["fan", "gas", "speed"];
const FAN_NAME: u16 = 4;
const GAS: u16 = 5;
const SPEED: u16 = 6;
const ADD: u8 = 0;
const GREATER: u8 = 6;

/// Where `part` stands in the text: the only place, or the place of the `inner` within it.
fn span(text: &str, part: &str, inner: &str) -> Span {
    let start = text.find(part).expect("the part stands in the text") + part.find(inner).expect("the inner part too");
    (start as u32, (start + inner.len()) as u32)
}

fn file(stmts: Vec<Node>) -> Tree {
    Tree { names: NAMES.iter().map(|name| name.as_bytes().to_vec()).collect(), stmts }
}

pub fn fan() -> Tree {
    let s = |part, inner| span(FAN, part, inner);
    let value = |part, inner, number_: f64| number(s(part, inner), number_.to_bits());
    let first = var(s("var speed = 1;", "var speed = 1;"), SPEED, Some(value("= 1;", "1", 1.0)));
    let test = infix(s("gas > 2", "gas > 2"), GREATER, name(s("gas > 2", "gas"), GAS), value("gas > 2", "2", 2.0));
    let faster = assign(s("speed = 3;", "speed = 3"), SPEED, value("speed = 3;", "3", 3.0));
    let faster = eval(s("speed = 3;", "speed = 3;"), faster);
    let branch = if_(s("if (gas > 2) speed = 3;", "if (gas > 2) speed = 3;"), test, faster, None);
    let last = return_(s("return speed;", "return speed;"), Some(name(s("return speed;", "speed"), SPEED)));
    let whole = (0, FAN.find('}').expect("a function ends") as u32 + 1);
    let called = call(s("fan(2)", "fan(2)"), name(s("fan(2)", "fan"), FAN_NAME), vec![value("fan(2)", "2", 2.0)]);
    file(vec![
        fun(whole, FAN_NAME, &[GAS], vec![first, branch, last]),
        print(s("print fan(2);", "print fan(2);"), called),
    ])
}

pub fn refused() -> Tree {
    let s = |part, inner| span(REFUSED, part, inner);
    let own = name(s("speed + gas", "speed"), SPEED);
    let sum = infix(s("speed + gas", "speed + gas"), ADD, own, name(s("speed + gas", "gas"), GAS));
    let first = var(s("var speed = speed + gas;", "var speed = speed + gas;"), SPEED, Some(sum));
    let last = return_(s("return speed;", "return speed;"), Some(name(s("return speed;", "speed"), SPEED)));
    let whole = (0, REFUSED.find('}').expect("a function ends") as u32 + 1);
    file(vec![fun(whole, FAN_NAME, &[GAS], vec![first, last])])
}
