//! Trees to be written as tree files.

pub type Span = (u32, u32);

/// A record: its fields as bytes, and the records below it.
#[derive(Clone)]
pub struct Node {
    mark: &'static str,
    span: Span,
    fields: Vec<u8>,
    below: Vec<Node>,
}

impl Node {
    /// A record as told, sound or not.
    pub fn new(mark: &'static str, span: Span, fields: Vec<u8>, below: Vec<Node>) -> Self {
        Self { mark, span, fields, below }
    }

    /// Writes the record, and notes where it and each record below it starts.
    fn write(&self, out: &mut Vec<u8>, starts: &mut Vec<usize>) {
        starts.push(out.len());
        out.extend(self.mark.bytes());
        out.extend(self.span.0.to_le_bytes());
        out.extend(self.span.1.to_le_bytes());
        out.extend(&self.fields);
        for node in &self.below {
            node.write(out, starts);
        }
    }
}

#[derive(Clone, Default)]
pub struct Tree {
    /// Written names, in rising order.
    pub names: Vec<Vec<u8>>,
    pub stmts: Vec<Node>,
}

impl Tree {
    /// The file, and where its records start: header, names, statements and expressions.
    pub fn written(&self) -> (Vec<u8>, Vec<usize>) {
        let mut out = b"TR".to_vec();
        let mut starts = vec![0];
        out.extend(two(self.names.len()));
        out.extend(two(self.stmts.len()));
        for name in &self.names {
            starts.push(out.len());
            out.extend(b"NM");
            out.extend(two(name.len()));
            out.extend(name);
        }
        for stmt in &self.stmts {
            stmt.write(&mut out, &mut starts);
        }
        (out, starts)
    }

    pub fn bytes(&self) -> Vec<u8> {
        self.written().0
    }
}

/// A tree with the written names a, b, c, .. as numbers 4, 5, 6, ..
pub fn tree(names: usize, stmts: Vec<Node>) -> Tree {
    Tree { names: (0..names).map(|n| vec![b'a' + n as u8]).collect(), stmts }
}

/// Two-byte names in rising order.
pub fn many_names(count: usize) -> Vec<Vec<u8>> {
    (0..count).map(|n| vec![b'0' + (n / 64) as u8, b'0' + (n % 64) as u8]).collect()
}

fn two(number: usize) -> [u8; 2] {
    u16::try_from(number).expect("a count of two bytes").to_le_bytes()
}

fn names(numbers: &[u16]) -> Vec<u8> {
    numbers.iter().flat_map(|number| number.to_le_bytes()).collect()
}

pub fn block(span: Span, stmts: Vec<Node>) -> Node {
    Node::new("SB", span, two(stmts.len()).to_vec(), stmts)
}

pub fn class(span: Span, name: u16, superclass: Option<Node>, methods: Vec<Node>) -> Node {
    let mut fields = names(&[name]);
    fields.push(superclass.is_some().into());
    fields.extend(two(methods.len()));
    Node::new("SC", span, fields, superclass.into_iter().chain(methods).collect())
}

pub fn eval(span: Span, value: Node) -> Node {
    Node::new("SE", span, vec![], vec![value])
}

pub fn fun(span: Span, name: u16, params: &[u16], body: Vec<Node>) -> Node {
    let mut fields = names(&[name]);
    fields.extend(two(params.len()));
    fields.extend(names(params));
    fields.extend(two(body.len()));
    Node::new("SF", span, fields, body)
}

pub fn for_(span: Span, init: Option<Node>, cond: Option<Node>, body: Node, incr: Option<Node>) -> Node {
    let flags = u8::from(init.is_some()) + 2 * u8::from(cond.is_some()) + 4 * u8::from(incr.is_some());
    Node::new("SO", span, vec![flags], init.into_iter().chain(cond).chain([body]).chain(incr).collect())
}

pub fn if_(span: Span, cond: Node, then: Node, else_: Option<Node>) -> Node {
    let fields = vec![else_.is_some().into()];
    Node::new("SI", span, fields, [cond, then].into_iter().chain(else_).collect())
}

pub fn print(span: Span, value: Node) -> Node {
    Node::new("SP", span, vec![], vec![value])
}

pub fn return_(span: Span, value: Option<Node>) -> Node {
    Node::new("SR", span, vec![value.is_some().into()], value.into_iter().collect())
}

pub fn var(span: Span, name: u16, value: Option<Node>) -> Node {
    let mut fields = names(&[name]);
    fields.push(value.is_some().into());
    Node::new("SV", span, fields, value.into_iter().collect())
}

pub fn while_(span: Span, cond: Node, body: Node) -> Node {
    Node::new("SW", span, vec![], vec![cond, body])
}

pub fn assign(span: Span, name: u16, value: Node) -> Node {
    Node::new("EA", span, names(&[name]), vec![value])
}

pub fn call(span: Span, callee: Node, args: Vec<Node>) -> Node {
    let fields = two(args.len()).to_vec();
    Node::new("EC", span, fields, [callee].into_iter().chain(args).collect())
}

pub fn get(span: Span, name: u16, object: Node) -> Node {
    Node::new("EG", span, names(&[name]), vec![object])
}

pub fn infix(span: Span, op: u8, left: Node, right: Node) -> Node {
    Node::new("EI", span, vec![op], vec![left, right])
}

/// 0 false, 1 true, 2 nil.
pub fn word(span: Span, kind: u8) -> Node {
    Node::new("EL", span, vec![kind], vec![])
}

pub fn number(span: Span, bits: u64) -> Node {
    let fields = [3].into_iter().chain(bits.to_le_bytes()).collect();
    Node::new("EL", span, fields, vec![])
}

pub fn string(span: Span, name: u16) -> Node {
    let fields = [4].into_iter().chain(name.to_le_bytes()).collect();
    Node::new("EL", span, fields, vec![])
}

pub fn prefix(span: Span, op: u8, operand: Node) -> Node {
    Node::new("EP", span, vec![op], vec![operand])
}

pub fn set(span: Span, name: u16, value: Node, object: Node) -> Node {
    Node::new("ES", span, names(&[name]), vec![value, object])
}

pub fn super_(span: Span, method: u16) -> Node {
    Node::new("EU", span, names(&[method]), vec![])
}

pub fn name(span: Span, name: u16) -> Node {
    Node::new("EV", span, names(&[name]), vec![])
}
