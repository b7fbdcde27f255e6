//! The reader of tree files: answers 2 to 5, or the tree of ast.rs.

use crate::names::{Names, FIXED};
use crate::syntax::ast::*;
use crate::types::Span;
use crate::Refusal;

/// The tree file's limits.
const MOST_BYTES: usize = 1_048_576;
const MOST_NAMES: u16 = 4_096;
const MOST_DEPTH: u32 = 128;
const MOST_OPEN: u32 = 16;
const MOST_BITS: u64 = 0x7FF0_0000_0000_0000;

const INFIX: [OpInfix; 12] = [
    OpInfix::Add,
    OpInfix::Subtract,
    OpInfix::Multiply,
    OpInfix::Divide,
    OpInfix::Less,
    OpInfix::LessEqual,
    OpInfix::Greater,
    OpInfix::GreaterEqual,
    OpInfix::Equal,
    OpInfix::NotEqual,
    OpInfix::LogicAnd,
    OpInfix::LogicOr,
];

fn is_statement(mark: &[u8; 2]) -> bool {
    matches!(mark, b"SB" | b"SC" | b"SE" | b"SF" | b"SI" | b"SO" | b"SP" | b"SR" | b"SV" | b"SW")
}

fn is_expression(mark: &[u8; 2]) -> bool {
    matches!(mark, b"EA" | b"EC" | b"EG" | b"EI" | b"EL" | b"EP" | b"ES" | b"EU" | b"EV")
}

pub struct File {
    pub program: Program,
    pub names: Names,
    /// The marks of statements and expressions, in reading order, where they are asked for.
    pub marks: Vec<[u8; 2]>,
}

type Read<T> = Result<T, Refusal>;

/// Reads a file; with `MARKS`, keeps the marks too.
pub fn read<const MARKS: bool>(bytes: &[u8]) -> Read<File> {
    if bytes.len() > MOST_BYTES {
        return refused(2, 0);
    }
    let mut reader: Reader<MARKS> = Reader { bytes, at: 0, names: Names::new(&[]), marks: vec![] };
    let count = reader.header()?;
    let stmts = (0..count).map(|_| reader.stmt(TOP)).collect::<Read<_>>()?;
    if reader.at < bytes.len() {
        return form(reader.at);
    }
    Ok(File { program: Program { stmts }, names: reader.names, marks: reader.marks })
}

fn form<T>(at: usize) -> Read<T> {
    refused(3, at)
}

/// A refusal at a place of the file. It is in no function: nothing is compiled yet.
fn refused<T>(number: u32, at: usize) -> Read<T> {
    Err([number, at as u32, 0, 0, 0, 0])
}

/// How deep a record stands, and in how many `SF` records.
#[derive(Clone, Copy)]
struct Place {
    depth: u32,
    open: u32,
}

const TOP: Place = Place { depth: 1, open: 0 };

impl Place {
    fn below(self) -> Self {
        Self { depth: self.depth + 1, ..self }
    }

    fn in_function(self) -> Self {
        Self { depth: self.depth + 1, open: self.open + 1 }
    }
}

/// A record whose mark and span were read. A fault in its fields is at its start.
struct Record {
    start: usize,
    mark: [u8; 2],
    span: Span,
}

struct Reader<'a, const MARKS: bool> {
    bytes: &'a [u8],
    at: usize,
    names: Names,
    marks: Vec<[u8; 2]>,
}

impl<const MARKS: bool> Reader<'_, MARKS> {
    /// The next bytes, or 3 at the start of the record that they belong to.
    fn take<const N: usize>(&mut self, start: usize) -> Read<[u8; N]> {
        match self.bytes[self.at..].first_chunk() {
            Some(bytes) => {
                self.at += N;
                Ok(*bytes)
            }
            None => form(start),
        }
    }

    fn u8_to(&mut self, start: usize, most: u8) -> Read<u8> {
        let [byte] = self.take(start)?;
        if byte > most {
            return form(start);
        }
        Ok(byte)
    }

    fn flag(&mut self, start: usize) -> Read<bool> {
        Ok(self.u8_to(start, 1)? == 1)
    }

    fn u16(&mut self, start: usize) -> Read<u16> {
        Ok(u16::from_le_bytes(self.take(start)?))
    }

    fn u32(&mut self, start: usize) -> Read<usize> {
        Ok(u32::from_le_bytes(self.take(start)?) as usize)
    }

    fn bits(&mut self, start: usize) -> Read<u64> {
        let bits = u64::from_le_bytes(self.take(start)?);
        if bits > MOST_BITS {
            return form(start);
        }
        Ok(bits)
    }

    fn name(&mut self, start: usize) -> Read<String> {
        let number = self.u16(start)?;
        self.names.text(number).map_or(form(start), Ok)
    }

    fn var(&mut self, start: usize) -> Read<Var> {
        Ok(Var { name: self.name(start)?, depth: None })
    }

    /// The header and the names; gives the number of statements.
    fn header(&mut self) -> Read<u16> {
        let mark: [u8; 2] = self.take(0)?;
        let names = self.u16(0)?;
        let statements = self.u16(0)?;
        if &mark != b"TR" || names > MOST_NAMES {
            return form(0);
        }
        let mut written: Vec<&[u8]> = vec![];
        for _ in 0..names {
            let start = self.at;
            let mark: [u8; 2] = self.take(start)?;
            let length = usize::from(self.u16(start)?);
            let Some(text) = self.bytes.get(self.at..self.at + length) else { return form(start) };
            self.at += length;
            let rises = written.last().is_none_or(|last| *last < text);
            let is_fixed = FIXED.iter().any(|fixed| fixed.as_bytes() == text);
            if &mark != b"NM" || !rises || is_fixed {
                return form(start);
            }
            written.push(text);
        }
        self.names = Names::new(&written);
        Ok(statements)
    }

    /// Mark, then 4, then 5, then the span.
    fn record(&mut self, may_stand: impl Fn(&[u8; 2]) -> bool, place: Place) -> Read<Record> {
        let start = self.at;
        let mark = self.take(start)?;
        if !may_stand(&mark) {
            return form(start);
        }
        if place.depth > MOST_DEPTH {
            return refused(4, start);
        }
        if &mark == b"SF" && place.open == MOST_OPEN {
            return refused(5, start);
        }
        if MARKS {
            self.marks.push(mark);
        }
        let span = self.u32(start)?..self.u32(start)?;
        Ok(Record { start, mark, span })
    }

    fn stmts(&mut self, count: u16, place: Place) -> Read<Vec<StmtS>> {
        (0..count).map(|_| self.stmt(place)).collect()
    }

    fn stmt_if(&mut self, present: bool, place: Place) -> Read<Option<StmtS>> {
        present.then(|| self.stmt(place)).transpose()
    }

    fn expr_if(&mut self, present: bool, place: Place) -> Read<Option<ExprS>> {
        present.then(|| self.expr(place)).transpose()
    }

    fn stmt(&mut self, place: Place) -> Read<StmtS> {
        let record = self.record(is_statement, place)?;
        let start = record.start;
        let below = place.below();
        let stmt = match &record.mark {
            b"SB" => {
                let count = self.u16(start)?;
                Stmt::Block(StmtBlock { stmts: self.stmts(count, below)? })
            }
            b"SC" => Stmt::Class(self.class(start, below)?),
            b"SE" => Stmt::Expr(StmtExpr { value: self.expr(below)? }),
            b"SF" => Stmt::Fun(self.function(start, place)?),
            b"SI" => {
                let has_else = self.flag(start)?;
                let cond = self.expr(below)?;
                let then = self.stmt(below)?;
                Stmt::If(Box::new(StmtIf { cond, then, else_: self.stmt_if(has_else, below)? }))
            }
            b"SO" => {
                let flags = self.u8_to(start, 7)?;
                let init = self.stmt_if(flags & 1 != 0, below)?;
                let cond = self.expr_if(flags & 2 != 0, below)?;
                let body = self.stmt(below)?;
                Stmt::For(Box::new(StmtFor { init, cond, body, incr: self.expr_if(flags & 4 != 0, below)? }))
            }
            b"SP" => Stmt::Print(StmtPrint { value: self.expr(below)? }),
            b"SR" => {
                let has_value = self.flag(start)?;
                Stmt::Return(StmtReturn { value: self.expr_if(has_value, below)? })
            }
            b"SV" => {
                let var = self.var(start)?;
                let has_value = self.flag(start)?;
                Stmt::Var(StmtVar { var, value: self.expr_if(has_value, below)? })
            }
            _ => {
                let cond = self.expr(below)?;
                Stmt::While(Box::new(StmtWhile { cond, body: self.stmt(below)? }))
            }
        };
        Ok((stmt, record.span))
    }

    fn class(&mut self, start: usize, below: Place) -> Read<StmtClass> {
        let name = self.name(start)?;
        let has_super = self.flag(start)?;
        let count = self.u16(start)?;
        let super_ = has_super.then(|| self.expr_of(|mark| mark == b"EV", below)).transpose()?;
        let methods = (0..count).map(|_| self.method(below)).collect::<Read<_>>()?;
        Ok(StmtClass { name, super_, methods })
    }

    fn method(&mut self, place: Place) -> Read<Spanned<StmtFun>> {
        let record = self.record(|mark| mark == b"SF", place)?;
        Ok((self.function(record.start, place)?, record.span))
    }

    /// What follows an `SF` record's span.
    fn function(&mut self, start: usize, place: Place) -> Read<StmtFun> {
        let name = self.name(start)?;
        let count = self.u16(start)?;
        let params = (0..count).map(|_| self.name(start)).collect::<Read<_>>()?;
        let count = self.u16(start)?;
        let stmts = self.stmts(count, place.in_function())?;
        Ok(StmtFun { name, params, body: StmtBlock { stmts } })
    }

    fn expr(&mut self, place: Place) -> Read<ExprS> {
        self.expr_of(is_expression, place)
    }

    fn expr_of(&mut self, may_stand: impl Fn(&[u8; 2]) -> bool, place: Place) -> Read<ExprS> {
        let record = self.record(may_stand, place)?;
        let start = record.start;
        let below = place.below();
        let expr = match &record.mark {
            b"EA" => {
                let var = self.var(start)?;
                Expr::Assign(Box::new(ExprAssign { var, value: self.expr(below)? }))
            }
            b"EC" => {
                let count = self.u16(start)?;
                let callee = self.expr(below)?;
                let args = (0..count).map(|_| self.expr(below)).collect::<Read<_>>()?;
                Expr::Call(Box::new(ExprCall { callee, args }))
            }
            b"EG" => {
                let name = self.name(start)?;
                Expr::Get(Box::new(ExprGet { object: self.expr(below)?, name }))
            }
            b"EI" => {
                let op = INFIX[usize::from(self.u8_to(start, 11)?)];
                let lt = self.expr(below)?;
                Expr::Infix(Box::new(ExprInfix { lt, op, rt: self.expr(below)? }))
            }
            b"EL" => Expr::Literal(self.literal(start)?),
            b"EP" => {
                let op = if self.flag(start)? { OpPrefix::Not } else { OpPrefix::Negate };
                Expr::Prefix(Box::new(ExprPrefix { op, rt: self.expr(below)? }))
            }
            b"ES" => {
                let name = self.name(start)?;
                let value = self.expr(below)?;
                Expr::Set(Box::new(ExprSet { object: self.expr(below)?, name, value }))
            }
            b"EU" => {
                let super_ = Var { name: "super".to_string(), depth: None };
                Expr::Super(ExprSuper { super_, name: self.name(start)? })
            }
            _ => Expr::Var(ExprVar { var: self.var(start)? }),
        };
        Ok((expr, record.span))
    }

    fn literal(&mut self, start: usize) -> Read<ExprLiteral> {
        Ok(match self.u8_to(start, 4)? {
            0 => ExprLiteral::Bool(false),
            1 => ExprLiteral::Bool(true),
            2 => ExprLiteral::Nil,
            3 => ExprLiteral::Number(f64::from_bits(self.bits(start)?)),
            _ => ExprLiteral::String(self.name(start)?),
        })
    }
}
