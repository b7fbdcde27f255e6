//! An image checker, from document 01's section on it. It shares nothing with the image writer.

use std::collections::HashSet;

const MOST_BITS: u64 = 0x7FF0_0000_0000_0000;

#[derive(Clone, Copy, Debug, Eq, Hash, PartialEq)]
pub enum Constant {
    Number(u64),
    Text(u16),
    Function(u32),
}

#[derive(Clone, Copy, Debug, Eq, PartialEq)]
pub struct Run {
    pub start: u32,
    pub end: u32,
    pub count: u8,
}

#[derive(Clone, Debug, Eq, PartialEq)]
pub struct Function {
    pub name: u16,
    pub arity: u8,
    pub upvalues: u16,
    pub constants: Vec<Constant>,
    pub runs: Vec<Run>,
    pub code: Vec<u8>,
}

/// What follows an opcode.
#[derive(Clone, Copy, PartialEq)]
enum Form {
    Plain,
    /// A slot or a number of arguments: any byte.
    Byte,
    Upvalue,
    /// A constant that is a number or a string.
    Value,
    /// A constant that is a string.
    Text,
    /// A string, and a number of arguments.
    Invoke,
    Ahead,
    Back,
    Closure,
}

fn form(opcode: u8) -> Option<Form> {
    Some(match opcode {
        0 => Form::Value,
        1..=4 | 15..=27 | 35 | 36 | 38 => Form::Plain,
        5 | 6 | 31 => Form::Byte,
        7..=9 | 12..=14 | 37 | 39 => Form::Text,
        10 | 11 => Form::Upvalue,
        28 | 29 => Form::Ahead,
        30 => Form::Back,
        32 | 33 => Form::Invoke,
        34 => Form::Closure,
        _ => return None,
    })
}

pub struct Instruction<'a> {
    pub at: usize,
    pub opcode: u8,
    pub operands: &'a [u8],
}

struct Bytes<'a>(&'a [u8]);

impl<'a> Bytes<'a> {
    fn take(&mut self, count: usize) -> Option<&'a [u8]> {
        let (bytes, rest) = self.0.split_at_checked(count)?;
        self.0 = rest;
        Some(bytes)
    }

    fn array<const N: usize>(&mut self) -> Option<[u8; N]> {
        self.take(N).map(|bytes| bytes.try_into().unwrap())
    }

    fn mark(&mut self, mark: &[u8; 2]) -> Option<()> {
        (self.take(2)? == mark).then_some(())
    }

    fn u8(&mut self) -> Option<u8> {
        self.array().map(u8::from_le_bytes)
    }

    fn u16(&mut self) -> Option<u16> {
        self.array().map(u16::from_le_bytes)
    }

    fn u32(&mut self) -> Option<u32> {
        self.array().map(u32::from_le_bytes)
    }

    fn u64(&mut self) -> Option<u64> {
        self.array().map(u64::from_le_bytes)
    }
}

/// What stands where in an image: its functions with the place of each one's mark, and the directory's place where there
/// is one.
pub struct Layout {
    pub functions: Vec<Function>,
    pub places: Vec<usize>,
    pub directory: Option<usize>,
}

/// The parts of bytes that have the image form to the last byte.
pub fn layout(image: &[u8]) -> Option<Layout> {
    let mut bytes = Bytes(image);
    bytes.mark(b"IM")?;
    let count = bytes.u32()?;
    let (mut functions, mut places) = (vec![], vec![]);
    for _ in 0..count {
        places.push(image.len() - bytes.0.len());
        functions.push(function(&mut bytes)?);
    }
    let behind = image.len() - bytes.0.len();
    let directory = (behind < image.len()).then_some(behind);
    if directory.is_some() {
        offsets(&mut bytes, &places)?;
    }
    (count > 0 && bytes.0.is_empty()).then_some(Layout { functions, places, directory })
}

/// The directory: how many functions there are, and where the mark of each one stands.
fn offsets(bytes: &mut Bytes, places: &[usize]) -> Option<()> {
    bytes.mark(b"DX")?;
    if u64::from(bytes.u32()?) != places.len() as u64 {
        return None;
    }
    places.iter().try_for_each(|&place| (u64::from(bytes.u32()?) == place as u64).then_some(()))
}

/// The functions of bytes that have the image form to the last byte.
pub fn read(image: &[u8]) -> Option<Vec<Function>> {
    layout(image).map(|layout| layout.functions)
}

fn function(bytes: &mut Bytes) -> Option<Function> {
    bytes.mark(b"FN")?;
    let name = bytes.u16()?;
    let arity = bytes.u8()?;
    let upvalues = bytes.u16()?;
    let constants = bytes.u16()?;
    let runs = bytes.u32()?;
    let code = bytes.u32()?;
    let constants = (0..constants).map(|_| constant(bytes)).collect::<Option<_>>()?;
    let runs = (0..runs).map(|_| run(bytes)).collect::<Option<_>>()?;
    bytes.mark(b"CD")?;
    let code = bytes.take(code as usize)?.to_vec();
    Some(Function { name, arity, upvalues, constants, runs, code })
}

fn constant(bytes: &mut Bytes) -> Option<Constant> {
    match bytes.take(2)? {
        b"CN" => bytes.u64().filter(|&bits| bits <= MOST_BITS).map(Constant::Number),
        b"CS" => bytes.u16().map(Constant::Text),
        b"CF" => bytes.u32().map(Constant::Function),
        _ => None,
    }
}

fn run(bytes: &mut Bytes) -> Option<Run> {
    bytes.mark(b"RU")?;
    Some(Run { start: bytes.u32()?, end: bytes.u32()?, count: bytes.u8()? })
}

impl Function {
    /// The code as instructions, from its first byte to its last. `earlier` are the functions before this one.
    pub fn division(&self, earlier: &[Function]) -> Option<Vec<Instruction<'_>>> {
        let mut instructions = vec![];
        let mut at = 0;
        while at < self.code.len() {
            let operands = &self.code[at + 1..];
            let size = self.size(form(self.code[at])?, operands, earlier)?;
            instructions.push(Instruction { at, opcode: self.code[at], operands: operands.get(..size)? });
            at += 1 + size;
        }
        Some(instructions)
    }

    fn size(&self, form: Form, operands: &[u8], earlier: &[Function]) -> Option<usize> {
        Some(match form {
            Form::Plain => 0,
            Form::Byte | Form::Upvalue | Form::Value | Form::Text => 1,
            Form::Invoke | Form::Ahead | Form::Back => 2,
            Form::Closure => {
                let number = self.closed(*operands.first()?)?;
                1 + 2 * usize::from(earlier.get(number as usize)?.upvalues)
            }
        })
    }

    /// The number of the function that a constant names.
    fn closed(&self, place: u8) -> Option<u32> {
        match self.constants.get(usize::from(place))? {
            Constant::Function(number) => Some(*number),
            _ => None,
        }
    }

    fn runs_hold(&self) -> bool {
        let total: u64 = self.runs.iter().map(|run| u64::from(run.count)).sum();
        let apart = |pair: &[Run]| {
            let same = (pair[0].start, pair[0].end) == (pair[1].start, pair[1].end);
            !same || pair[0].count == 255
        };
        self.runs.iter().all(|run| run.count > 0) && self.runs.windows(2).all(apart) && total == self.code.len() as u64
    }

    fn constants_hold(&self, number: usize) -> bool {
        let mut seen = HashSet::new();
        self.constants.iter().all(|constant| {
            let is_earlier = match constant {
                Constant::Function(named) => (*named as usize) < number,
                _ => true,
            };
            is_earlier && seen.insert(constant)
        })
    }

    fn instruction_holds(&self, instruction: &Instruction, starts: &[bool]) -> bool {
        let Instruction { at, opcode, operands } = *instruction;
        let constant = |place: u8| self.constants.get(usize::from(place));
        let distance = || usize::from(u16::from_le_bytes([operands[0], operands[1]]));
        match form(opcode) {
            None => false,
            Some(Form::Plain | Form::Byte) => true,
            Some(Form::Upvalue) => u16::from(operands[0]) < self.upvalues,
            Some(Form::Value) => matches!(constant(operands[0]), Some(Constant::Number(_) | Constant::Text(_))),
            Some(Form::Text | Form::Invoke) => matches!(constant(operands[0]), Some(Constant::Text(_))),
            Some(Form::Ahead) => {
                let target = at + 3 + distance();
                target == self.code.len() || starts.get(target) == Some(&true)
            }
            Some(Form::Back) => {
                (at + 3).checked_sub(distance()).is_some_and(|target| starts.get(target) == Some(&true))
            }
            Some(Form::Closure) => operands[1..].chunks(2).all(|pair| match pair[0] {
                0 => u16::from(pair[1]) < self.upvalues,
                1 => true,
                _ => false,
            }),
        }
    }

    /// Each function constant is named by one CLOSURE.
    fn closures_hold(&self, instructions: &[Instruction]) -> bool {
        let mut named: Vec<usize> = vec![0; self.constants.len()];
        for instruction in instructions {
            if form(instruction.opcode) == Some(Form::Closure) {
                named[usize::from(instruction.operands[0])] += 1;
            }
        }
        let mut both = self.constants.iter().zip(named);
        both.all(|(constant, named)| named == usize::from(matches!(constant, Constant::Function(_))))
    }
}

/// Each function but the last is named by one constant.
fn named_once(functions: &[Function]) -> bool {
    let mut named = vec![0; functions.len()];
    for constant in functions.iter().flat_map(|function| &function.constants) {
        if let Constant::Function(number) = constant {
            named[*number as usize] += 1;
        }
    }
    named[..functions.len() - 1].iter().all(|&count| count == 1)
}

/// The opcodes of all instructions, of an image that the checker accepts. Their number is what it reports.
pub fn check(image: &[u8]) -> Option<Vec<u8>> {
    let functions = read(image)?;
    let mut opcodes = vec![];
    for (number, function) in functions.iter().enumerate() {
        if !function.runs_hold() || !function.constants_hold(number) {
            return None;
        }
        let instructions = function.division(&functions[..number])?;
        let mut starts = vec![false; function.code.len()];
        instructions.iter().for_each(|instruction| starts[instruction.at] = true);
        if !instructions.iter().all(|instruction| function.instruction_holds(instruction, &starts))
            || !function.closures_hold(&instructions)
        {
            return None;
        }
        opcodes.extend(instructions.iter().map(|instruction| instruction.opcode));
    }
    named_once(&functions).then_some(opcodes)
}

/// The most code bytes that were open at once while a compiler made this image, read off the image: where a CLOSURE
/// stands, the function that it names was open above the code before it.
pub fn peak(image: &[u8]) -> Option<usize> {
    let functions = read(image)?;
    let mut peaks: Vec<usize> = vec![];
    for (number, function) in functions.iter().enumerate() {
        let mut peak = function.code.len();
        for instruction in function.division(&functions[..number])? {
            if form(instruction.opcode) == Some(Form::Closure) {
                let named = function.closed(instruction.operands[0])?;
                peak = peak.max(instruction.at + peaks[named as usize]);
            }
        }
        peaks.push(peak);
    }
    peaks.last().copied()
}

/// The name of the function whose byte was the first to go past so many open ones while a compiler made this image, and how many
/// functions were open around it, read off the image; none where all fit.
pub fn first_past(image: &[u8], limit: usize) -> Option<(u16, u32)> {
    let functions = read(image)?;
    past(&functions, functions.len().checked_sub(1)?, limit, 0)
}

fn past(functions: &[Function], number: usize, limit: usize, around: u32) -> Option<(u16, u32)> {
    let function = &functions[number];
    let own = (function.name, around);
    let division = function.division(&functions[..number])?;
    for instruction in division.iter().filter(|instruction| form(instruction.opcode) == Some(Form::Closure)) {
        if instruction.at > limit {
            return Some(own);
        }
        let named = function.closed(instruction.operands[0])? as usize;
        let inner = past(functions, named, limit - instruction.at, around + 1);
        if inner.is_some() {
            return inner;
        }
    }
    (function.code.len() > limit).then_some(own)
}
