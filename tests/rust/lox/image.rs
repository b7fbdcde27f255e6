//! The image file of a finished script.

use crate::names::Names;
use crate::vm::chunk;
use crate::vm::object::{ObjectFunction, ObjectType};
use crate::vm::value::Value;

enum Constant {
    Number(u64),
    Text(u16),
    Function(u32),
}

struct Writer<'a> {
    names: &'a Names,
    functions: u32,
    out: Vec<u8>,
}

/// The image of a script that the compiler gave. Its collector must still be alive.
pub fn write(script: *mut ObjectFunction, names: &Names) -> Vec<u8> {
    let mut writer = Writer { names, functions: 0, out: vec![] };
    writer.function(unsafe { &*script });
    let mut image = b"IM".to_vec();
    image.extend(writer.functions.to_le_bytes());
    image.extend(writer.out);
    image
}

impl Writer<'_> {
    /// Writes a function after the ones that it holds, which is the order of finishing, and gives its number.
    fn function(&mut self, function: &ObjectFunction) -> u32 {
        let chunk = &function.chunk;
        let constants: Vec<_> = chunk.constants.iter().map(|&value| self.constant(value)).collect();
        let runs = chunk::runs(chunk);

        self.out.extend(b"FN");
        self.out.extend(self.names.number(unsafe { (*function.name).value }).to_le_bytes());
        self.out.push(function.arity);
        self.out.extend(function.upvalue_count.to_le_bytes());
        self.out.extend((constants.len() as u16).to_le_bytes());
        self.out.extend((runs.len() as u32).to_le_bytes());
        self.out.extend((chunk.ops.len() as u32).to_le_bytes());
        for constant in constants {
            self.write_constant(constant);
        }
        for (span, count) in runs {
            self.out.extend(b"RU");
            self.out.extend((span.start as u32).to_le_bytes());
            self.out.extend((span.end as u32).to_le_bytes());
            self.out.push(count);
        }
        self.out.extend(b"CD");
        self.out.extend(chunk.ops.iter());

        self.functions += 1;
        self.functions - 1
    }

    /// What a constant is; a function is written here, where it is met.
    fn constant(&mut self, value: Value) -> Constant {
        if !value.is_object() {
            assert!(value.is_number(), "a constant is a number, a string or a function");
            return Constant::Number(value.as_number().to_bits());
        }
        let object = value.as_object();
        match object.type_() {
            ObjectType::String => Constant::Text(self.names.number(unsafe { (*object.string).value })),
            ObjectType::Function => Constant::Function(self.function(unsafe { &*object.function })),
            other => panic!("the compiler makes no such constant: {other}"),
        }
    }

    fn write_constant(&mut self, constant: Constant) {
        match constant {
            Constant::Number(bits) => {
                self.out.extend(b"CN");
                self.out.extend(bits.to_le_bytes());
            }
            Constant::Text(name) => {
                self.out.extend(b"CS");
                self.out.extend(name.to_le_bytes());
            }
            Constant::Function(number) => {
                self.out.extend(b"CF");
                self.out.extend(number.to_le_bytes());
            }
        }
    }
}
