//! Which instructions of an image name a global, from the text of request M-112.

use crate::checker::{check, read, Constant};
use crate::files::{Answer, Ask};

const GET_GLOBAL: u8 = 7;
const DEFINE_GLOBAL: u8 = 8;
const SET_GLOBAL: u8 = 9;

/// Every instruction of a sound image in order, with its function's number, and whether it names the global.
fn instructions(image: &[u8], name: u16) -> Vec<(usize, usize, bool)> {
    let functions = read(image).expect("a sound image");
    let mut all = vec![];
    for (number, function) in functions.iter().enumerate() {
        for instruction in function.division(&functions[..number]).expect("a sound image") {
            let is_global = matches!(instruction.opcode, GET_GLOBAL | DEFINE_GLOBAL | SET_GLOBAL);
            let names = is_global && function.constants[usize::from(instruction.operands[0])] == Constant::Text(name);
            all.push((number, instruction.at, names));
        }
    }
    all
}

/// The first entry of the full list with the number of instructions up to and including it, or no with all of them; 40.
pub fn touch(ask: &Ask) -> Answer {
    if check(&ask.image).is_none() {
        return Answer { number: 40, ..Answer::default() };
    }
    let all = instructions(&ask.image, ask.name as u16);
    let full: Vec<usize> = (0..all.len()).filter(|&place| all[place].2).collect();
    match full.first() {
        Some(&place) => {
            let (function, at, _) = all[place];
            let (at, name, length) = (at as u32, function as u32, place as u32 + 1);
            Answer { at, end: at + 2, name, length, ..Answer::default() }
        }
        None => Answer { length: all.len() as u32, ..Answer::default() },
    }
}

/// The names that an image is asked for: those of its constants, a few of many, and one that it has not.
pub fn names(image: &[u8]) -> Vec<u32> {
    let functions = read(image).unwrap_or_default();
    let texts = functions.iter().flat_map(|function| &function.constants).filter_map(|constant| match constant {
        Constant::Text(name) => Some(u32::from(*name)),
        _ => None,
    });
    let mut names: Vec<u32> = texts.collect();
    names.sort_unstable();
    names.dedup();
    let step = 1 + names.len() / 6;
    let mut names: Vec<u32> = names.into_iter().step_by(step).collect();
    names.extend([0, 65_535]);
    names
}
