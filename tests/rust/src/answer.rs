//! The answer to a case, by the published compiler.

use crate::directory;
use crate::files::{Answer, Case, DIRECTORY};

const MOST_CODE: u32 = 262_144;

pub fn code_limit(case: &Case) -> u32 {
    case.code.min(case.spans / 3).min(MOST_CODE)
}

/// The answer by document 01's order: 2, then 3 to 5, then 10 to 30, then 31.
pub fn answer(case: &Case) -> Answer {
    let counted = counted::run(&case.tree, code_limit(case) as usize);
    let past_limit = matches!(counted.image, Err([30, ..]));
    if !past_limit {
        // The counting `Vec` must change nothing else.
        let plain = plain::run(&case.tree, 0);
        assert!(plain.image == counted.image, "the two builds differ on {:02X?}", case.tree);
    }
    let asked = |image: Vec<u8>| if case.options & DIRECTORY == 0 { image } else { directory::with(&image) };
    match counted.image.map(asked) {
        Err(refusal) => refused(refusal),
        Ok(image) if image.len() as u64 > u64::from(case.output) => {
            Answer { number: 31, length: image.len() as u32, ..Answer::default() }
        }
        Ok(image) => Answer { length: image.len() as u32, image, ..Answer::default() },
    }
}

/// The same, with the fields alone that every form of answers has.
pub fn without_function(case: &Case) -> Answer {
    Answer { function: 0, around: 0, ..answer(case) }
}

/// The reader's answer alone: 2 to 5, or 0.
pub fn read(case: &Case) -> Answer {
    plain::read(&case.tree).map_or_else(refused, |_| Answer::default())
}

/// The code bytes that are open at most until a tree is accepted or refused, with no limit but the highest.
pub fn peak(tree: &[u8]) -> usize {
    counted::run(tree, MOST_CODE as usize).peak
}

fn refused([number, at, end, name, function, around]: [u32; 6]) -> Answer {
    Answer { number, at, end, name, function, around, ..Answer::default() }
}
