//! The directory at the end of an image and the lookup of one function, from the text of request M-101.

use crate::checker::{check, layout};
use crate::files::{Answer, Lookup};
use crate::images;
use crate::random::Rng;

/// The image with a directory behind its last function: `DX`, how many functions there are, and the place of each one's mark.
pub fn with(image: &[u8]) -> Vec<u8> {
    let layout = layout(image).expect("an image");
    [image, &record(&layout.places)].concat()
}

fn record(places: &[usize]) -> Vec<u8> {
    let mut out = b"DX".to_vec();
    out.extend((places.len() as u32).to_le_bytes());
    places.iter().for_each(|&place| out.extend((place as u32).to_le_bytes()));
    out
}

/// The code of function k: 0 with its place, its end and its length, and the code itself; 40 or 41.
pub fn lookup(asked: &Lookup) -> Answer {
    let refused = |number| Answer { number, ..Answer::default() };
    if check(&asked.image).is_none() {
        return refused(40);
    }
    let layout = layout(&asked.image).expect("a checked image has the form");
    let k = asked.k as usize;
    let Some(function) = layout.functions.get(k) else { return refused(41) };
    // a record ends with its code: where the next one, the directory or the file's end comes
    let end = layout.places.get(k + 1).copied().or(layout.directory).unwrap_or(asked.image.len());
    let length = function.code.len();
    Answer {
        at: (end - length) as u32,
        end: end as u32,
        length: length as u32,
        image: function.code.clone(),
        ..Answer::default()
    }
}

/// An image with a directory that is sound, or wrong in one of its fields, cut, doubled, or of another image.
pub fn varied(rng: &mut Rng, image: &[u8], other: &[u8]) -> Vec<u8> {
    let places = layout(image).expect("an image").places;
    let mut made = [image, &record(&places)].concat();
    let entry = image.len() + 6 + 4 * rng.below(places.len());
    match rng.below(16) {
        0..=4 => {}
        5 => made[entry + rng.below(4)] = rng.byte(),
        6 => made[entry] = made[entry].wrapping_add(rng.pick(&[1, 255])),
        7 => made[image.len() + 2 + rng.below(4)] = rng.byte(),
        8 => made[image.len() + 2] = made[image.len() + 2].wrapping_add(rng.pick(&[1, 255])),
        9 => made[image.len() + rng.below(2)] = rng.byte(),
        10 => made.truncate(image.len() + rng.below(made.len() - image.len())),
        11 => made.push(rng.byte()),
        12 => made.extend(record(&places)),
        // of one function less or more, with a count that says so
        13 => made = [image, &record(&places[..places.len() - 1])].concat(),
        14 => made = [image, &record(&[&places[..], &[image.len()]].concat())].concat(),
        _ => made = [image, &record(&layout(other).expect("an image").places)].concat(),
    }
    made
}

/// Sound images without a directory whose code ends like one, and the same with a directory behind it. The mark's letters are the operands of an INVOKE, the
/// numbers are instructions.
pub fn like_one() -> Vec<Vec<u8>> {
    let mut images = vec![];
    for count in [5, 6, 12] {
        // CONSTANT 0 or GET_LOCAL y and CONSTANT 0: offsets of 6 and of 5 + 256 y
        let entry = |number: u8| if number == 0 { [6, 0, 0, 0] } else { [5, number, 0, 0] };
        let entries: Vec<u8> = (0..count).flat_map(entry).collect();
        for size in [entries.len(), entries.len() - 4, 0] {
            let end = [&[b'D', b'X', count, 0, 0, 0], &entries[..size]].concat();
            let image = images::ending_in(count, &end);
            images.push(with(&image));
            images.push(image);
        }
    }
    images
}

/// The numbers that an image is asked for: all of a few functions, the ends of many, and past them.
pub fn numbers(image: &[u8]) -> Vec<u32> {
    let count = layout(image).map_or(1, |layout| layout.functions.len() as u32);
    let mut numbers: Vec<u32> =
        if count <= 6 { (0..count).collect() } else { vec![0, 1, count / 2, count - 2, count - 1] };
    numbers.extend([count, count + 1, u32::MAX]);
    numbers
}
