//! The kinds of generated cases. Each is the same for the same seed.

use crate::answer::{answer, peak};
use crate::examples;
use crate::files::{Case, DIRECTORY, PLENTY};
use crate::limits;
use crate::random::{nested, random_tree, refused_tree, Rng};
use crate::small::Small;

pub const KINDS: &str = "random damaged small truncated flipped budget refused limits edges";

/// Of so many refused trees, how many for each number. 13 takes some 200,000 bytes; one for 30 gives as many cases as it has code bytes.
const REFUSED: [(u32, usize); 15] = [
    (10, 80),
    (11, 60),
    (12, 60),
    (13, 3),
    (14, 40),
    (15, 50),
    (16, 50),
    (17, 50),
    (18, 40),
    (19, 60),
    (20, 60),
    (21, 60),
    (22, 60),
    (23, 60),
    (30, 8),
];
/// Where a tree for 30 has more code bytes, so many of its budgets are taken.
const BUDGETS: usize = 200;

/// So many cases of a kind, none with a tree longer than `most`; fewer where the kind has no more.
pub fn generate(kind: &str, seed: u64, count: usize, most: usize) -> Option<Vec<Case>> {
    let fits = |case: &Case| case.tree.len() <= most;
    let mut rng = Rng::new(seed);
    // For the kinds that go through a list, the seed is the stride: each seed-th case is taken.
    let stride = usize::try_from(seed).unwrap_or(1).max(1);
    Some(match kind {
        "random" => many(count, fits, || vec![random(&mut rng, most)]),
        "damaged" => many(count, fits, || vec![Case::plenty(damaged(&mut rng, most))]),
        "budget" => many(count, fits, || budget(&mut rng, most)),
        "refused" => many(count, fits, || refused(&mut rng, most)),
        "small" => Small::new().map(Case::plenty).step_by(stride).filter(fits).take(count).collect(),
        "truncated" => truncated().step_by(stride).filter(fits).take(count).collect(),
        "flipped" => flipped().step_by(stride).filter(fits).take(count).collect(),
        "edges" => edges(&mut rng).into_iter().filter(fits).take(count).collect(),
        "limits" => limits::limits().into_iter().map(|limit| limit.case).filter(fits).take(count).collect(),
        _ => return None,
    })
}

fn many(count: usize, fits: impl Fn(&Case) -> bool, mut make: impl FnMut() -> Vec<Case>) -> Vec<Case> {
    let mut cases = vec![];
    while cases.len() < count {
        cases.extend(make().into_iter().filter(&fits));
    }
    cases.truncate(count);
    cases
}

/// A number of records: mostly few; where trees may be long, now and then some hundreds.
fn size(rng: &mut Rng, most: usize) -> usize {
    let long = (most / 14).min(400);
    match rng.below(10) {
        0..=2 => 1 + rng.below(8),
        3..=6 => 1 + rng.below(40.min(long.max(1))),
        7 | 8 => 1 + rng.below(120.min(long.max(1))),
        _ => 1 + rng.below(long.max(1)),
    }
}

fn random(rng: &mut Rng, most: usize) -> Case {
    let records = size(rng, most);
    let tree = random_tree(rng, records);
    let tree = if rng.chance(4) { nested(rng, tree) } else { tree };
    Case::plenty(tree.bytes())
}

const MARKS: [[u8; 2]; 21] = [
    *b"TR", *b"NM", *b"SB", *b"SC", *b"SE", *b"SF", *b"SI", *b"SO", *b"SP", *b"SR", *b"SV", *b"SW", *b"EA", *b"EC",
    *b"EG", *b"EI", *b"EL", *b"EP", *b"ES", *b"EU", *b"EV",
];

/// A random tree, damaged once or a few times.
pub fn damaged(rng: &mut Rng, most: usize) -> Vec<u8> {
    let records = size(rng, most).min(60);
    let (mut tree, starts) = random_tree(rng, records).written();
    let times = rng.pick(&[1, 1, 1, 2, 3]);
    for _ in 0..times {
        damage(rng, &mut tree, &starts);
    }
    tree
}

fn damage(rng: &mut Rng, tree: &mut Vec<u8>, starts: &[usize]) {
    if tree.is_empty() {
        return tree.push(rng.byte());
    }
    let at = rng.below(tree.len());
    // Near the start of a record, where marks, flags and counts stand.
    let start = rng.pick(starts).min(tree.len() - 1);
    let field = (start + rng.pick(&[0, 1, 2, 6, 10, 11, 12, 13, 14])).min(tree.len() - 1);
    match rng.below(12) {
        0 => tree.truncate(at),
        1 => tree.truncate(start + rng.below(14).min(tree.len() - start)),
        2 => tree[at] = rng.byte(),
        3 => tree[field] = rng.pick(&[0, 1, 2, 3, 4, 5, 7, 8, 11, 12, 255]),
        4 => tree[field] = tree[field].wrapping_add(rng.pick(&[1, 255])),
        5 => (0..1 + rng.below(6)).for_each(|_| {
            let at = rng.below(tree.len());
            tree[at] = rng.byte();
        }),
        6 => tree.insert(at, rng.byte()),
        7 => {
            tree.remove(at);
        }
        8 => tree.extend((0..1 + rng.below(12)).map(|_| rng.byte())),
        9 if start + 2 <= tree.len() => tree[start..start + 2].copy_from_slice(&rng.pick(&MARKS)),
        10 => {
            // A record again, somewhere else.
            let end = starts.iter().copied().find(|&next| next > start).unwrap_or(tree.len());
            let piece = tree[start..end.clamp(start, tree.len())].to_vec();
            let place = rng.pick(starts).min(tree.len());
            tree.splice(place..place, piece);
        }
        _ => {
            let other = rng.pick(starts).min(tree.len() - 1);
            if start + 2 <= tree.len() && other + 2 <= tree.len() {
                tree.swap(start, other);
                tree.swap(start + 1, other + 1);
            }
        }
    }
}

/// A case with a directory asked for, alone and among bits that say nothing, with bits that do not ask for it, and with an
/// output just below, at and above what the image then needs.
pub fn full(case: &Case) -> Vec<Case> {
    let asked = |options| Case { options, ..case.clone() };
    let mut cases: Vec<Case> = [0, 2, 0xFFFF_FFF8, 0xFFFF_FFFA].map(asked).to_vec();
    let plenty = answer(&Case { output: PLENTY, ..asked(DIRECTORY) });
    if plenty.number == 0 {
        let room = |output| Case { output, ..asked(DIRECTORY) };
        cases.extend([plenty.length - 1, plenty.length, plenty.length + 1].map(room));
    }
    cases
}

/// Every truncation of the small trees.
fn truncated() -> impl Iterator<Item = Case> {
    examples::small_set().into_iter().flat_map(|tree| {
        let bytes = tree.bytes();
        (0..=bytes.len()).map(move |length| Case::plenty(bytes[..length].to_vec()))
    })
}

/// Every change of one byte of the small trees.
fn flipped() -> impl Iterator<Item = Case> {
    examples::small_set().into_iter().flat_map(|tree| {
        let bytes = tree.bytes();
        (0..bytes.len()).flat_map(move |at| {
            let bytes = bytes.clone();
            (1..=255u8).map(move |by| {
                let mut changed = bytes.clone();
                changed[at] ^= by;
                Case::plenty(changed)
            })
        })
    })
}

/// A random tree with room just below, at and above each of its needs, one at a time and together.
fn budget(rng: &mut Rng, most: usize) -> Vec<Case> {
    let Case { tree, .. } = random(rng, most);
    budgets(rng, tree)
}

/// A tree that is refused on purpose, with the room that it needs until then and more; or one with every budget of code that
/// is too small.
fn refused(rng: &mut Rng, most: usize) -> Vec<Case> {
    let number = one_of(rng, &REFUSED);
    if number == 30 {
        return short_budgets(rng, most);
    }
    let tree = refused_tree(rng, number).bytes();
    let need = peak(&tree) as u32;
    let (code, spans) = match rng.below(4) {
        0 => (PLENTY, PLENTY),
        1 => (need, 3 * need + rng.below(3) as u32),
        2 => (need + rng.below(9) as u32, PLENTY),
        _ => (PLENTY, 3 * need + rng.below(9) as u32),
    };
    let output = rng.pick(&[0, 9, PLENTY]);
    vec![Case { options: rng.pick(&[0, DIRECTORY]), ..Case::lent(code, spans, output, tree) }]
}

/// One item, each as often as its weight says.
fn one_of(rng: &mut Rng, items: &[(u32, usize)]) -> u32 {
    let mut at = rng.below(items.iter().map(|(_, weight)| weight).sum());
    let taken = items.iter().find(|(_, weight)| {
        let is_here = at < *weight;
        at = at.saturating_sub(*weight);
        is_here
    });
    taken.expect("a place below the sum").0
}

/// A tree with each budget of code from none to more than it needs, in code bytes or in span words.
fn short_budgets(rng: &mut Rng, most: usize) -> Vec<Case> {
    let tree = match rng.below(4) {
        0 => random(rng, most.min(600)).tree,
        1 => {
            let number = rng.pick(&[10, 11, 12, 19, 20, 21, 22, 23]);
            refused_tree(rng, number).bytes()
        }
        _ => refused_tree(rng, 30).bytes(),
    };
    let need = peak(&tree);
    let stride = (need / BUDGETS).max(1);
    let first = rng.below(stride);
    (first..need + 2)
        .step_by(stride)
        .map(|code| match rng.below(3) {
            0 => Case::lent(PLENTY, 3 * code as u32 + rng.below(3) as u32, PLENTY, tree.clone()),
            1 => Case::lent(code as u32, 3 * code as u32 + rng.below(9) as u32, 0, tree.clone()),
            _ => Case::lent(code as u32, PLENTY, PLENTY, tree.clone()),
        })
        .collect()
}

/// The limits' trees with room just below, at and above each of their needs.
fn edges(rng: &mut Rng) -> Vec<Case> {
    limits::limits().into_iter().flat_map(|limit| budgets(rng, limit.case.tree)).collect()
}

/// Whether accepted or refused, the need of code is the most that was open until then.
pub fn budgets(rng: &mut Rng, tree: Vec<u8>) -> Vec<Case> {
    let code = peak(&tree) as u32;
    let output = answer(&Case::plenty(tree.clone())).image.len() as u32;
    let lent = |code, spans, output| Case::lent(code, spans, output, tree.clone());
    let mut cases = vec![lent(code, 3 * code, output)];
    if code > 0 {
        cases.push(lent(code - 1, PLENTY, PLENTY));
        cases.push(lent(PLENTY, 3 * code - 1, PLENTY));
        cases.push(lent(code, 3 * code + 2, output + 1));
        cases.push(lent(rng.below(code as usize) as u32, PLENTY, output));
        cases.push(lent(code, rng.below(3 * code as usize) as u32, 0));
    }
    if output > 0 {
        cases.push(lent(code, 3 * code, output - 1));
        cases.push(lent(code - 1, 3 * code, output - 1));
        cases.push(lent(PLENTY, PLENTY, rng.below(output as usize) as u32));
    }
    cases
}
