//! The committed vectors, and what they cover.

use std::collections::{BTreeMap, BTreeSet};
use std::fs;
use std::io;
use std::path::Path;

use crate::answer::answer;
use crate::checker;
use crate::directory;
use crate::files::{Answer, Case};
use crate::images;
use crate::kinds::{full, generate};
use crate::limits::{limits, Limit};
use crate::pack::{pack_cases, pack_full, pack_images, Checked};
use crate::print_places;
use crate::replay;
use crate::within::{within, Within};

const SEED: u64 = 20_301;
const NUMBERS: [u32; 21] = [0, 2, 3, 4, 5, 10, 11, 12, 13, 14, 15, 16, 17, 18, 19, 20, 21, 22, 23, 30, 31];
const MARKS: usize = 19;
const OPCODES: u8 = 40;

type Answered = (Case, Answer);

fn answered(cases: Vec<Case>) -> Vec<Answered> {
    cases.into_iter().map(|case| (case.clone(), answer(&case))).collect()
}

fn made(kind: &str, seed: u64, count: usize, most: usize) -> Vec<Answered> {
    answered(generate(kind, seed, count, most).expect("a known kind"))
}

/// The first so many of each answer number that is asked for.
fn first_of_each(cases: Vec<Answered>, count: impl Fn(u32) -> usize) -> Vec<Answered> {
    let mut taken: BTreeMap<u32, usize> = BTreeMap::new();
    let mut take = |number| {
        let taken = taken.entry(number).or_insert(0);
        *taken += 1;
        *taken <= count(number)
    };
    cases.into_iter().filter(|(_, answer)| take(answer.number)).collect()
}

/// Trees for a reader. Every eleventh truncation and every 1,801st change of a byte: both strides are prime, so that
/// they do not keep step with the records.
fn tree_cases(limits: &[(Limit, Answer)]) -> Vec<Answered> {
    let mut cases = made("truncated", 11, usize::MAX, usize::MAX);
    cases.extend(made("flipped", 1_801, usize::MAX, usize::MAX));
    let damaged = made("damaged", SEED, 6_000, 400);
    cases.extend(first_of_each(damaged, |number| if number == 3 { 160 } else { 4 }));
    let random = made("random", SEED + 1, 6_000, 500);
    cases.extend(first_of_each(random, |number| if number == 5 { 8 } else { 3 }));
    cases.extend(of_limits(limits, |number| (2..=5).contains(&number), 2));
    cases
}

/// Trees for the compiler: random ones, and budgets.
fn compile_cases(limits: &[(Limit, Answer)]) -> Vec<Answered> {
    let mut cases = made("small", 1_999, 120, usize::MAX);
    let random = made("random", SEED + 2, 20_000, 700);
    cases.extend(first_of_each(random, |number| if number == 0 { 45 } else { 10 }));
    let large = made("random", SEED + 3, 2_000, 6_000).into_iter().filter(|(case, _)| case.tree.len() > 2_500);
    cases.extend(first_of_each(large.collect(), |number| if number == 0 { 3 } else { 1 }));
    let budget = made("budget", SEED + 4, 2_000, 320);
    cases.extend(first_of_each(budget, |number| if number >= 30 || number == 0 { 32 } else { 4 }));
    cases.extend(of_limits(limits, |number| (13..=18).contains(&number), 2));
    cases
}

/// The compiler with every option: small and random trees, and one with many functions.
fn full_cases() -> Vec<Answered> {
    let mut cases = made("small", 4_001, 30, usize::MAX);
    cases.extend(first_of_each(made("random", SEED + 7, 6_000, 500), |number| if number == 0 { 24 } else { 1 }));
    let functions = |image: &[u8]| checker::read(image).map_or(0, |functions| functions.len());
    let large = made("random", SEED + 8, 2_000, 4_000);
    cases.extend(large.into_iter().max_by_key(|(_, answer)| functions(&answer.image)));
    answered(cases.iter().flat_map(|(case, _)| full(case)).collect())
}

/// Refusals of 10 to 30, which say the function that they are in: each row of the request's table, and random ones.
fn refused_cases(rows: &[(Within, Answer)]) -> Vec<Answered> {
    let mut cases: Vec<Answered> = rows.iter().map(|(row, answer)| (row.case.clone(), answer.clone())).collect();
    let random =
        made("refused", SEED + 9, 3_000, 700).into_iter().filter(|(_, answer)| (10..=30).contains(&answer.number));
    cases.extend(first_of_each(random.collect(), |number| if number == 30 { 40 } else { 6 }));
    cases
}

/// The first few limit cases of each answer number.
fn of_limits(limits: &[(Limit, Answer)], wanted: impl Fn(u32) -> bool, count: usize) -> Vec<Answered> {
    let cases = limits.iter().map(|(limit, answer)| (limit.case.clone(), answer.clone())).collect();
    first_of_each(cases, |number| if wanted(number) { count } else { 0 })
}

/// Images for the checker: by hand and random, damaged or not; the limits' images; long jumps, also one byte off.
fn image_cases(limits: &[(Limit, Answer)]) -> Vec<Checked> {
    let accepted: Vec<Vec<u8>> = made("random", SEED + 5, 20_000, 500)
        .into_iter()
        .filter(|(_, answer)| answer.number == 0)
        .map(|(_, answer)| answer.image)
        .collect();
    let mut images = images::images(SEED + 6, 930, 420, &accepted);
    images.extend(images::by_hand().into_iter().chain(directory::like_one()).filter(|image| image.len() > 420));
    for (limit, answer) in limits.iter().filter(|(_, answer)| answer.number == 0) {
        if limit.label.ends_with("65535") {
            images.extend(images::with_moved_jumps(&answer.image));
        } else {
            images.push(answer.image.clone());
        }
    }
    images.into_iter().map(checked).collect()
}

pub fn checked(image: Vec<u8>) -> Checked {
    match checker::check(&image) {
        Some(opcodes) => (image, 0, opcodes.len() as u32),
        None => (image, 40, 0),
    }
}

/// Writes the six files and prints what they cover; an error where something is not covered.
pub fn write(folder: &str) -> io::Result<()> {
    let limits: Vec<(Limit, Answer)> = limits()
        .into_iter()
        .map(|limit| {
            let answer = answer(&limit.case);
            (limit, answer)
        })
        .collect();
    let tree = tree_cases(&limits);
    let compile = compile_cases(&limits);
    let limit = limits.iter().map(|(limit, answer)| (limit.case.clone(), answer.clone())).collect::<Vec<_>>();
    let images = image_cases(&limits);
    let full = full_cases();
    let rows: Vec<(Within, Answer)> = within()
        .into_iter()
        .map(|row| {
            let answer = answer(&row.case);
            (row, answer)
        })
        .collect();
    let refused = refused_cases(&rows);

    fs::create_dir_all(folder)?;
    let files = [
        ("tree", pack_cases(&tree)),
        ("compile", pack_cases(&compile)),
        ("limits", pack_cases(&limit)),
        ("images", pack_images(&images)),
        ("full", pack_full(&full)),
        ("refused", pack_cases(&refused)),
    ];
    for (name, bytes) in &files {
        fs::write(Path::new(folder).join(format!("{name}.pack")), bytes)?;
    }
    let for_reader: Vec<Answered> = tree.iter().chain(&limit).cloned().collect();
    replay::tree_replay(Path::new(folder), &for_reader)?;
    let for_compiler: Vec<Answered> = compile.iter().chain(&limit).cloned().collect();
    let with_options: Vec<Answered> = for_compiler.iter().chain(&full).chain(&refused).cloned().collect();
    replay::compile_replay(Path::new(folder), &with_options)?;
    replay::program(Path::new(folder), &for_compiler)?;
    replay::image_replay(Path::new(folder), &images)?;
    replay::span_replay(Path::new(folder), &images)?;
    replay::lookup_replay(Path::new(folder), &images)?;
    replay::touch_replay(Path::new(folder), &images)?;
    let sizes: Vec<String> = files.iter().map(|(name, bytes)| format!("{name}.pack {}", bytes.len())).collect();
    println!("bytes: {}", sizes.join(", "));
    print_numbers("tree.pack", tree.iter().map(|(_, answer)| answer.number));
    print_numbers("compile.pack", compile.iter().map(|(_, answer)| answer.number));
    print_numbers("limits.pack", limit.iter().map(|(_, answer)| answer.number));
    print_numbers("images.pack", images.iter().map(|(_, number, _)| *number));
    print_numbers("full.pack", full.iter().map(|(_, answer)| answer.number));
    print_numbers("refused.pack", refused.iter().map(|(_, answer)| answer.number));
    print_places(&refused.iter().map(|(_, answer)| answer.clone()).collect::<Vec<_>>());
    let all: Vec<&Answered> = tree.iter().chain(&compile).chain(&limit).collect();
    let complete =
        [covers_numbers(&all), covers_opcodes(&all), covers_marks(&all), covers_limits(&limits), covers_rows(&rows)];
    if complete.contains(&false) {
        return Err(io::Error::other("the vectors do not cover everything"));
    }
    Ok(())
}

fn print_numbers(file: &str, numbers: impl Iterator<Item = u32>) {
    let counts = counted(numbers);
    let total: usize = counts.values().sum();
    println!("{file}: {total} ({})", listed(&counts));
}

fn counted<T: Ord>(items: impl Iterator<Item = T>) -> BTreeMap<T, usize> {
    let mut counts = BTreeMap::new();
    items.for_each(|item| *counts.entry(item).or_insert(0) += 1);
    counts
}

fn listed<T: std::fmt::Display>(counts: &BTreeMap<T, usize>) -> String {
    counts.iter().map(|(item, count)| format!("{item}: {count}")).collect::<Vec<_>>().join(", ")
}

fn covers_numbers(all: &[&Answered]) -> bool {
    let counts = counted(all.iter().map(|(_, answer)| answer.number));
    println!("answer numbers, {} of {}: {}", counts.len(), NUMBERS.len(), listed(&counts));
    NUMBERS.iter().all(|number| counts.contains_key(number))
}

fn covers_opcodes(all: &[&Answered]) -> bool {
    let accepted = all.iter().filter(|(_, answer)| answer.number == 0);
    // What the compiler gives, the checker accepts.
    let opcodes = accepted.flat_map(|(_, answer)| checker::check(&answer.image).expect("a sound image"));
    let counts = counted(opcodes);
    println!("opcodes, {} of {OPCODES}: {}", counts.len(), listed(&counts));
    (0..OPCODES).all(|opcode| counts.contains_key(&opcode))
}

fn covers_marks(all: &[&Answered]) -> bool {
    let marks = all.iter().filter_map(|(case, _)| plain::read(&case.tree).ok()).flatten();
    let counts = counted(marks.map(|mark| String::from_utf8_lossy(&mark).into_owned()));
    println!("record kinds, {} of {MARKS}: {}", counts.len(), listed(&counts));
    counts.len() == MARKS
}

fn covers_limits(limits: &[(Limit, Answer)]) -> bool {
    let mut complete = true;
    println!("limits, {}:", limits.len());
    for (limit, answer) in limits {
        println!("  {}: {}", limit.label, answer.number);
        if answer.number != limit.expected {
            println!("  expected {} there", limit.expected);
            complete = false;
        }
    }
    let labels: BTreeSet<&str> = limits.iter().map(|(limit, _)| limit.label.as_str()).collect();
    complete && labels.len() == limits.len()
}

/// Each row's case has the number, the function and the functions around it that it must have, and no case comes twice.
fn covers_rows(rows: &[(Within, Answer)]) -> bool {
    let mut complete = true;
    for (row, answer) in rows {
        let expected = (row.number, u32::from(row.function), row.around);
        let told = (answer.number, answer.function, answer.around);
        if told != expected {
            println!("{}: {told:?}, expected {expected:?}", row.label);
            complete = false;
        }
    }
    let labels: BTreeSet<&str> = rows.iter().map(|(row, _)| row.label.as_str()).collect();
    println!(
        "functions of refusals, {} cases: {}",
        rows.len(),
        if complete { "as the table has them" } else { "not all" }
    );
    complete && labels.len() == rows.len()
}
