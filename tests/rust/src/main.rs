//! The published compiler beside the port: makes cases, answers them, checks images. See README.md.

mod answer;
#[cfg(feature = "archive")]
mod bench;
#[cfg(feature = "archive")]
mod bench_compiler;
mod checker;
mod compare;
mod directory;
mod examples;
mod fan;
mod files;
mod images;
mod kinds;
mod limits;
mod node;
mod pack;
mod random;
mod replay;
mod scripts;
mod selftest;
mod small;
mod smaller;
mod touch;
mod vectors;
mod within;

use std::collections::BTreeMap;
use std::env;
use std::fs;
use std::io;
use std::process::ExitCode;

use files::{Answer, Ask, Case, Lookup};

const USAGE: &str = "\
beside answer [--full] CASES ANSWERS  the compiler's answers; with all their fields
beside read CASES ANSWERS             the reader's alone: 2 to 5, or 0
beside check IMAGES ANSWERS           the image checker's answers: 0 with the count, or 40
beside generate [--full] KIND SEED COUNT CASES [MOST]
                                      cases of a kind, with trees of at most MOST bytes; with all their fields
beside images SEED COUNT CASES ANSWERS IMAGES [MOST]
                                      images for the checker, from the accepted ones
beside large IMAGES                   a few large images
beside full CASES FULL                the cases with every option, and at the edges of what the output then needs
beside lookups IMAGES LOOKUPS         the functions of each image that are looked up
beside asks IMAGES ASKS               the globals that each image is asked about
beside compare [--full | --images | --lookup | --read | --touch] FILE BATCH
                                      the port's answers, by a program like tools/batch, beside these; the first
                                      difference in full, and made small
beside pack FULL ANSWERS OUT, beside unpack IN FULL ANSWERS
                                      between a pack and cases and answers with all their fields
beside vectors DIR                    writes the committed vectors and a table of what they cover
beside example DIR                    writes the rules of examples/: text, tree file and, where it is accepted, image
beside selftest";

fn main() -> ExitCode {
    let args: Vec<String> = env::args().skip(1).collect();
    let args: Vec<&str> = args.iter().map(String::as_str).collect();
    match run(&args) {
        Ok(true) => ExitCode::SUCCESS,
        Ok(false) => {
            eprintln!("{USAGE}\nkinds: {}", kinds::KINDS);
            ExitCode::from(2)
        }
        Err(error) => {
            eprintln!("beside: {error}");
            ExitCode::FAILURE
        }
    }
}

/// Runs a command; false where there is no such command.
fn run(args: &[&str]) -> io::Result<bool> {
    match args {
        ["answer", "--full", full, answers] => answer_full(full, answers)?,
        ["answer", cases, answers] => answer_all(cases, answers, answer::without_function)?,
        ["read", cases, answers] => answer_all(cases, answers, answer::read)?,
        ["check", images, answers] => check_all(images, answers)?,
        ["generate", "--full", rest @ ..] => return generate(rest, files::write_full),
        ["generate", rest @ ..] => return generate(rest, files::write_cases),
        ["images", seed, count, cases, answers, images, most @ ..] if most.len() < 2 => {
            let accepted = accepted(cases, answers)?;
            let made = images::images(number(seed)?, number(count)? as usize, most_of(most)?, &accepted);
            files::write_images(images, &made)?;
        }
        ["large", images] => files::write_images(images, &images::large())?,
        ["full", cases, full] => {
            let made: Vec<Case> = files::read_cases(cases)?.iter().flat_map(kinds::full).collect();
            files::write_full(full, &made)?;
        }
        ["lookups", images, lookups] => {
            let numbered = |image: Vec<u8>| {
                let numbers = directory::numbers(&image);
                numbers.into_iter().map(move |k| Lookup { k, image: image.clone() })
            };
            let made: Vec<Lookup> = files::read_images(images)?.into_iter().flat_map(numbered).collect();
            files::write_lookups(lookups, &made)?;
        }
        ["asks", images, asks] => {
            let named = |image: Vec<u8>| {
                let names = touch::names(&image);
                names.into_iter().map(move |name| Ask { name, image: image.clone() })
            };
            let made: Vec<Ask> = files::read_images(images)?.into_iter().flat_map(named).collect();
            files::write_asks(asks, &made)?;
        }
        ["pack", full, answers, out] => {
            let both = paired(files::read_full(full)?, files::read_full_answers(answers)?)?;
            fs::write(out, pack::pack_cases(&both))?;
        }
        ["unpack", packed, full, answers] => {
            let both = pack::unpack_cases(&fs::read(packed)?)?;
            let (made, told): (Vec<Case>, Vec<Answer>) = both.into_iter().unzip();
            files::write_full(full, &made)?;
            files::write_full_answers(answers, &told)?;
        }
        ["compare", cases, batch] => compare::cases(cases, batch)?,
        ["compare", "--read", cases, batch] => compare::trees(cases, batch)?,
        ["compare", "--images", images, batch] => compare::images(images, batch)?,
        ["compare", "--lookup", lookups, batch] => compare::lookups(lookups, batch)?,
        ["compare", "--full", full, batch] => compare::full(full, batch)?,
        ["compare", "--touch", asks, batch] => compare::asks(asks, batch)?,
        ["vectors", folder] => vectors::write(folder)?,
        ["example", folder] => example(folder)?,
        ["selftest"] => selftest::run(),
        #[cfg(feature = "archive")]
        ["bench", "trees"] => bench::trees(),
        #[cfg(feature = "archive")]
        ["bench", "images"] => bench::images(),
        #[cfg(feature = "archive")]
        ["bench", "compile"] => bench_compiler::compile(),
        _ => return Ok(false),
    }
    Ok(true)
}

fn number(text: &str) -> io::Result<u64> {
    text.parse().map_err(|_| io::Error::other(format!("{text} is no number")))
}

fn most_of(args: &[&str]) -> io::Result<usize> {
    args.first().map_or(Ok(usize::MAX), |text| number(text).map(|most| most as usize))
}

/// Cases of a kind into a file; false where there is no such kind.
fn generate(args: &[&str], write: fn(&str, &[Case]) -> io::Result<()>) -> io::Result<bool> {
    let [kind, seed, count, cases, most @ ..] = args else { return Ok(false) };
    if most.len() > 1 {
        return Ok(false);
    }
    let Some(made) = kinds::generate(kind, number(seed)?, number(count)? as usize, most_of(most)?) else {
        return Ok(false);
    };
    write(cases, &made)?;
    Ok(true)
}

fn answer_full(full: &str, answers: &str) -> io::Result<()> {
    let made: Vec<Answer> = files::read_full(full)?.iter().map(answer::answer).collect();
    files::write_full_answers(answers, &made)?;
    print_counts(&made);
    Ok(())
}

fn answer_all(cases: &str, answers: &str, answer: fn(&Case) -> Answer) -> io::Result<()> {
    let made: Vec<Answer> = files::read_cases(cases)?.iter().map(answer).collect();
    files::write_answers(answers, &made)?;
    print_counts(&made);
    Ok(())
}

fn check_all(images: &str, answers: &str) -> io::Result<()> {
    let made: Vec<Answer> = files::read_images(images)?.iter().map(|image| check(image)).collect();
    files::write_answers(answers, &made)?;
    print_counts(&made);
    Ok(())
}

fn check(image: &[u8]) -> Answer {
    match checker::check(image) {
        Some(opcodes) => Answer { length: opcodes.len() as u32, ..Answer::default() },
        None => Answer { number: 40, ..Answer::default() },
    }
}

/// The rules of `examples/`.
fn example(folder: &str) -> io::Result<()> {
    fs::create_dir_all(folder)?;
    for (name, text, tree) in [("fan", fan::FAN, fan::fan()), ("refused", fan::REFUSED, fan::refused())] {
        let case = Case::plenty(tree.bytes());
        fs::write(format!("{folder}/{name}.lox"), text)?;
        fs::write(format!("{folder}/{name}.tree"), &case.tree)?;
        let told = answer::answer(&case);
        let Answer { number, at, end, name: named, function, around, .. } = &told;
        println!("{name}: number {number}, at {at}, end {end}, name {named}, function {function}, around {around}");
        if told.number == 0 {
            fs::write(format!("{folder}/{name}.image"), &told.image)?;
        }
    }
    Ok(())
}

fn paired(cases: Vec<Case>, answers: Vec<Answer>) -> io::Result<Vec<(Case, Answer)>> {
    if cases.len() != answers.len() {
        return Err(io::Error::other("as many answers as cases are needed"));
    }
    Ok(cases.into_iter().zip(answers).collect())
}

/// The images of a case file's answers.
fn accepted(cases: &str, answers: &str) -> io::Result<Vec<Vec<u8>>> {
    let both = paired(files::read_cases(cases)?, files::read_answers(answers)?)?;
    Ok(both.into_iter().filter(|(_, answer)| answer.number == 0).map(|(_, answer)| answer.image).collect())
}

fn print_counts(answers: &[Answer]) {
    let mut counts = BTreeMap::new();
    for answer in answers {
        *counts.entry(answer.number).or_insert(0) += 1;
    }
    let counts: Vec<String> = counts.iter().map(|(number, count)| format!("{number}: {count}")).collect();
    println!("{} answers; {}", answers.len(), counts.join(", "));
    print_places(answers);
}

/// For each number that says which function it is in: how many are in the script, how many one deep, two deep and deeper.
fn print_places(answers: &[Answer]) {
    let mut places: BTreeMap<u32, [usize; 4]> = BTreeMap::new();
    for answer in answers.iter().filter(|answer| answer.function > 0 || answer.around > 0) {
        places.entry(answer.number).or_default()[answer.around.min(3) as usize] += 1;
    }
    if !places.is_empty() {
        let places: Vec<String> =
            places.iter().map(|(number, [a, b, c, d])| format!("{number}: {a}/{b}/{c}/{d}")).collect();
        println!("in the script / 1 / 2 / more deep; {}", places.join(", "));
    }
}
