//! Standard input and expected output of the programs that replay the vectors.

use std::fs;
use std::io;
use std::path::Path;

use crate::answer::{answer, read};
use crate::check;
use crate::checker;
use crate::directory;
use crate::examples::{every_kind, examples};
use crate::files::{put, put_counted, Answer, Ask, Case, Lookup};
use crate::images;
use crate::pack::{pack_full, pack_images, pack_trees, Checked};
use crate::touch;

/// What a program is run on: small files to vary, each with its length before it, then 0, then the packed vectors.
/// What is expected of it: for each file a digest of the answers to every truncation and every change of one byte, and
/// how many vectors there are.
fn replay(files: &[Vec<u8>], packed: &[u8], vectors: usize, answer: impl Fn(Vec<u8>) -> Answer) -> (Vec<u8>, String) {
    let mut input = Vec::new();
    let mut output = String::new();
    for file in files {
        put_counted(&mut input, file);
        let answers: Vec<Answer> = variants(file).into_iter().map(&answer).collect();
        output += &format!("{} bytes, {} variants, digest {}\n", file.len(), answers.len(), digest(&answers));
    }
    output += &format!("{vectors} vectors agree\n");
    put(&mut input, &[0]);
    input.extend(packed);
    (input, output)
}

/// P2's tree, and a tree with every record kind.
pub fn tree_replay(folder: &Path, cases: &[(Case, Answer)]) -> io::Result<()> {
    let p2 = examples().swap_remove(1).tree.bytes();
    let read_tree = |tree| read(&Case::plenty(tree));
    let both = replay(&[p2, every_kind().bytes()], &pack_trees(cases), cases.len(), read_tree);
    write(folder, "tree_replay", both)
}

/// Vectors for the whole compiler, nothing varied.
pub fn compile_replay(folder: &Path, cases: &[(Case, Answer)]) -> io::Result<()> {
    write(folder, "compile_replay", (pack_full(cases), format!("{} vectors agree\n", cases.len())))
}

/// What the program must write: an image, or a refusal's number and a line end.
fn written(answer: &Answer) -> Vec<u8> {
    if answer.number == 0 { answer.image.clone() } else { format!("{}\n", answer.number).into_bytes() }
}

/// The longest tree that the program takes.
const PROGRAM_MOST: usize = 65_536;

/// The answers that such a tree can have. 13 wants 65,536 bytes of code, which no such tree has.
const SHORT: [u32; 17] = [0, 3, 4, 5, 10, 11, 12, 14, 15, 16, 17, 18, 19, 20, 21, 22, 23];

/// P2 as the program's run in the gate; and for its further runs P2, the shortest tree for each answer, and a tree of
/// 65,536 bytes (one long name) with one that is a byte longer.
pub fn program(folder: &Path, cases: &[(Case, Answer)]) -> io::Result<()> {
    let p2 = Case::plenty(examples().swap_remove(1).tree.bytes());
    let mut runs = vec![("P2".to_string(), p2.tree.clone(), written(&answer(&p2)))];
    let plenty = |case: &Case| *case == Case::plenty(case.tree.clone()) && case.tree.len() <= PROGRAM_MOST;
    for number in SHORT {
        let those = cases.iter().filter(|(case, answer)| plenty(case) && answer.number == number);
        let (case, answer) = those.min_by_key(|(case, _)| case.tree.len()).expect("a short tree for each answer");
        runs.push((format!("answer-{number}"), case.tree.clone(), written(answer)));
    }
    let longest = Case::plenty(one_name(PROGRAM_MOST));
    runs.push(("longest".to_string(), longest.tree.clone(), written(&answer(&longest))));
    // Document 01: a longer one is 2 there.
    runs.push(("answer-2".to_string(), one_name(PROGRAM_MOST + 1), b"2\n".to_vec()));
    let of_p2 = runs[0].clone();
    for (name, tree, output) in runs {
        fs::create_dir_all(folder.join("cases"))?;
        fs::write(folder.join("cases").join(format!("{name}.tree")), tree)?;
        fs::write(folder.join("cases").join(format!("{name}.out")), output)?;
    }
    write(folder, "program", (of_p2.1, of_p2.2))
}

/// A script with no statement and one name, so many bytes long.
fn one_name(size: usize) -> Vec<u8> {
    let length = size - 10;
    let mut tree = b"TR\x01\x00\x00\x00NM".to_vec();
    tree.extend((length as u16).to_le_bytes());
    tree.resize(size, b'a');
    tree
}

/// The images of P2, P10 (a loop), P11 (jumps ahead) and P12 (captured variables), one by hand with the rest, and P12's with
/// a directory.
pub fn image_replay(folder: &Path, images: &[Checked]) -> io::Result<()> {
    let examples = examples();
    let compiled = |place: usize| answer(&Case::plenty(examples[place].tree.bytes())).image;
    let mut files: Vec<Vec<u8>> = [1, 9, 10, 11].into_iter().map(compiled).chain([images::varied()]).collect();
    files.push(directory::with(&files[3]));
    assert!(files.iter().all(|image| check(image).number == 0 && image.len() <= 1_024));
    let both = replay(&files, &pack_images(images), images.len(), |image| check(&image));
    write(folder, "image_replay", both)
}

/// Lists of runs, by hand and from images that the checker accepts, and what is at every offset up to two past the end.
pub fn span_replay(folder: &Path, images: &[Checked]) -> io::Result<()> {
    let accepted = images.iter().filter(|(_, number, _)| *number == 0);
    let functions = accepted.flat_map(|(image, ..)| checker::read(image).expect("an accepted image"));
    let small = functions.filter(|function| (3..=200).contains(&function.runs.len())).step_by(2).take(60);
    let words_of = |run: &checker::Run| [run.start, run.end, run.count.into()];
    let compiled = small.map(|function| function.runs.iter().flat_map(words_of).collect());
    // None; a count of 0 between two; words left over; a count above a byte's.
    let by_hand =
        [vec![], vec![1, 2, 1, 3, 4, 0, 5, 6, 2], vec![7, 8, 3, 9], vec![7, 8, 3, 9, 10], vec![1, 1, 700, 2, 2, 1]];
    let (mut input, mut output) = (vec![], String::new());
    for words in by_hand.into_iter().chain(compiled) {
        let spans: Vec<Answer> = words.chunks_exact(3).flat_map(spans_of).collect();
        let missing = Answer { number: 42, ..Answer::default() };
        let answers: Vec<Answer> = spans.into_iter().chain([missing.clone(), missing]).collect();
        put(&mut input, &[words.len() as u32, answers.len() as u32]);
        put(&mut input, &words);
        output += &format!("{} words, {} offsets, digest {}\n", words.len(), answers.len(), span_digest(&answers));
    }
    write(folder, "span_replay", (input, output))
}

/// Images, sound or not, with a directory or without: the functions' codes from 0 to two past the last, through the
/// directory where there is one.
pub fn lookup_replay(folder: &Path, images: &[Checked]) -> io::Result<()> {
    let sample = images.iter().map(|(image, ..)| image.clone()).filter(|image| image.len() <= 500).step_by(9);
    let (mut input, mut output) = (vec![], String::new());
    for image in directory::like_one().into_iter().chain(sample).filter(|image| image.len() <= 1_024) {
        let count = checker::read(&image).map_or(1, |functions| functions.len()) as u32 + 2;
        let answers: Vec<Answer> = (0..count).map(|k| directory::lookup(&Lookup { k, image: image.clone() })).collect();
        put(&mut input, &[count]);
        put_counted(&mut input, &image);
        output += &format!("{} bytes, {count} lookups, digest {}\n", image.len(), span_digest(&answers));
    }
    write(folder, "lookup_replay", (input, output))
}

/// Images, sound or not, with a directory or without: whether each touches the globals 0 to 15, and where first.
pub fn touch_replay(folder: &Path, images: &[Checked]) -> io::Result<()> {
    let sample = images.iter().map(|(image, ..)| image.clone()).filter(|image| image.len() <= 1_024).step_by(7);
    let (mut input, mut output) = (vec![], String::new());
    for image in sample {
        let asked = |name| touch::touch(&Ask { name, image: image.clone() });
        let answers: Vec<Answer> = (0..16).map(asked).collect();
        put(&mut input, &[answers.len() as u32]);
        put_counted(&mut input, &image);
        let sum = answers.iter().flat_map(|a| [a.number, a.at, a.end, a.name, a.length]).fold(0, fold);
        output += &format!("{} bytes, {} names, digest {sum}\n", image.len(), answers.len());
    }
    write(folder, "touch_replay", (input, output))
}

/// A run as the answers to each of its bytes.
fn spans_of(run: &[u32]) -> Vec<Answer> {
    vec![Answer { at: run[0], end: run[1], ..Answer::default() }; run[2] as usize]
}

fn write(folder: &Path, program: &str, (input, output): (Vec<u8>, impl AsRef<[u8]>)) -> io::Result<()> {
    let folder = folder.join(program);
    fs::create_dir_all(&folder)?;
    fs::write(folder.join("stdin"), input)?;
    fs::write(folder.join("stdout"), output)
}

/// Every truncation, the shortest first; then at each place, the first one first, the byte plus 1 to 255.
fn variants(file: &[u8]) -> Vec<Vec<u8>> {
    let cut = (0..file.len()).map(|size| file[..size].to_vec());
    let changed = (0..file.len()).flat_map(|at| {
        (1..=255u8).map(move |more| {
            let mut bytes = file.to_vec();
            bytes[at] = bytes[at].wrapping_add(more);
            bytes
        })
    });
    cut.chain(changed).collect()
}

fn fold(sum: u64, value: u32) -> u64 {
    (sum * 65_599 + u64::from(value)) % 4_294_967_291
}

/// Number, place and count of each answer, folded.
fn digest(answers: &[Answer]) -> u64 {
    answers.iter().flat_map(|answer| [answer.number, answer.at, answer.length]).fold(0, fold)
}

/// Number and span of each answer, folded.
fn span_digest(answers: &[Answer]) -> u64 {
    answers.iter().flat_map(|answer| [answer.number, answer.at, answer.end]).fold(0, fold)
}
