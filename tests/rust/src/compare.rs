//! The port's answers beside the Rust's, over a whole file. Where they differ: the first difference in full, and made
//! as small as it can be.

use std::fs;
use std::io;
use std::path::PathBuf;
use std::process::Command;

use crate::answer::{answer, read, without_function};
use crate::check;
use crate::directory;
use crate::files::{self, Answer, Ask, Case, Lookup};
use crate::print_counts;
use crate::smaller;
use crate::touch;

/// What is compared: how items are handed to the port, how the Rust answers one, and how one is made smaller.
struct Kind<T> {
    flag: Option<&'static str>,
    write: fn(&str, &[T]) -> io::Result<()>,
    read: fn(&str) -> io::Result<Vec<Answer>>,
    rust: fn(&T) -> Answer,
    smaller: fn(&T) -> Vec<T>,
    show: fn(&T) -> String,
}

pub fn images(path: &str, batch: &str) -> io::Result<()> {
    let kind = Kind {
        flag: Some("--images"),
        write: files::write_images,
        read: files::read_answers,
        rust: |image: &Vec<u8>| check(image),
        smaller: |image| smaller::images(image),
        show: |image| hex(image),
    };
    compare(&kind, &files::read_images(path)?, batch)
}

/// One function of each image, through its directory where it has one.
pub fn lookups(path: &str, batch: &str) -> io::Result<()> {
    let kind = Kind {
        flag: Some("--lookup"),
        write: files::write_lookups,
        read: files::read_answers,
        rust: directory::lookup,
        smaller: |asked: &Lookup| {
            smaller::images(&asked.image).into_iter().map(|image| Lookup { image, ..asked.clone() }).collect()
        },
        show: |asked| format!("function {}, image {}", asked.k, hex(&asked.image)),
    };
    compare(&kind, &files::read_lookups(path)?, batch)
}

/// Whether each image touches a global, and where first.
pub fn asks(path: &str, batch: &str) -> io::Result<()> {
    let kind = Kind {
        flag: Some("--touch"),
        write: files::write_asks,
        read: files::read_answers,
        rust: touch::touch,
        smaller: |ask: &Ask| {
            smaller::images(&ask.image).into_iter().map(|image| Ask { image, ..ask.clone() }).collect()
        },
        show: |ask| format!("name {}, image {}", ask.name, hex(&ask.image)),
    };
    compare(&kind, &files::read_asks(path)?, batch)
}

/// Cases with all that can be asked for and lent, and answers with all their fields.
pub fn full(path: &str, batch: &str) -> io::Result<()> {
    let kind = Kind { write: files::write_full, read: files::read_full_answers, ..cases_kind(Some("--full"), answer) };
    compare(&kind, &files::read_full(path)?, batch)
}

pub fn trees(path: &str, batch: &str) -> io::Result<()> {
    compare(&cases_kind(Some("--read"), read), &files::read_cases(path)?, batch)
}

pub fn cases(path: &str, batch: &str) -> io::Result<()> {
    compare(&cases_kind(None, without_function), &files::read_cases(path)?, batch)
}

fn cases_kind(flag: Option<&'static str>, rust: fn(&Case) -> Answer) -> Kind<Case> {
    Kind {
        flag,
        write: files::write_cases,
        read: files::read_answers,
        rust,
        smaller: |case| smaller::trees(&case.tree).into_iter().map(|tree| Case { tree, ..case.clone() }).collect(),
        show: |case| {
            let Case { options, code, spans, output, counts, tree } = case;
            format!(
                "options {options}, code {code}, spans {spans}, output {output}, counts {counts}, tree {}",
                hex(tree)
            )
        },
    }
}

fn compare<T: Clone>(kind: &Kind<T>, items: &[T], batch: &str) -> io::Result<()> {
    let rust: Vec<Answer> = items.iter().map(kind.rust).collect();
    let ours = ours(kind, items, batch)?;
    let differ: Vec<usize> = (0..items.len()).filter(|&place| rust[place] != ours[place]).collect();
    print_counts(&rust);
    let Some(&first) = differ.first() else {
        println!("all agree");
        return Ok(());
    };
    println!("{} differ, the first is number {first}", differ.len());
    shown(kind, &items[first], &ours[first]);
    println!("made smaller:");
    let (item, answer) = shrunk(items[first].clone(), ours[first].clone(), |item| {
        let items = (kind.smaller)(item);
        let ours = self::ours(kind, &items, batch)?;
        Ok(items.into_iter().zip(ours).find(|(item, ours)| (kind.rust)(item) != *ours))
    })?;
    shown(kind, &item, &answer);
    Err(io::Error::other("the two sides differ"))
}

/// Goes on to a smaller item as long as there is one.
fn shrunk<T, A>(item: T, answer: A, mut next: impl FnMut(&T) -> io::Result<Option<(T, A)>>) -> io::Result<(T, A)> {
    let mut best = (item, answer);
    while let Some(smaller) = next(&best.0)? {
        best = smaller;
    }
    Ok(best)
}

/// The port's answers, by a program that takes a file and writes one.
fn ours<T>(kind: &Kind<T>, items: &[T], batch: &str) -> io::Result<Vec<Answer>> {
    let folder: PathBuf = std::env::temp_dir().join(format!("beside-{}", std::process::id()));
    fs::create_dir_all(&folder)?;
    let [input, output] = ["input", "answers"].map(|name| folder.join(name));
    (kind.write)(&input.to_string_lossy(), items)?;
    let status = Command::new(batch).args(kind.flag).args([&input, &output]).status()?;
    if !status.success() {
        return Err(io::Error::other(format!("{batch} ended with {status}; its input is {}", input.display())));
    }
    let answers = (kind.read)(&output.to_string_lossy())?;
    fs::remove_dir_all(&folder)?;
    if answers.len() != items.len() {
        return Err(io::Error::other("as many answers as items are needed"));
    }
    Ok(answers)
}

fn shown<T>(kind: &Kind<T>, item: &T, ours: &Answer) {
    println!("{}", (kind.show)(item));
    for (side, answer) in [("Rust", &(kind.rust)(item)), ("ours", ours)] {
        let Answer { number, at, end, name, length, function, around, image, counts } = answer;
        println!("{side}: number {number}, at {at}, end {end}, name {name}, length {length}, function {function}, around {around}");
        println!("  image {}, counts {counts:?}", hex(image));
    }
}

fn hex(bytes: &[u8]) -> String {
    let digits: String = bytes.iter().map(|byte| format!("{byte:02X}")).collect();
    format!("({} bytes) {digits}", bytes.len())
}

/// Small items that still differ are found: a made-up port that takes a file for something else where it has some mark.
pub fn selftest() {
    use crate::examples::every_kind;
    use crate::images::varied;
    let has = |bytes: &[u8], mark: &[u8]| bytes.windows(mark.len()).any(|part| part == mark);
    let smallest = |item: Vec<u8>, smaller: fn(&[u8]) -> Vec<Vec<u8>>, wrong: &dyn Fn(&[u8]) -> bool| {
        let next = |item: &Vec<u8>| Ok(smaller(item).into_iter().find(|item| wrong(item)).map(|item| (item, ())));
        shrunk(item, (), next).expect("no file is written").0
    };
    let image = smallest(varied(), smaller::images, &|image| check(image).number == 0 && has(image, &[31, 2]));
    // One function, one run, the code 31 2.
    assert_eq!(image.len(), 6 + 17 + 11 + 2 + 2);
    let tree = smallest(every_kind().bytes(), smaller::trees, &|tree| {
        read(&Case::plenty(tree.to_vec())).number == 0 && has(tree, b"EU")
    });
    // The header and the three names up to the one that EU has, a return with a value, and EU.
    assert_eq!(tree.len(), 6 + 3 * 5 + 11 + 12);
    println!("compare: differences are made small");
}
