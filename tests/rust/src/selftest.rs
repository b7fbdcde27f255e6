//! Checks of this program itself.

use crate::answer::{answer, code_limit, peak};
use crate::checker;
use crate::compare;
use crate::directory;
use crate::examples::{examples, Told, P2_IMAGE};
use crate::files::{Answer, Case, Lookup};
use crate::images;
use crate::kinds::{damaged, generate};
use crate::limits::limits;
use crate::pack::{pack, pack_cases, pack_images, unpack, unpack_cases, unpack_images};
use crate::random::Rng;
use crate::scripts::SCRIPTS;
use crate::vectors::checked;
use crate::within::within;

const RANDOM: usize = 20_000;

pub fn run() {
    examples_hold();
    let limits: Vec<(Case, Answer)> = limits()
        .into_iter()
        .map(|limit| {
            let answer = answer(&limit.case);
            assert_eq!(answer.number, limit.expected, "{}", limit.label);
            (limit.case, answer)
        })
        .collect();
    println!("limits: {} cases have the number that they must have", limits.len());

    let mut cases = generate("random", 1, RANDOM, 3_000).unwrap();
    cases.extend(generate("budget", 2, RANDOM, 1_000).unwrap());
    let mut all: Vec<(Case, Answer)> = cases.into_iter().map(|case| (case.clone(), answer(&case))).collect();
    all.extend(limits);
    peaks_hold(&all);
    images_hold(&all);
    packing_holds(&all);
    directories_hold(&all);
    functions_hold(&all);
    budgets_hold(&all);
    compare::selftest();
    scripts_hold();
}

fn hex(text: &str) -> Vec<u8> {
    let digits: Vec<u8> = text.bytes().filter(u8::is_ascii_hexdigit).collect();
    digits.chunks(2).map(|pair| u8::from_str_radix(std::str::from_utf8(pair).unwrap(), 16).unwrap()).collect()
}

/// P1 to P12 give what document 01 says.
fn examples_hold() {
    for example in examples() {
        let answer = answer(&Case::plenty(example.tree.bytes()));
        match example.told {
            Told::Refused(number) => assert_eq!(answer.number, number, "{}", example.label),
            Told::Codes(codes) => {
                let functions = checker::read(&answer.image).expect("an image");
                let given: Vec<Vec<u8>> = functions.into_iter().map(|function| function.code).collect();
                let told: Vec<Vec<u8>> = codes.iter().map(|code| hex(code)).collect();
                assert_eq!(given, told, "{}", example.label);
            }
        }
    }
    let [p1, p2] = [0, 1].map(|place| Case::plenty(examples()[place].tree.bytes()));
    assert_eq!(p1.tree, hex("54 52 00 00 00 00"));
    assert_eq!(p2.tree.len(), 35);
    assert_eq!(answer(&p2).image, hex(P2_IMAGE));
    assert_eq!(answer(&p2).image.len(), 73);
    let short = answer(&Case { output: 72, ..p2 });
    assert_eq!((short.number, short.length), (31, 73));
    println!("P1 to P12: as in document 01");
}

/// The counted peak is the one read off the image, and is just the code that is needed.
fn peaks_hold(all: &[(Case, Answer)]) {
    let mut accepted = 0;
    for (case, answer) in all.iter().filter(|(_, answer)| answer.number == 0) {
        let counted = peak(&case.tree);
        assert_eq!(Some(counted), checker::peak(&answer.image), "{:02X?}", case.tree);
        assert!(counted <= code_limit(case) as usize);
        accepted += 1;
    }
    let mut full = 0;
    for (case, _) in all.iter().filter(|(_, answer)| answer.number == 30) {
        assert!(peak(&case.tree) > code_limit(case) as usize || peak(&case.tree) == 262_144);
        full += 1;
    }
    println!("code limit: {accepted} accepted images have the counted peak, {full} cases are past the limit");
}

/// The checker accepts what the compiler gives, and its own writer is the image writer's match.
fn images_hold(all: &[(Case, Answer)]) {
    let accepted = all.iter().filter(|(_, answer)| answer.number == 0);
    let mut count = 0;
    for (_, answer) in accepted {
        assert!(checker::check(&answer.image).is_some());
        assert_eq!(images::written(&checker::read(&answer.image).unwrap()), answer.image);
        count += 1;
    }
    println!("checker: accepts {count} images of the compiler");
}

/// A refusal of 10 to 30 says the function that it is in, as the request's table has it; no other answer does.
fn functions_hold(all: &[(Case, Answer)]) {
    const SCRIPT: u32 = 3;
    const MOST_OPEN: u32 = 16;
    let rows = within();
    for row in &rows {
        let told = answer(&row.case);
        let expected = (row.number, u32::from(row.function), row.around);
        assert_eq!((told.number, told.function, told.around), expected, "{}", row.label);
    }
    let mut count = 0;
    let refused = generate("refused", 5, RANDOM, 3_000).unwrap().into_iter().map(|case| answer(&case));
    for told in all.iter().map(|(_, told)| told.clone()).chain(refused) {
        let Answer { number, function, around, .. } = told;
        if (10..=30).contains(&number) {
            assert!(around <= MOST_OPEN && (around > 0 || function == SCRIPT));
            count += 1;
        } else {
            assert_eq!((function, around), (0, 0));
        }
    }
    println!("functions: {} rows are as the table has them, {count} refusals name one", rows.len());
}

/// The function that a 30 is in is the one that the image has for that byte.
fn budgets_hold(all: &[(Case, Answer)]) {
    let mut count = 0;
    for (case, answered) in all.iter().filter(|(_, answer)| answer.number == 0).step_by(5) {
        let need = peak(&case.tree);
        for code in (0..need).step_by(need / 9 + 1) {
            let told = answer(&Case { code: code as u32, ..Case::plenty(case.tree.clone()) });
            let (function, around) = checker::first_past(&answered.image, code).expect("a budget that is too small");
            assert_eq!((told.number, told.function, told.around), (30, function.into(), around), "{:02X?}", case.tree);
            count += 1;
        }
    }
    println!("budgets: {count} are passed in the function that the image has there");
}

/// What is packed comes back.
fn packing_holds(all: &[(Case, Answer)]) {
    assert!(unpack_cases(&pack_cases(all)).unwrap() == all);
    let accepted = all.iter().filter(|(_, answer)| answer.number == 0);
    let images: Vec<Vec<u8>> = accepted.map(|(_, answer)| answer.image.clone()).collect();
    let images: Vec<_> = images::images(3, 2_000, 2_000, &images).into_iter().map(checked).collect();
    assert!(unpack_images(&pack_images(&images)).unwrap() == images);
    let mut rng = Rng::new(4);
    for _ in 0..2_000 {
        let bytes = damaged(&mut rng, 3_000);
        assert!(unpack(&pack(&bytes), bytes.len()).unwrap() == bytes);
    }
    println!("packing: {} cases and {} images come back", all.len(), images.len());
}

/// The scripts to be timed are accepted, small and large.
fn scripts_hold() {
    for (name, make) in SCRIPTS {
        for size in [1_000, 100_000, 1_000_000] {
            assert_eq!(answer(&Case::plenty(make(size))).number, 0, "{name} of {size}");
        }
    }
    println!("scripts: all are accepted");
}

/// An image with a directory is accepted with the same count, and gives the same codes; one whose code only ends like a directory has none.
fn directories_hold(all: &[(Case, Answer)]) {
    let images = all.iter().filter(|(_, answer)| answer.number == 0).map(|(_, answer)| &answer.image);
    let mut looked_up = 0;
    for image in images.clone().step_by(7) {
        let with = directory::with(image);
        assert_eq!(checked(with.clone()).2, checked(image.clone()).2);
        assert_eq!(checker::layout(&with).expect("an image").directory, Some(image.len()));
        for k in directory::numbers(image) {
            let both = [image, &with].map(|image| directory::lookup(&Lookup { k, image: image.clone() }));
            assert_eq!(both[0], both[1]);
            looked_up += 1;
        }
    }
    let like = directory::like_one();
    let have: Vec<bool> =
        like.iter().map(|image| checker::layout(image).expect("an image").directory.is_some()).collect();
    assert!(like.iter().all(|image| checked(image.clone()).1 == 0) && have.chunks(2).all(|pair| pair == [true, false]));
    println!("directories: {looked_up} lookups agree, {} images end like one", like.len() / 2);
}
