//! Images for the checker: sound ones, and ones damaged as bytes or as functions.

use crate::checker::{read, Constant, Function, Run};
use crate::directory;
use crate::random::Rng;

const MOST_BITS: u64 = 0x7FF0_0000_0000_0000;
/// Where the counts of a function stand behind its mark: upvalues, constants, runs, code.
const COUNTS: [usize; 4] = [5, 7, 9, 13];

/// So many images, none longer than `most`, made from accepted ones.
pub fn images(seed: u64, count: usize, most: usize, accepted: &[Vec<u8>]) -> Vec<Vec<u8>> {
    let mut rng = Rng::new(seed);
    let accepted: Vec<&Vec<u8>> = accepted.iter().filter(|image| image.len() <= most).collect();
    let by_hand = by_hand().into_iter().chain(directory::like_one());
    let mut images: Vec<Vec<u8>> = by_hand.filter(|image| image.len() <= most).collect();
    while images.len() < count && !accepted.is_empty() {
        let image = rng.pick(&accepted);
        let made = match rng.below(16) {
            0..=2 => image.clone(),
            3..=5 => damaged_bytes(&mut rng, image),
            6..=9 => damaged_functions(&mut rng, image),
            10 => damaged_bytes(&mut rng, &directory::with(image)),
            _ => {
                let other = rng.pick(&accepted);
                directory::varied(&mut rng, image, other)
            }
        };
        if made.len() <= most {
            images.push(made);
        }
    }
    images.truncate(count);
    images
}

/// The image file of functions, sound or not.
pub fn written(functions: &[Function]) -> Vec<u8> {
    let mut out = b"IM".to_vec();
    out.extend((functions.len() as u32).to_le_bytes());
    for function in functions {
        out.extend(b"FN");
        out.extend(function.name.to_le_bytes());
        out.push(function.arity);
        out.extend(function.upvalues.to_le_bytes());
        out.extend((function.constants.len() as u16).to_le_bytes());
        out.extend((function.runs.len() as u32).to_le_bytes());
        out.extend((function.code.len() as u32).to_le_bytes());
        for constant in &function.constants {
            match constant {
                Constant::Number(bits) => out.extend([&b"CN"[..], &bits.to_le_bytes()].concat()),
                Constant::Text(name) => out.extend([&b"CS"[..], &name.to_le_bytes()].concat()),
                Constant::Function(number) => out.extend([&b"CF"[..], &number.to_le_bytes()].concat()),
            }
        }
        for run in &function.runs {
            out.extend(b"RU");
            out.extend(run.start.to_le_bytes());
            out.extend(run.end.to_le_bytes());
            out.push(run.count);
        }
        out.extend(b"CD");
        out.extend(&function.code);
    }
    out
}

fn damaged_bytes(rng: &mut Rng, image: &[u8]) -> Vec<u8> {
    let mut image = image.to_vec();
    let at = rng.below(image.len());
    match rng.below(8) {
        0 => image.truncate(at),
        1 => image[at] = rng.byte(),
        2 => image[at] = image[at].wrapping_add(rng.pick(&[1, 255])),
        3 => image.insert(at, rng.byte()),
        4 => {
            image.remove(at);
        }
        5 => image.push(rng.byte()),
        6 => (0..2 + rng.below(4)).for_each(|_| {
            let at = rng.below(image.len());
            image[at] = rng.byte();
        }),
        _ => {
            let marks: Vec<usize> = (0..image.len()).filter(|&at| image[at..].starts_with(b"FN")).collect();
            let place = if rng.chance(20) { 2 } else { rng.pick(&marks) + rng.pick(&COUNTS) };
            if place < image.len() {
                image[place] = image[place].wrapping_add(rng.pick(&[1, 2, 254, 255]));
            }
        }
    }
    image
}

fn damaged_functions(rng: &mut Rng, image: &[u8]) -> Vec<u8> {
    let mut functions = read(image).expect("an accepted image has the form");
    for _ in 0..rng.pick(&[1, 1, 1, 2]) {
        damage(rng, &mut functions);
    }
    written(&functions)
}

fn damage(rng: &mut Rng, functions: &mut Vec<Function>) {
    let count = functions.len();
    let number = rng.below(count);
    match rng.below(20) {
        0 => functions.swap(number, rng.below(count)),
        1 => {
            let copy = functions[number].clone();
            functions.insert(rng.below(count + 1), copy);
        }
        2 if count > 1 => {
            functions.remove(number);
        }
        3 => functions[number].upvalues = functions[number].upvalues.wrapping_add(rng.pick(&[1, 2, 65535, 300])),
        4 => {
            functions[number].name = rng.next() as u16;
            functions[number].arity = rng.byte();
        }
        5..=8 => damage_constants(rng, &mut functions[number], count),
        9..=11 => damage_runs(rng, &mut functions[number]),
        12 => add_instruction(rng, functions, number),
        _ => damage_code(rng, functions, number),
    }
}

fn damage_constants(rng: &mut Rng, function: &mut Function, functions: usize) {
    let constants = &mut function.constants;
    let number = rng.below(functions + 1) as u32;
    let fresh = match rng.below(6) {
        0 => Constant::Number(rng.pick(&[0, 1, MOST_BITS - 1, MOST_BITS, MOST_BITS + 1, u64::MAX, 1 << 63])),
        1 => Constant::Number(rng.next() >> 1),
        2 | 3 => Constant::Text(rng.next() as u16),
        _ => Constant::Function(number),
    };
    if constants.is_empty() || rng.chance(25) {
        return constants.push(fresh);
    }
    let place = rng.below(constants.len());
    let other = rng.below(constants.len());
    match rng.below(6) {
        0 => constants.push(constants[place]),
        1 => constants.swap(place, other),
        2 => {
            constants.remove(place);
        }
        3 => constants.insert(place, fresh),
        4 => constants[place] = constants[other],
        _ => constants[place] = fresh,
    }
}

fn damage_runs(rng: &mut Rng, function: &mut Function) {
    let runs = &mut function.runs;
    if runs.is_empty() {
        return runs.push(Run { start: 0, end: 0, count: rng.pick(&[0, 1]) });
    }
    let place = rng.below(runs.len());
    let other = rng.below(runs.len());
    let by = rng.pick(&[1, 255]);
    match rng.below(8) {
        0 => runs[place].count = runs[place].count.wrapping_add(by),
        1 => runs[place].start = runs[other].start,
        2 => runs.swap(place, other),
        3 => runs[place].end ^= 1 << rng.below(32),
        4 => {
            // The same bytes in two runs of one span.
            let half = runs[place].count / 2;
            let other = Run { count: half, ..runs[place] };
            runs[place].count -= half;
            runs.insert(place, other);
        }
        5 => {
            // A byte moves from one run to another.
            runs[place].count = runs[place].count.wrapping_sub(1);
            runs[other].count = runs[other].count.wrapping_add(1);
        }
        6 => runs.insert(place, Run { count: rng.pick(&[0, 0, 1]), ..runs[place] }),
        _ => {
            let span = (runs[place].start, runs[place].end);
            let other = (place + 1) % runs.len();
            (runs[other].start, runs[other].end) = span;
        }
    }
}

/// An instruction more at the end, and its bytes in the last run.
fn add_instruction(rng: &mut Rng, functions: &mut [Function], number: usize) {
    let function = &mut functions[number];
    let length = function.code.len();
    let back = |by: usize| ((length + 3).saturating_sub(by) as u16).to_le_bytes();
    let target = rng.below(length + 5);
    let instruction: Vec<u8> = match rng.below(6) {
        0 => vec![rng.below(41) as u8],
        1 => vec![30, back(target)[0], back(target)[1]],
        2 => vec![rng.pick(&[28, 29, 30]), rng.below(2) as u8, 0],
        3 => vec![rng.pick(&[5, 6, 10, 11, 31]), rng.below(4) as u8],
        4 => vec![rng.pick(&[0, 7, 8, 9, 12, 13, 14, 34, 37, 39]), rng.below(function.constants.len() + 1) as u8],
        _ => vec![rng.pick(&[32, 33]), rng.below(function.constants.len() + 1) as u8, rng.byte()],
    };
    match function.runs.last_mut() {
        Some(run) if run.count < 250 => run.count += instruction.len() as u8,
        _ => function.runs.push(Run { start: 7, end: 7, count: instruction.len() as u8 }),
    }
    function.code.extend(instruction);
}

fn damage_code(rng: &mut Rng, functions: &mut [Function], number: usize) {
    let (earlier, rest) = functions.split_at_mut(number);
    let function = &mut rest[0];
    if function.code.is_empty() {
        return function.code.push(rng.below(41) as u8);
    }
    let starts: Vec<usize> = match function.division(earlier) {
        Some(instructions) => instructions.iter().map(|instruction| instruction.at).collect(),
        None => (0..function.code.len()).collect(),
    };
    let at = rng.pick(&starts);
    let last = function.code.len() - 1;
    match rng.below(8) {
        0 => function.code[at] = rng.below(42) as u8,
        1 => {
            // Another opcode of the same form.
            let forms: [&[u8]; 7] = [
                &[1, 2, 3, 4, 15, 20, 25, 27, 35, 36, 38],
                &[5, 6, 31, 10, 11],
                &[0, 7, 8, 9],
                &[12, 13, 14, 37, 39, 0],
                &[28, 29, 30],
                &[32, 33],
                &[34, 0, 7],
            ];
            if let Some(form) = forms.iter().find(|form| form.contains(&function.code[at])) {
                function.code[at] = rng.pick(form);
            }
        }
        2 | 3 => {
            // A jump moved.
            let jumps: Vec<usize> =
                starts.iter().copied().filter(|&at| (28..=30).contains(&function.code[at])).collect();
            if let Some(place) = (!jumps.is_empty()).then(|| rng.pick(&jumps) + 1) {
                let place = place.min(last);
                function.code[place] = match rng.below(3) {
                    0 => function.code[place].wrapping_add(rng.pick(&[1, 2, 3, 255, 254, 253])),
                    1 => rng.below(last + 6) as u8,
                    _ => 0,
                };
            }
        }
        4 => {
            // A pair, or what stands behind a CLOSURE.
            let closures: Vec<usize> = starts.iter().copied().filter(|&at| function.code[at] == 34).collect();
            if let Some(place) = (!closures.is_empty()).then(|| rng.pick(&closures) + 1 + rng.below(6)) {
                function.code[place.min(last)] = rng.pick(&[0, 1, 2, 3, 255]);
            }
        }
        5 => {
            let place = (at + 1 + rng.below(2)).min(last);
            function.code[place] = function.code[place].wrapping_add(rng.pick(&[1, 255]));
        }
        6 => function.code[at.min(last)] = rng.pick(&[1, 2, 3]),
        _ => {
            function.code.remove(at);
            if let Some(run) = function.runs.iter_mut().find(|run| run.count > 1) {
                run.count -= 1;
            }
        }
    }
}

/// An image and two of it with its first jump one byte off; the script has the jump.
pub fn with_moved_jumps(image: &[u8]) -> Vec<Vec<u8>> {
    let functions = read(image).expect("an accepted image has the form");
    let last = functions.len() - 1;
    let instructions = functions[last].division(&functions[..last]).expect("an accepted image has a division");
    let jump = instructions.iter().find(|instruction| (28..=30).contains(&instruction.opcode));
    let mut images = vec![image.to_vec()];
    if let Some(at) = jump.map(|jump| jump.at) {
        for by in [1, 255] {
            let mut moved = functions.clone();
            moved[last].code[at + 1] = moved[last].code[at + 1].wrapping_add(by);
            images.push(written(&moved));
        }
    }
    images
}

/// Images that are larger than any that a tree makes, for a checker's tables and rings.
pub fn large() -> Vec<Vec<u8>> {
    let mut images = vec![];
    // A chain: each function is named by the next.
    for count in [65_535, 65_536, 65_537, 70_000, 131_073] {
        let mut functions = vec![script(&[1, 36])];
        functions.extend((1..count).map(|number| with_constants(&[34, 0], vec![Constant::Function(number - 1)])));
        images.push(written(&functions));
        // The first is named by the last too, and so twice.
        let last = functions.len() - 1;
        functions[last].constants.push(Constant::Function(0));
        images.push(written(&functions));
        // The last but one is not named, and closes nothing.
        functions[last] = script(&[]);
        images.push(written(&functions));
    }
    // Every place for a constant taken, numbers and strings, and two of them equal.
    let texts = (0..65_535).map(Constant::Text);
    let numbers = (0..65_535).map(Constant::Number);
    for constants in [texts.collect::<Vec<_>>(), numbers.collect()] {
        images.push(written(&[with_constants(&[0, 255], constants.clone())]));
        let mut equal = constants;
        equal[65_534] = equal[1];
        images.push(written(&[with_constants(&[0, 255], equal)]));
    }
    // Jumps of the greatest distance all through a long code, ahead and back, on starts and one byte beside them.
    for off in [0, 1] {
        for opcode in [28, 30] {
            let mut code = [5, 0].repeat(33_000);
            let [low, high] = (65_535u16 - u16::from(opcode == 28) - off).to_le_bytes();
            code.extend([opcode, low, high, 1].repeat(40_000));
            code.extend([5, 0].repeat(40_000));
            images.push(written(&[script(&code)]));
        }
    }
    images
}

/// Images of a mebibyte that may take a checker long, accepted or not.
#[cfg_attr(not(feature = "archive"), allow(dead_code))]
pub fn worst() -> Vec<(&'static str, Vec<u8>)> {
    const MOST: usize = 1 << 20;
    // The port's table of constants has 65,521 places, or 4,093 for up to 256 constants: these all fall into one place of it.
    let falling = |count: u64| (0..count).map(|number| Constant::Number(65_521 * number)).collect::<Vec<_>>();
    let falling_functions = (0..65_535).map(|number| Constant::Function(65_521 * number)).collect();
    let falling_few: Vec<Constant> = (0..256).map(|number| Constant::Number(4_093 * number)).collect();
    let spread = |count: u64| (0..count).map(Constant::Number).collect::<Vec<_>>();
    let [low, high] = 65_535u16.to_le_bytes();
    let ahead = [[28, low - 2, high, 1].repeat(220_000), vec![1; 66_000]].concat();
    let back = [vec![1; 66_000], [30, low, high, 1].repeat(220_000)].concat();
    let closing = |number: u32| with_constants(&[34, 0], vec![Constant::Function(number)]);
    let chain: Vec<Function> = [script(&[])].into_iter().chain((0..27_590).map(closing)).collect();
    let pairs: Vec<Function> = (0..7).map(|_| Function { upvalues: 65_535, ..script(&[]) }).collect();
    let mut pairing: Vec<u8> = vec![];
    for place in 0..7 {
        pairing.extend([&[34, place][..], &[1, 0].repeat(65_535)].concat());
    }
    let pairing = with_constants(&pairing, (0..7).map(Constant::Function).collect());
    let one_each = (0..).map(|start| Run { start, end: 0, count: 1 }).take(80_000).collect();
    vec![
        (
            "numbers and then functions that fall into one place",
            vec![with_constants(&[], falling(65_532)), with_constants(&[], falling_functions)],
        ),
        (
            "numbers that fall into one place",
            vec![with_constants(&[], falling(65_535)), with_constants(&[], falling(39_310))],
        ),
        ("numbers that do not", vec![with_constants(&[], spread(65_535)), with_constants(&[], spread(39_310))]),
        ("functions of 256 numbers that fall into one place", vec![with_constants(&[], falling_few); 400]),
        ("functions of 257 strings", vec![with_constants(&[], (0..257).map(Constant::Text).collect()); 1_000]),
        ("functions, each named by the next", chain),
        ("pairs", [pairs, vec![pairing]].concat()),
        ("the farthest jumps ahead", vec![script(&ahead)]),
        ("the farthest jumps back", vec![script(&back)]),
        ("instructions of one byte", vec![script(&vec![1; 1_005_000])]),
        ("runs of one byte", vec![Function { runs: one_each, ..script(&vec![1; 80_000]) }]),
    ]
    .into_iter()
    .map(|(name, functions)| (name, written(&functions)))
    .inspect(|(name, image)| assert!(image.len() <= MOST && image.len() > 900_000, "{name}: {}", image.len()))
    .collect()
}

fn script(code: &[u8]) -> Function {
    let mut runs = vec![];
    let mut left = code.len();
    while left > 0 {
        let count = left.min(255);
        runs.push(Run { start: 0, end: 0, count: count as u8 });
        left -= count;
    }
    Function { name: 3, arity: 0, upvalues: 0, constants: vec![], runs, code: code.to_vec() }
}

fn with_constants(code: &[u8], constants: Vec<Constant>) -> Function {
    Function { constants, ..script(code) }
}

/// A sound image of so many functions, whose code ends in `DX` and what is given behind it: instructions that take any
/// byte, or one of the constants 0 to 80.
pub fn ending_in(count: u8, end: &[u8]) -> Vec<u8> {
    let named = u32::from(count) - 1;
    let mut functions: Vec<Function> = (0..named).map(|_| script(&[1, 36])).collect();
    let texts = (0..=80).map(Constant::Text);
    let code: Vec<u8> = (81..80 + count).flat_map(|place| [34, place]).chain([32]).chain(end.iter().copied()).collect();
    functions.push(with_constants(&code, texts.chain((0..named).map(Constant::Function)).collect()));
    written(&functions)
}

/// A small image with each kind of constant and of operand, pairs of both kinds, and runs of one span.
pub fn varied() -> Vec<u8> {
    let inner = Function { upvalues: 2, ..script(&[10, 1, 11, 0, 35, 36]) };
    let middle_code = [5, 1, 34, 1, 1, 0, 0, 0, 0, 0, 7, 2, 32, 2, 3, 31, 2, 29, 1, 0, 4, 30, 9, 0, 1, 36];
    let middle = Function {
        upvalues: 1,
        arity: 2,
        name: 7,
        ..with_constants(&middle_code, vec![Constant::Number(MOST_BITS), Constant::Function(0), Constant::Text(9)])
    };
    let last_code = [34, 0, 1, 3, 8, 1, 28, 2, 0, 37, 1, 39, 1, 33, 1, 0, 1, 36];
    let last = with_constants(&last_code, vec![Constant::Function(1), Constant::Text(0)]);
    let spread = |function: Function| {
        let runs = (0..).zip(&function.code).map(|(at, _)| Run { start: at, end: at + 1, count: 1 });
        Function {
            runs: runs.take(function.code.len() - 9).chain([Run { start: 3, end: 3, count: 9 }]).collect(),
            ..function
        }
    };
    written(&[inner, spread(middle), spread(last)])
}

/// Images at the edges of what the checker asks, which no compiled tree shows.
pub fn by_hand() -> Vec<Vec<u8>> {
    let one = |function: Function| written(&[function]);
    let closing = |count: u32| with_constants(&[34, 0], vec![Constant::Function(count)]);
    let with_upvalues = |upvalues: u16, function: Function| Function { upvalues, ..function };
    let texts = |count: u16| (0..count).map(Constant::Text).collect::<Vec<_>>();
    let mut images = vec![
        // The bare form.
        vec![],
        b"IM".to_vec(),
        b"IM\0\0\0\0".to_vec(),
        one(script(&[])),
        one(script(&[1, 36])),
        one(Function { arity: 255, name: 65535, upvalues: 65535, ..script(&[]) }),
        one(with_upvalues(257, script(&[10, 255, 11, 0]))),
        one(with_upvalues(255, script(&[10, 255]))),
        one(with_upvalues(0, script(&[11, 0]))),
        // Cut instructions, and no instruction.
        one(script(&[5])),
        one(script(&[28, 0])),
        one(script(&[34])),
        one(script(&[40])),
        one(script(&[255])),
        // Jumps: to the end, past it, into an operand, back to the start, before it.
        one(script(&[28, 0, 0])),
        one(script(&[29, 1, 0])),
        one(script(&[28, 1, 0, 1])),
        one(script(&[29, 1, 0, 5, 0])),
        one(script(&[29, 2, 0, 5, 0])),
        one(script(&[30, 0, 0])),
        one(script(&[30, 0, 0, 1])),
        one(script(&[30, 3, 0])),
        one(script(&[30, 4, 0])),
        one(script(&[30, 1, 0])),
        one(script(&[5, 0, 30, 5, 0])),
        one(script(&[5, 0, 30, 4, 0])),
        one(script(&[28, 255, 255])),
        // Constants: kinds, bounds, more than 256, equal ones.
        one(with_constants(&[0, 0, 0, 1], vec![Constant::Number(MOST_BITS), Constant::Text(9)])),
        one(with_constants(&[], vec![Constant::Number(MOST_BITS + 1)])),
        one(with_constants(&[7, 0], vec![Constant::Number(0)])),
        one(with_constants(&[32, 0, 255], vec![Constant::Text(0)])),
        one(with_constants(&[33, 1, 0], vec![Constant::Text(0), Constant::Number(0)])),
        one(with_constants(&[0, 255], texts(256))),
        one(with_constants(&[0, 255], texts(300))),
        one(with_constants(&[0, 255], texts(255))),
        one(with_constants(&[], vec![Constant::Number(5), Constant::Text(5), Constant::Number(5)])),
        one(with_constants(&[], vec![Constant::Number(5), Constant::Text(5)])),
        one(with_constants(&[34, 0], vec![Constant::Function(0)])),
        // Functions named once, twice, never, and by the last only.
        written(&[script(&[]), closing(0)]),
        written(&[script(&[]), script(&[])]),
        written(&[script(&[]), closing(0), closing(0)]),
        written(&[script(&[]), closing(0), closing(1)]),
        written(&[script(&[]), with_constants(&[34, 0, 34, 0], vec![Constant::Function(0)])]),
        written(&[script(&[]), with_constants(&[], vec![Constant::Function(0)])]),
        written(&[script(&[]), with_constants(&[0, 0], vec![Constant::Function(0)])]),
        written(&[script(&[]), with_constants(&[34, 0], vec![Constant::Function(0), Constant::Function(0)])]),
        written(&[
            script(&[]),
            script(&[]),
            with_constants(&[34, 1, 34, 0], vec![Constant::Function(0), Constant::Function(1)]),
        ]),
        written(&[script(&[]), with_constants(&[34, 0, 0, 0], vec![Constant::Function(0)])]),
        written(&[script(&[]), with_constants(&[34, 0, 7, 0], vec![Constant::Function(0)])]),
        written(&[script(&[]), with_constants(&[34, 0, 32, 0, 0], vec![Constant::Function(0)])]),
        written(&[
            script(&[]),
            closing(0),
            with_constants(&[34, 0, 34, 1], vec![Constant::Function(0), Constant::Function(1)]),
        ]),
        // Pairs.
        written(&[with_upvalues(1, script(&[])), with_constants(&[34, 0, 1, 255], vec![Constant::Function(0)])]),
        written(&[with_upvalues(1, script(&[])), with_constants(&[34, 0, 0, 0], vec![Constant::Function(0)])]),
        written(&[with_upvalues(1, script(&[])), with_constants(&[34, 0, 2, 0], vec![Constant::Function(0)])]),
        written(&[with_upvalues(1, script(&[])), with_constants(&[34, 0, 1], vec![Constant::Function(0)])]),
        written(&[
            with_upvalues(1, script(&[])),
            with_upvalues(1, with_constants(&[34, 0, 2, 0], vec![Constant::Function(0)])),
        ]),
        written(&[
            with_upvalues(2, script(&[])),
            with_upvalues(1, with_constants(&[34, 0, 0, 0, 1, 0], vec![Constant::Function(0)])),
        ]),
        written(&[
            with_upvalues(1, script(&[])),
            with_upvalues(1, with_constants(&[34, 0, 0, 1], vec![Constant::Function(0)])),
        ]),
    ];
    // Runs: 255 and more of one span, cut early, of count 0.
    for counts in [&[255, 1][..], &[254, 2], &[255, 255, 1], &[255, 0, 1], &[1, 255], &[200, 56]] {
        let length = counts.iter().map(|&count| usize::from(count)).sum();
        let runs = counts.iter().map(|&count| Run { start: 3, end: 4, count }).collect();
        images.push(one(Function { runs, ..script(&vec![1; length]) }));
    }
    for counts in [[1, 0, 1], [0, 1, 1], [1, 1, 0]] {
        let runs = (0..).zip(counts).map(|(start, count)| Run { start, end: 9, count }).collect();
        images.push(one(Function { runs, ..script(&[1, 1]) }));
    }
    // Every opcode and one that is none, cut, with operands and with too many, by kind of constant.
    for opcode in 0..=40 {
        images.push(one(script(&[opcode])));
        for operands in [&[0][..], &[0, 0], &[1, 0]] {
            let code = [&[opcode], operands].concat();
            images.push(one(script(&code)));
            images.push(one(with_constants(&code, vec![Constant::Text(4)])));
            images.push(one(with_constants(&code, vec![Constant::Number(4)])));
        }
    }
    // A function constant past the places that a CLOSURE can name.
    for place in [255, 256] {
        let mut constants = texts(place);
        constants.push(Constant::Function(0));
        images.push(written(&[script(&[]), with_constants(&[34, 255], constants)]));
    }
    images
}
