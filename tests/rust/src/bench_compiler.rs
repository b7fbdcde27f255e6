//! Timings of the compiler beside the Rust's, from the bytes of a tree to the bytes of its image, in one process: the two
//! sides in turn, the least of several rounds; in the room that the header says to lend first, in the one that is enough for
//! every tree, and in the least that takes the tree.

use std::hint::black_box;

use crate::bench::{timed, Answer, BAR, ROUND_BYTES};
use crate::scripts::SCRIPTS;

#[link(name = "puffbramble", kind = "static")]
extern "C" {
    fn puffbramble_compile(
        tree: *const u8,
        tree_len: usize,
        options: u32,
        out: *mut u8,
        out_len: usize,
        table: *mut u64,
        table_words: usize,
        code: *mut u8,
        code_len: usize,
        spans: *mut u32,
        spans_words: usize,
    ) -> Answer;
}

const ROUNDS: usize = 40;
const SIZES: [usize; 5] = [10_000, 40_000, 200_000, 700_000, 1_020_000];
/// From this size on, what a call costs whatever the tree no longer shows, and time a byte must not grow.
const LARGE: usize = 200_000;

/// What is lent, and lent again for the next call.
struct Areas {
    out: Vec<u8>,
    table: Vec<u64>,
    code: Vec<u8>,
    spans: Vec<u32>,
}

impl Areas {
    /// The sizes that include/puffbramble.h names for every tree of this length: PB_OUTPUT_BYTES, PB_TABLE_WORDS, PB_CODE_BYTES, PB_SPAN_WORDS.
    fn enough(tree: &[u8]) -> Self {
        let code = tree.len().min(262_144);
        Self { out: vec![1; 17 * tree.len()], table: vec![1; 17_412], code: vec![1; code], spans: vec![1; 3 * code] }
    }

    /// Those that it names to be lent first: PB_FIRST_OUTPUT_BYTES, PB_TABLE_WORDS, PB_FIRST_CODE_BYTES, PB_FIRST_SPAN_WORDS.
    fn first(tree: &[u8]) -> [usize; 4] {
        let code = (tree.len() / 3 + 64).min(262_144);
        [4 * tree.len() + 64, 17_412, code, 3 * code]
    }

    fn sizes(&self) -> [usize; 4] {
        [self.out.len(), self.table.len(), self.code.len(), self.spans.len()]
    }

    /// One call, with the first so many elements of each area.
    fn compile(&mut self, tree: &[u8], [out, table, code, spans]: [usize; 4]) -> Answer {
        let (out, table) = (&mut self.out[..out], &mut self.table[..table]);
        let (code, spans) = (&mut self.code[..code], &mut self.spans[..spans]);
        let tree = black_box(tree);
        // The slices' own pointers and lengths; they are four areas and a tree, none of them in another.
        unsafe {
            puffbramble_compile(
                tree.as_ptr(),
                tree.len(),
                0,
                out.as_mut_ptr(),
                out.len(),
                table.as_mut_ptr(),
                table.len(),
                code.as_mut_ptr(),
                code.len(),
                spans.as_mut_ptr(),
                spans.len(),
            )
        }
    }

    /// What a call clears of the first so many elements of each: all of it, once.
    fn clear(&mut self, [out, table, code, spans]: [usize; 4]) {
        black_box(&mut self.out[..out]).fill(0);
        black_box(&mut self.table[..table]).fill(0);
        black_box(&mut self.code[..code]).fill(0);
        black_box(&mut self.spans[..spans]).fill(0);
    }

    /// The least size of each area with which the tree is taken, the others as they are. More room never does harm.
    fn least(&mut self, tree: &[u8]) -> [usize; 4] {
        let all = self.sizes();
        [0, 1, 2, 3].map(|place| {
            let (mut refused, mut taken) = (0, all[place]);
            while refused + 1 < taken {
                let mut sizes = all;
                sizes[place] = refused + (taken - refused) / 2;
                let is_taken = self.compile(tree, sizes).number == 0;
                *(if is_taken { &mut taken } else { &mut refused }) = sizes[place];
            }
            taken
        })
    }
}

/// Least times in seconds: ours in the first room, the Rust's, clearing that room alone, ours in the room for every tree, and ours in the least.
struct Times {
    ours: f64,
    rust: f64,
    clear: f64,
    enough: f64,
    least: f64,
}

fn times(tree: &[u8], areas: &mut Areas) -> Times {
    let (first, enough, least) = (Areas::first(tree), areas.sizes(), areas.least(tree));
    let calls = (ROUND_BYTES / tree.len()).max(1);
    let mut t = Times { ours: f64::MAX, rust: f64::MAX, clear: f64::MAX, enough: f64::MAX, least: f64::MAX };
    for _ in 0..ROUNDS {
        t.ours = t.ours.min(timed(calls, || areas.compile(tree, first)));
        t.rust = t.rust.min(timed(calls, || plain::run_kept(black_box(tree), 0)));
        t.enough = t.enough.min(timed(calls, || areas.compile(tree, enough)));
        t.least = t.least.min(timed(calls, || areas.compile(tree, least)));
        t.clear = t.clear.min(timed(calls, || areas.clear(first)));
    }
    t
}

/// The two sides give one image, ours in the first room; its length.
fn same_image(tree: &[u8], areas: &mut Areas) -> usize {
    let told = plain::run(tree, 0).image.expect("these scripts are accepted");
    let answer = areas.compile(tree, Areas::first(tree));
    assert_eq!((answer.number, answer.length), (0, told.len() as u64));
    assert!(areas.out[..told.len()] == told);
    told.len()
}

/// One kind of script at each size; the largest ratio, and how much slower a byte of a large tree is than one of a smaller.
fn one_kind(name: &str, make: fn(usize) -> Vec<u8>) -> (f64, f64) {
    let (mut most, mut fastest, mut growth): (f64, f64, f64) = (0.0, f64::MAX, 0.0);
    for size in SIZES {
        let tree = make(size);
        let mut areas = Areas::enough(&tree);
        let image = same_image(&tree, &mut areas);
        let t = times(&tree, &mut areas);
        let (ratio, byte) = (t.ours / t.rust, 1e9 * t.ours / tree.len() as f64);
        most = most.max(ratio);
        if tree.len() >= LARGE {
            fastest = fastest.min(byte);
            growth = growth.max(byte / fastest);
        }
        let [ours, rust, clear, enough, least] =
            [t.ours, t.rust, t.clear, t.enough, t.least].map(|seconds| seconds * 1e6);
        println!(
            "{name:12} {:>8} {image:>8} {ours:>9.1} {clear:>9.1} {rust:>9.1} {ratio:>6.3} {byte:>8.2} {:>12.3} {:>12.3}",
            tree.len(),
            enough / rust,
            least / rust
        );
    }
    (most, growth)
}

/// The least areas for one kind of script, beside what the header says to lend first.
fn one_least(name: &str, make: fn(usize) -> Vec<u8>) {
    let tree = make(700_000);
    let mut areas = Areas::enough(&tree);
    let (first, least) = (Areas::first(&tree), areas.least(&tree));
    let each: Vec<String> =
        least.iter().zip(first).map(|(least, first)| format!("{:>19}", format!("{least} of {first}"))).collect();
    println!("{name:12} {:>8} {}", tree.len(), each.join(" "));
}

pub fn compile() {
    println!("microseconds of processor time, in the room that is lent first; clearing is counted in ours, and timed alone too");
    println!(
        "{:12} {:>8} {:>8} {:>9} {:>9} {:>9} {:>6} {:>8} {:>12} {:>12}",
        "tree", "bytes", "image", "ours", "clearing", "Rust", "ratio", "ns/byte", "largest room", "least room"
    );
    let (most, growth) = SCRIPTS.iter().fold((0.0, 0.0), |(most, growth): (f64, f64), (name, make)| {
        let (a, b) = one_kind(name, *make);
        (most.max(a), growth.max(b))
    });
    println!("largest ratio {most:.3}, {} {BAR}", if most <= BAR { "at most" } else { "ABOVE" });
    println!("from {LARGE} bytes on, a byte of a larger tree takes at most {growth:.2} of a byte of a smaller one");
    println!("least area that is taken, of what is lent first");
    println!(
        "{:12} {:>8} {:>19} {:>19} {:>19} {:>19}",
        "tree", "bytes", "output bytes", "table words", "code bytes", "span words"
    );
    for (name, make) in SCRIPTS {
        one_least(name, make);
    }
}
