//! Timings beside the port, in one process over the same bytes: the two sides in turn, the least of several rounds.
//! Built by `bench` with the archive of `tools/archive` and without the checks that the other commands run with.

use std::hint::black_box;

use crate::check;
use crate::examples::{every_kind, examples};
use crate::images;
use crate::scripts::SCRIPTS;

/// The C entry's answer; include/puffbramble.h says what the fields are.
#[repr(C)]
pub struct Answer {
    pub number: u64,
    pub at: u64,
    pub end: u64,
    pub name: u64,
    pub length: u64,
    pub function: u64,
    pub around: u64,
}

#[link(name = "puffbramble", kind = "static")]
extern "C" {
    fn puffbramble_read(tree: *const u8, length: usize) -> Answer;
    fn puffbramble_check(image: *const u8, length: usize) -> Answer;
}

const ROUNDS: usize = 200;
/// A round goes on for about so many bytes, so that a clock's step does not show.
pub const ROUND_BYTES: usize = 400_000;
pub const BAR: f64 = 0.5;

extern "C" {
    /// The C library's: seconds and nanoseconds of a clock.
    fn clock_gettime(clock: i32, time: *mut [i64; 2]) -> i32;
}

/// The processor time of this thread in seconds: what else the machine does meanwhile is not in it.
fn now() -> f64 {
    const THREAD_CPUTIME: i32 = 3;
    let mut time = [0; 2];
    assert_eq!(unsafe { clock_gettime(THREAD_CPUTIME, &mut time) }, 0);
    time[0] as f64 + time[1] as f64 * 1e-9
}

/// Seconds that one call takes: `calls` in a row, what they give dropped after the clock has stopped.
pub fn timed<T>(calls: usize, mut call: impl FnMut() -> T) -> f64 {
    let mut kept = Vec::with_capacity(calls);
    let start = now();
    for _ in 0..calls {
        kept.push(call());
    }
    let seconds = now() - start;
    black_box(kept);
    seconds / calls as f64
}

fn ours(tree: &[u8]) -> Answer {
    // The slice's own pointer and length.
    unsafe { puffbramble_read(black_box(tree).as_ptr(), tree.len()) }
}

/// The least time of each side, in seconds.
fn both(tree: &[u8]) -> (f64, f64) {
    let answer = ours(tree);
    assert_eq!((answer.number, answer.at, answer.end, answer.name, answer.length), (0, 0, 0, 0, 0));
    assert!(plain::decode(tree).is_ok());
    let calls = (ROUND_BYTES / tree.len()).clamp(1, 5_000);
    (0..ROUNDS).fold((f64::MAX, f64::MAX), |(a, b), _| {
        let a = a.min(timed(calls, || ours(tree)));
        (a, b.min(timed(calls, || plain::decode(black_box(tree)))))
    })
}

/// The tree reader beside the Rust side's decoder, over sound trees.
pub fn trees() {
    let mut trees = vec![
        ("P2".to_string(), examples().swap_remove(1).tree.bytes()),
        ("every record kind".to_string(), every_kind().bytes()),
    ];
    for (name, make) in SCRIPTS {
        for size in [10_000, 100_000, 1_000_000] {
            trees.push((name.to_string(), make(size)));
        }
    }
    println!("{:18} {:>9} {:>11} {:>11} {:>6}", "tree", "bytes", "ours us", "Rust us", "ratio");
    let mut most: f64 = 0.0;
    for (name, tree) in &trees {
        let (a, b) = both(tree);
        most = most.max(a / b);
        println!("{name:18} {:>9} {:>11.3} {:>11.3} {:>6.3}", tree.len(), a * 1e6, b * 1e6, a / b);
    }
    println!("largest ratio {most:.3}, {} {BAR}", if most <= BAR { "at most" } else { "ABOVE" });
}

fn checked(image: &[u8]) -> Answer {
    // The slice's own pointer and length.
    unsafe { puffbramble_check(black_box(image).as_ptr(), image.len()) }
}

/// The least time of so many rounds for each image, the images in turn, so that what else the machine does falls on all of them. The answers must
/// be the Rust's checker's.
fn check_times(images: &[Vec<u8>], rounds: usize) -> Vec<f64> {
    for image in images {
        let (answer, told) = (checked(image), check(image));
        assert_eq!((answer.number, answer.length), (told.number.into(), told.length.into()));
    }
    let mut least = vec![f64::MAX; images.len()];
    for _ in 0..rounds {
        for (image, least) in images.iter().zip(&mut least) {
            let calls = (ROUND_BYTES / image.len()).clamp(1, 100);
            *least = least.min(timed(calls, || checked(image)));
        }
    }
    least
}

/// The image checker over images of the compiler, by size, and over the images that take it longest.
pub fn images() {
    println!("{:18} {:>9} {:>11} {:>8} {:>8}", "image of", "bytes", "us", "ns/byte", "MB/s");
    for (name, make) in SCRIPTS {
        let growth = image_of(&make(100_000)).len() as f64 / 100_000.0;
        let images = [10_000.0, 40_000.0, 200_000.0, 1_000_000.0, 4_000_000.0]
            .map(|size| image_of(&make(((size / growth) as usize).min(1_030_000))));
        let (mut least, mut most) = (f64::MAX, 0f64);
        for (image, seconds) in images.iter().zip(check_times(&images, ROUNDS)) {
            let byte = seconds / image.len() as f64;
            (least, most) = (least.min(byte), most.max(byte));
            println!("{name:18} {:>9} {:>11.1} {:>8.2} {:>8.0}", image.len(), seconds * 1e6, 1e9 * byte, 1e-6 / byte);
        }
        println!("{name:18} time a byte, greatest to least: {:.2}", most / least);
    }
    println!("{:54} {:>9} {:>6} {:>11}", "image of a mebibyte", "bytes", "number", "ms");
    for (name, image) in images::worst() {
        let seconds = check_times(std::slice::from_ref(&image), 3)[0];
        println!("{name:54} {:>9} {:>6} {:>11.2}", image.len(), checked(&image).number, seconds * 1e3);
    }
}

fn image_of(tree: &[u8]) -> Vec<u8> {
    plain::run(tree, 0).image.expect("these scripts are accepted")
}
