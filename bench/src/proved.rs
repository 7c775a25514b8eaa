//! The proved core, called through its C functions.

use crate::model::Call;
use crate::runs::{Case, Outcome, Step};

type Script = unsafe extern "C" fn(
    *mut u8,
    usize,
    usize,
    usize,
    usize,
    usize,
    *const usize,
    usize,
    *mut usize,
    usize,
    *mut usize,
    usize,
);

type Puts = unsafe extern "C" fn(
    *mut u8,
    usize,
    usize,
    usize,
    usize,
    usize,
    usize,
    usize,
    *const usize,
    usize,
    *mut usize,
    usize,
) -> usize;

type Parity = unsafe extern "C" fn(*mut u8, usize, usize, usize, usize, usize, bool, usize, *mut usize, usize);

#[rustfmt::skip]
extern "C" {
    fn tray_byte_image(image: *mut u8, len: usize, k: usize, p: usize, n: usize, m: usize, script: *const usize, words: usize, numbers: *mut usize, count: usize, answers: *mut usize, room: usize);
    fn tray_counter_image(image: *mut u8, len: usize, k: usize, p: usize, n: usize, m: usize, script: *const usize, words: usize, numbers: *mut usize, count: usize, answers: *mut usize, room: usize);
    fn tray_byte_array(image: *mut u8, len: usize, k: usize, p: usize, n: usize, m: usize, script: *const usize, words: usize, numbers: *mut usize, count: usize, answers: *mut usize, room: usize);
    fn tray_counter_array(image: *mut u8, len: usize, k: usize, p: usize, n: usize, m: usize, script: *const usize, words: usize, numbers: *mut usize, count: usize, answers: *mut usize, room: usize);
    fn tray_byte_parity(image: *mut u8, len: usize, k: usize, p: usize, n: usize, m: usize, lent: bool, times: usize, numbers: *mut usize, count: usize);
    fn tray_counter_parity(image: *mut u8, len: usize, k: usize, p: usize, n: usize, m: usize, lent: bool, times: usize, numbers: *mut usize, count: usize);
    fn tray_byte_puts(image: *mut u8, len: usize, k: usize, p: usize, n: usize, m: usize, row: usize, start: usize, numbers: *const usize, count: usize, puts: *mut usize, room: usize) -> usize;
    fn tray_counter_puts(image: *mut u8, len: usize, k: usize, p: usize, n: usize, m: usize, row: usize, start: usize, numbers: *const usize, count: usize, puts: *mut usize, room: usize) -> usize;
}

/// What the tray stands on: the image itself, or lent symbols and marks with its contents.
#[derive(Clone, Copy, PartialEq, Eq, Debug)]
pub enum Shelf {
    Image,
    Array,
}

#[derive(Clone, Copy, PartialEq, Eq, Debug)]
pub enum Kind {
    Byte,
    Counter,
}

/// A script as the core reads it, four words a step, and its symbols' numbers one step after the other.
pub struct Words {
    pub script: Vec<usize>,
    pub numbers: Vec<usize>,
}

pub fn words(steps: &[Step]) -> Words {
    let mut words = Words { script: Vec::new(), numbers: Vec::new() };
    for step in steps {
        let (number, first, second, symbols): (usize, usize, usize, &[usize]) = match step {
            Step::Damage(offset, value) => (12, *offset, *value as usize, &[]),
            Step::Call(call) => match call {
                Call::Fit => (0, 0, 0, &[]),
                Call::Intake => (1, 0, 0, &[]),
                Call::Audit(row) => (2, *row, 0, &[]),
                Call::Read(row, start, buffer) => (3, *row, *start, buffer),
                Call::Write(row, start, symbols) => (4, *row, *start, symbols),
                Call::Cross => (5, 0, 0, &[]),
                Call::Begin => (6, 0, 0, &[]),
                Call::Step => (7, 0, 0, &[]),
                Call::Totals => (8, 0, 0, &[]),
                Call::Record(row) => (9, *row, 0, &[]),
                Call::First => (10, 0, 0, &[]),
                Call::Mend => (11, 0, 0, &[]),
            },
        };
        words.script.extend([number, first, second, symbols.len()]);
        words.numbers.extend(symbols);
    }
    words
}

/// Runs a script, and leaves the image and the numbers as the core does.
pub fn run(kind: Kind, shelf: Shelf, sizes: [usize; 4], image: &mut [u8], words: &mut Words, answers: &mut [usize]) {
    let script: Script = match (kind, shelf) {
        (Kind::Byte, Shelf::Image) => tray_byte_image,
        (Kind::Byte, Shelf::Array) => tray_byte_array,
        (Kind::Counter, Shelf::Image) => tray_counter_image,
        (Kind::Counter, Shelf::Array) => tray_counter_array,
    };
    let [k, p, n, m] = sizes;
    // SAFETY: each pointer goes with the length of its slice, and the slices do not overlap.
    unsafe {
        script(
            image.as_mut_ptr(),
            image.len(),
            k,
            p,
            n,
            m,
            words.script.as_ptr(),
            words.script.len(),
            words.numbers.as_mut_ptr(),
            words.numbers.len(),
            answers.as_mut_ptr(),
            answers.len(),
        );
    }
}

/// Works the parity rows so many times.
pub fn parity(kind: Kind, shelf: Shelf, sizes: [usize; 4], image: &mut [u8], times: usize, numbers: &mut [usize]) {
    let function: Parity = match kind {
        Kind::Byte => tray_byte_parity,
        Kind::Counter => tray_counter_parity,
    };
    let [k, p, n, m] = sizes;
    let lent = shelf == Shelf::Array;
    // SAFETY: each pointer goes with the length of its slice, and the slices do not overlap.
    unsafe {
        function(image.as_mut_ptr(), image.len(), k, p, n, m, lent, times, numbers.as_mut_ptr(), numbers.len());
    }
}

/// Every put of an intake and of a write after it: a row, a place and a number.
pub fn puts(
    kind: Kind,
    sizes: [usize; 4],
    image: &mut [u8],
    row: usize,
    start: usize,
    numbers: &[usize],
) -> Vec<[usize; 3]> {
    let function: Puts = match kind {
        Kind::Byte => tray_byte_puts,
        Kind::Counter => tray_counter_puts,
    };
    let [k, p, n, m] = sizes;
    let mut puts = vec![usize::MAX; 3 * (numbers.len() + 1) * (k + p) * (m + 1)];
    // SAFETY: each pointer goes with the length of its slice, and the slices do not overlap.
    let count = unsafe {
        function(
            image.as_mut_ptr(),
            image.len(),
            k,
            p,
            n,
            m,
            row,
            start,
            numbers.as_ptr(),
            numbers.len(),
            puts.as_mut_ptr(),
            puts.len(),
        )
    };
    puts.truncate(count * 3);
    puts.chunks_exact(3).map(|put| put.try_into().expect("three numbers")).collect()
}

pub fn outcome(case: &Case, shelf: Shelf) -> Outcome {
    let mut image = case.image.clone();
    let mut words = words(&case.steps);
    let mut answers = vec![usize::MAX; case.steps.len() * 5];
    run(case.kind, shelf, case.sizes, &mut image, &mut words, &mut answers);
    Outcome {
        answers: answers.chunks_exact(5).map(|five| five.try_into().expect("five numbers")).collect(),
        numbers: words.numbers,
        image,
    }
}
