//! Random runs on the core and on the model, and what the first difference comes down to.

use crate::law::Claims;
use crate::model::{Arithmetic, Call};
use crate::proved::{outcome, Kind, Shelf};
use crate::random::Random;
use crate::runs::{expected, followed, random_case, Case, Length, Outcome, Step};
use std::collections::BTreeMap;
use std::time::Instant;

const NAMES: [&str; 12] =
    ["fit", "intake", "audit", "read", "write", "cross", "begin", "step", "totals", "record", "first", "mend"];

fn call_index(call: &Call) -> usize {
    match call {
        Call::Fit => 0,
        Call::Intake => 1,
        Call::Audit(_) => 2,
        Call::Read(..) => 3,
        Call::Write(..) => 4,
        Call::Cross => 5,
        Call::Begin => 6,
        Call::Step => 7,
        Call::Totals => 8,
        Call::Record(_) => 9,
        Call::First => 10,
        Call::Mend => 11,
    }
}

fn answer_name(answer: &[usize; 5]) -> String {
    match answer {
        [0, ..] => "done".into(),
        [100, 0, ..] => "sound".into(),
        [100, 1, ..] => "hole".into(),
        [100, ..] => "card".into(),
        [101, ..] => "counts".into(),
        [102, ..] => "unread".into(),
        [103, ..] => "a row".into(),
        [104, ..] => "no row".into(),
        [105, 0, ..] => "mended 0".into(),
        [105, ..] => "mended".into(),
        [6, _, _, 1, _] => "refused 6 hole".into(),
        [6, ..] => "refused 6 card".into(),
        [number, ..] => format!("refused {number}"),
    }
}

#[derive(Default)]
struct Counts {
    runs: u64,
    calls: u64,
    damaged_bytes: u64,
    symbols: u64,
    claims: Claims,
    answers: BTreeMap<(usize, String), u64>,
}

impl Counts {
    fn add(&mut self, case: &Case, wanted: &Outcome, claims: Claims) {
        self.runs += 1;
        self.claims.audits += claims.audits;
        self.claims.mends += claims.mends;
        self.claims.broken += claims.broken;
        self.symbols += wanted.numbers.len() as u64;
        for (step, answer) in case.steps.iter().zip(&wanted.answers) {
            match step {
                Step::Damage(..) => self.damaged_bytes += 1,
                Step::Call(call) => {
                    self.calls += 1;
                    *self.answers.entry((call_index(call), answer_name(answer))).or_default() += 1;
                }
            }
        }
    }

    fn print(&self) {
        for (at, name) in NAMES.iter().enumerate() {
            let own = self.answers.iter().filter(|((call, _), _)| *call == at);
            let line: Vec<String> = own.map(|((_, answer), count)| format!("{answer} {count}")).collect();
            println!("  {name}: {}", line.join(", "));
        }
    }
}

/// Removes steps for as long as the two still differ.
fn shortened(field: &Arithmetic, case: &Case, shelf: Shelf) -> Case {
    let mut shortest = case.clone();
    let mut at = shortest.steps.len();
    while at > 0 {
        at -= 1;
        let mut shorter = shortest.clone();
        shorter.steps.remove(at);
        if expected(field, &shorter) != outcome(&shorter, shelf) {
            shortest = shorter;
        }
    }
    shortest
}

fn show(field: &Arithmetic, case: &Case, shelf: Shelf) {
    let short = shortened(field, case, shelf);
    let (wanted, got) = (expected(field, &short), outcome(&short, shelf));
    println!("DIFFERENCE, {:?} field on {shelf:?}, k p n m = {:?}", short.kind, short.sizes);
    if short.image.len() <= 400 {
        println!("  image {:?}", short.image);
    } else {
        println!("  image of {} bytes, head {:?}", short.image.len(), &short.image[..6]);
    }
    for (i, step) in short.steps.iter().enumerate() {
        let mark = if wanted.answers[i] == got.answers[i] { ' ' } else { '!' };
        println!("  {mark} {step:?}: model {:?}, core {:?}", wanted.answers[i], got.answers[i]);
    }
    if wanted.numbers != got.numbers {
        println!("  symbols: model {:?}, core {:?}", wanted.numbers, got.numbers);
    }
    let bytes: Vec<usize> = (0..wanted.image.len()).filter(|at| wanted.image[*at] != got.image[*at]).collect();
    for at in bytes.iter().take(20) {
        println!("  image byte {at}: model {}, core {}", wanted.image[*at], got.image[*at]);
    }
}

fn length(run: u64) -> Length {
    match run % 100 {
        0..=86 => Length::Short,
        87..=97 => Length::Middle,
        _ => Length::Long,
    }
}

/// Runs that are as large as the limits allow, in all.
const AT_LIMITS: u64 = 12;

/// Compares one run on both shelves, and says whether they agree. Damage happens to images alone, so an array's run has none.
fn agrees(field: &Arithmetic, case: &Case, counts: &mut [Counts; 2]) -> bool {
    let mut quiet = case.clone();
    quiet.steps.retain(|step| matches!(step, Step::Call(_)));
    let mut agreed = true;
    for (at, (case, shelf)) in [(case, Shelf::Image), (&quiet, Shelf::Array)].into_iter().enumerate() {
        let (wanted, claims) = followed(field, case);
        counts[at].add(case, &wanted, claims);
        if claims.broken > 0 {
            println!("THE LAW IS BROKEN, {:?} field, k p n m = {:?}: {:?}", case.kind, case.sizes, case.steps);
            agreed = false;
        }
        if wanted != outcome(case, shelf) {
            show(field, case, shelf);
            agreed = false;
        }
    }
    agreed
}

/// Answers whether all runs agree.
pub fn check(runs: u64, seed: u64) -> bool {
    let started = Instant::now();
    let (byte, counter) = (Arithmetic::byte(), Arithmetic::counter());
    let mut counts = [Counts::default(), Counts::default()];
    let mut differences = 0;
    println!("seed {seed}");
    for run in 0..runs + AT_LIMITS {
        let mut random = Random::new(seed.wrapping_mul(1_000_003).wrapping_add(run));
        let (field, kind) = if run % 2 == 0 { (&byte, Kind::Byte) } else { (&counter, Kind::Counter) };
        let length = if run < runs { length(run / 2) } else { Length::Limits };
        let case = random_case(field, kind, length, &mut random);
        if !agrees(field, &case, &mut counts) {
            println!("  (run {run} of seed {seed})");
            differences += 1;
            if differences == 5 {
                break;
            }
        }
    }
    for (counts, shelf) in counts.iter().zip(["image", "array"]) {
        println!(
            "{shelf} shelves: {} runs, {} calls, {} symbols read or written, {} bytes of damage between calls",
            counts.runs, counts.calls, counts.symbols, counts.damaged_bytes
        );
        counts.print();
        println!("  the law over runs held at {} audits and {} mends", counts.claims.audits, counts.claims.mends);
    }
    println!("{differences} runs differ, in {:.1} s", started.elapsed().as_secs_f64());
    differences == 0
}
