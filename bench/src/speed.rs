//! Times of the proved core beside plain Rust, and of its parity beside ISA-L, as tables for docs/SPEED.md.

use crate::model::{Arithmetic, Call};
use crate::plain::{self, Symbol};
use crate::proved::{self, Kind, Shelf, Words};
use crate::random::Random;
use crate::runs::{good_image, Step};
use std::hint::black_box;

/// Each time is the least of so many rounds, in which the candidates take turns, in each of so many passes over all tables: what slows the
/// machine for a while then spoils no cell.
const ROUNDS: usize = 5;

const PASSES: usize = 3;

/// A round repeats a call for about so long.
const ROUND_SECONDS: f64 = 0.008;

const MOST_REPEATS: usize = 16_384;

/// Seconds with the calls, and seconds of all that is timed with them and is not theirs.
struct Span {
    whole: f64,
    bare: f64,
}

type Job<'a> = Box<dyn FnMut(usize) -> Span + 'a>;

impl Span {
    fn least(self, other: Span) -> Span {
        Span { whole: self.whole.min(other.whole), bare: self.bare.min(other.bare) }
    }

    fn own(&self) -> f64 {
        (self.whole - self.bare).max(1e-7)
    }
}

/// How often a job is repeated in a round: long enough, also beside what is taken off.
fn repeats(job: &mut Job) -> usize {
    let mut repeats = 1;
    loop {
        let span = job(repeats).least(job(repeats));
        if span.own() >= ROUND_SECONDS.max(span.bare * 1.5) || repeats >= MOST_REPEATS {
            return repeats;
        }
        repeats *= 2;
    }
}

/// The least seconds of one call, for each job.
fn measured(jobs: &mut [Job]) -> Vec<f64> {
    let repeats: Vec<usize> = jobs.iter_mut().map(repeats).collect();
    let mut least: Vec<Span> = jobs.iter().map(|_| Span { whole: f64::MAX, bare: f64::MAX }).collect();
    for _ in 0..ROUNDS {
        for (at, job) in jobs.iter_mut().enumerate() {
            let before = std::mem::replace(&mut least[at], Span { whole: 0.0, bare: 0.0 });
            least[at] = before.least(job(repeats[at]));
        }
    }
    least.iter().zip(&repeats).map(|(span, repeats)| span.own() / *repeats as f64).collect()
}

/// The tables as text, and the least times of all passes so far, measurement after measurement.
#[derive(Default)]
struct Tables {
    text: String,
    least: Vec<Vec<f64>>,
    at: usize,
}

impl Tables {
    fn begin_pass(&mut self) {
        self.text.clear();
        self.at = 0;
    }

    fn line(&mut self, line: &str) {
        self.text.push_str(line);
        self.text.push('\n');
    }

    fn times(&mut self, jobs: &mut [Job]) -> Vec<f64> {
        let now = measured(jobs);
        if self.at == self.least.len() {
            self.least.push(now);
        } else {
            self.least[self.at].iter_mut().zip(now).for_each(|(least, now)| *least = least.min(now));
        }
        self.at += 1;
        self.least[self.at - 1].clone()
    }
}

/// Linux's clock of the processor time of this thread, which stands still while other work has the processor.
const THREAD_CLOCK: i32 = 3;

#[repr(C)]
struct Timespec {
    seconds: i64,
    nanoseconds: i64,
}

extern "C" {
    fn clock_gettime(clock: i32, time: *mut Timespec) -> i32;
}

fn thread_seconds() -> f64 {
    let mut time = Timespec { seconds: 0, nanoseconds: 0 };
    // SAFETY: the C library writes one timespec.
    assert_eq!(unsafe { clock_gettime(THREAD_CLOCK, &mut time) }, 0);
    time.seconds as f64 + time.nanoseconds as f64 * 1e-9
}

fn seconds(work: impl FnOnce()) -> f64 {
    let started = thread_seconds();
    work();
    thread_seconds() - started
}

/// What is timed.
#[derive(Clone, Copy, PartialEq, Eq, Debug)]
enum What {
    Audit,
    WriteOne,
    WriteBlock,
    Intake,
    MendNothing,
    MendAll,
}

impl What {
    fn name(self) -> &'static str {
        match self {
            What::Audit => "audit of one row",
            What::WriteOne => "write of 1 symbol, in the middle",
            What::WriteBlock => "write of a whole block",
            What::Intake => "intake",
            What::MendNothing => "mend, no row damaged",
            What::MendAll => "mend, p data rows lost",
        }
    }
}

/// A field as the model, the core and the plain code have it.
trait Timed: Symbol + 'static {
    const KIND: Kind;
    fn arithmetic() -> Arithmetic;
}

impl Timed for plain::Byte {
    const KIND: Kind = Kind::Byte;
    fn arithmetic() -> Arithmetic {
        Arithmetic::byte()
    }
}

impl Timed for plain::Tabled {
    const KIND: Kind = Kind::Byte;
    fn arithmetic() -> Arithmetic {
        Arithmetic::byte()
    }
}

impl Timed for plain::Counter {
    const KIND: Kind = Kind::Counter;
    fn arithmetic() -> Arithmetic {
        Arithmetic::counter()
    }
}

struct Bench {
    kind: Kind,
    sizes: [usize; 4],
    image: Vec<u8>,
}

impl Bench {
    fn new<F: Timed>(sizes: [usize; 4]) -> Self {
        let image = good_image(&F::arithmetic(), sizes, &mut Random::new(7));
        Bench { kind: F::KIND, sizes, image }
    }

    fn plain<F: Timed>(&self) -> plain::Tray<F> {
        let field = F::arithmetic();
        let [k, p, n, m] = self.sizes;
        let from = crate::model::Tray::new(&field, self.sizes, self.image.clone());
        let cells = (0..k + p).flat_map(|row| (0..n + m).map(move |place| (row, place)));
        let symbols: Vec<F> = cells.map(|(row, place)| F::numbered(from.get(row, place).expect("no hole"))).collect();
        let marks = vec![1; symbols.len()];
        plain::Tray { k, p, n, m, symbols, marks }
    }

    /// Symbols that differ from write to write.
    fn block(&self, turn: usize) -> Vec<usize> {
        (0..self.sizes[2]).map(|place| (place * 37 + turn * 11) % 251).collect()
    }

    fn steps(&self, what: What, times: usize) -> Vec<Step> {
        let [_, p, n, m] = self.sizes;
        let once = |turn: usize| match what {
            What::Audit => vec![Step::Call(Call::Audit(0))],
            What::WriteOne => vec![Step::Call(Call::Write(0, n / 2, vec![turn % 251]))],
            What::WriteBlock => vec![Step::Call(Call::Write(0, 0, self.block(turn)))],
            What::Intake => vec![Step::Call(Call::Intake)],
            What::MendNothing => vec![Step::Call(Call::Mend)],
            What::MendAll => {
                let lost = (0..p.min(self.sizes[0])).map(|row| Step::Damage(6 + row * (n + m), 0));
                lost.chain([Step::Call(Call::Mend)]).collect()
            }
        };
        (0..times).flat_map(once).collect()
    }

    /// So many calls on the core. What it costs to begin, an intake included where the call wants one, is timed too and taken off.
    fn core(&self, what: What, shelf: Shelf) -> Job<'_> {
        let mut image = self.image.clone();
        Box::new(move |times| {
            if what == What::Intake {
                let fit = vec![Step::Call(Call::Fit)];
                let intake = vec![Step::Call(Call::Intake)];
                let whole = (0..times).map(|_| self.run(shelf, &mut image, &intake)).sum();
                let bare = (0..times).map(|_| self.run(shelf, &mut image, &fit)).sum();
                return Span { whole, bare };
            }
            let begin = vec![Step::Call(Call::Intake)];
            let mut whole = begin.clone();
            whole.extend(self.steps(what, times));
            Span { whole: self.run(shelf, &mut image, &whole), bare: self.run(shelf, &mut image, &begin) }
        })
    }

    /// Damage happens to images alone. And where a call's own time is small beside setting up the lent memory, nothing is told.
    fn on_arrays(&self, what: What) -> bool {
        what != What::MendAll && (what != What::Intake || self.sizes[2] >= 255)
    }

    fn run(&self, shelf: Shelf, image: &mut [u8], steps: &[Step]) -> f64 {
        let mut words: Words = proved::words(steps);
        let mut answers = vec![usize::MAX; steps.len() * 5];
        let took = seconds(|| proved::run(self.kind, shelf, self.sizes, image, &mut words, &mut answers));
        for answer in answers.chunks_exact(5) {
            assert!(answer[0] == 0 || answer[0] >= 100, "refused: {answer:?}");
        }
        took
    }

    fn plain_job<F: Timed>(&self, what: What) -> Job<'_> {
        let mut tray = self.plain::<F>();
        let blocks: Vec<Vec<F>> = (0..64).map(|turn| self.block(turn).into_iter().map(F::numbered).collect()).collect();
        let [k, p, n, _] = self.sizes;
        Box::new(move |times| {
            let whole = seconds(|| {
                for turn in 0..times {
                    let done = match what {
                        What::Audit => black_box(&tray).sound(0),
                        What::WriteOne => black_box(&mut tray).write(0, n / 2, &[F::numbered(turn % 251)]),
                        What::WriteBlock => black_box(&mut tray).write(0, 0, &blocks[turn % 64]),
                        What::Intake => black_box(&mut tray).intake(),
                        What::MendNothing => black_box(&mut tray).mend() == Some(0),
                        What::MendAll => {
                            (0..p.min(k)).for_each(|row| tray.lose(row, 0));
                            black_box(&mut tray).mend() == Some(p.min(k))
                        }
                    };
                    assert!(done);
                }
            });
            Span { whole, bare: 0.0 }
        })
    }

    fn core_parity(&self, shelf: Shelf) -> Job<'_> {
        let mut image = self.image.clone();
        let mut numbers = vec![0; self.sizes[1] * self.sizes[2]];
        Box::new(move |times| {
            let mut parity =
                |times| seconds(|| proved::parity(self.kind, shelf, self.sizes, &mut image, times, &mut numbers));
            Span { whole: parity(times), bare: parity(0) }
        })
    }

    fn plain_parity<F: Timed>(&self) -> Job<'_> {
        let tray = self.plain::<F>();
        Box::new(move |times| {
            let whole = seconds(|| {
                for _ in 0..times {
                    black_box(black_box(&tray).parity());
                }
            });
            Span { whole, bare: 0.0 }
        })
    }
}

fn shown(seconds: f64) -> String {
    match seconds {
        s if s < 1e-6 => format!("{:.0} ns", s * 1e9),
        s if s < 1e-3 => format!("{:.1} µs", s * 1e6),
        s => format!("{:.2} ms", s * 1e3),
    }
}

fn titled(kind: Kind, sizes: [usize; 4]) -> String {
    let [k, p, n, m] = sizes;
    format!("{} field, k = {k}, p = {p}, n = {n}, m = {m}", if kind == Kind::Byte { "Byte" } else { "Counter" })
}

fn calls_table<F: Timed>(tables: &mut Tables, sizes: [usize; 4]) {
    let bench = Bench::new::<F>(sizes);
    tables.line(&format!("\n### {}\n", titled(F::KIND, sizes)));
    tables.line("| call | core, image shelf | core, array shelf | plain Rust | image : plain | array : plain |");
    tables.line("| --- | --- | --- | --- | --- | --- |");
    for what in [What::Audit, What::WriteOne, What::WriteBlock, What::Intake, What::MendNothing, What::MendAll] {
        let mut jobs = vec![bench.core(what, Shelf::Image), bench.plain_job::<F>(what)];
        if bench.on_arrays(what) {
            jobs.push(bench.core(what, Shelf::Array));
        }
        let took = tables.times(&mut jobs);
        let array = took.get(2).map_or(String::new(), |array| shown(*array));
        let ratio = took.get(2).map_or(String::new(), |array| format!("{:.1}", array / took[1]));
        tables.line(&format!(
            "| {} | {} | {array} | {} | {:.1} | {ratio} |",
            what.name(),
            shown(took[0]),
            shown(took[1]),
            took[0] / took[1],
        ));
    }
}

/// What a product by tables would change.
fn tables_table(tables: &mut Tables, sizes: [usize; 4]) {
    tables.line(&format!("\n### Plain Rust with products by tables: {}\n", titled(Kind::Byte, sizes)));
    tables.line("| call | bit by bit | by tables | ratio |");
    tables.line("| --- | --- | --- | --- |");
    let bench = Bench::new::<plain::Byte>(sizes);
    for what in [What::Audit, What::WriteBlock, What::Intake, What::MendAll] {
        let took = tables.times(&mut [bench.plain_job::<plain::Byte>(what), bench.plain_job::<plain::Tabled>(what)]);
        tables.line(&format!(
            "| {} | {} | {} | {:.1} |",
            what.name(),
            shown(took[0]),
            shown(took[1]),
            took[0] / took[1]
        ));
    }
}

/// Times as one of the four sizes doubles, each for one symbol of what the call reads.
fn growth_table<F: Timed>(tables: &mut Tables, title: &str, all: [[usize; 4]; 3]) {
    tables.line(&format!("\n### {title}, nanoseconds for each symbol\n"));
    tables.line("| k, p, n, m | audit: core, plain | intake: core, plain | mend, p lost: core, plain | write of 1 symbol: core, plain |");
    tables.line("| --- | --- | --- | --- | --- |");
    for sizes in all {
        let bench = Bench::new::<F>(sizes);
        let [k, p, n, m] = sizes;
        let mut cell = |what: What, symbols: usize| {
            let took = tables.times(&mut [bench.core(what, Shelf::Image), bench.plain_job::<F>(what)]);
            let each = |seconds: f64| seconds * 1e9 / symbols as f64;
            format!("{:.1}, {:.1} ({:.1} to 1)", each(took[0]), each(took[1]), took[0] / took[1])
        };
        let row = n + m;
        let cells = [
            cell(What::Audit, row),
            cell(What::Intake, (k + p) * row),
            cell(What::MendAll, (k + p) * row),
            cell(What::WriteOne, (1 + p) * row),
        ];
        tables.line(&format!("| {k}, {p}, {n}, {m} | {} |", cells.join(" | ")));
    }
}

/// The bytes of the data blocks of a benchmark's image, in the byte field.
fn data_blocks(bench: &Bench) -> Vec<Vec<u8>> {
    let [k, p, n, m] = bench.sizes;
    let codes = 6 + (k + p) * (n + m);
    (0..k).map(|row| bench.image[codes + row * (n + m)..][..n].to_vec()).collect()
}

#[cfg(isal)]
mod isal {
    use super::{black_box, seconds, Job, Span};
    use crate::model::Arithmetic;

    #[rustfmt::skip]
    extern "C" {
        fn ec_init_tables(k: i32, rows: i32, coefficients: *const u8, tables: *mut u8);
        fn ec_encode_data(len: i32, k: i32, rows: i32, tables: *const u8, data: *const *const u8, coding: *const *mut u8);
    }

    /// 32 bytes for each coefficient of section 5: ISA-L's field is the byte field.
    fn tables(k: usize, p: usize) -> Vec<u8> {
        let field = Arithmetic::byte();
        let pairs = (0..p).flat_map(|i| (0..k).map(move |j| (i, j)));
        let coefficients: Vec<u8> = pairs.map(|(i, j)| field.coefficient(i, j) as u8).collect();
        let mut tables = vec![0; 32 * k * p];
        // SAFETY: k × p coefficients, and 32 bytes of tables for each.
        unsafe { ec_init_tables(k as i32, p as i32, coefficients.as_ptr(), tables.as_mut_ptr()) };
        tables
    }

    fn encode(tables: &[u8], data: &[Vec<u8>], coding: &mut [Vec<u8>]) {
        let length = data[0].len();
        assert!(data.iter().chain(coding.iter()).all(|block| block.len() == length));
        assert_eq!(tables.len(), 32 * data.len() * coding.len());
        let (k, p) = (data.len() as i32, coding.len() as i32);
        let from: Vec<*const u8> = data.iter().map(|block| block.as_ptr()).collect();
        let into: Vec<*mut u8> = coding.iter_mut().map(|block| block.as_mut_ptr()).collect();
        // SAFETY: k blocks and p blocks of one length each, and the tables made for k and p.
        unsafe { ec_encode_data(length as i32, k, p, tables.as_ptr(), from.as_ptr(), into.as_ptr()) };
    }

    pub fn parity(data: &[Vec<u8>], p: usize) -> Option<Vec<usize>> {
        let mut coding = vec![vec![0; data[0].len()]; p];
        encode(&tables(data.len(), p), data, &mut coding);
        Some(coding.concat().into_iter().map(usize::from).collect())
    }

    pub fn job(data: Vec<Vec<u8>>, p: usize) -> Option<Job<'static>> {
        let tables = tables(data.len(), p);
        let mut coding = vec![vec![0; data[0].len()]; p];
        Some(Box::new(move |times| {
            let whole = seconds(|| {
                for _ in 0..times {
                    encode(&tables, black_box(&data), &mut coding);
                    black_box(&coding);
                }
            });
            Span { whole, bare: 0.0 }
        }))
    }
}

#[cfg(not(isal))]
mod isal {
    use super::Job;

    pub fn parity(_data: &[Vec<u8>], _p: usize) -> Option<Vec<usize>> {
        None
    }

    pub fn job(_data: Vec<Vec<u8>>, _p: usize) -> Option<Job<'static>> {
        None
    }
}

/// The core, the plain code and ISA-L, where it is there, work the same parity.
fn assert_same(bench: &Bench, data: &[Vec<u8>]) {
    let [_, p, n, _] = bench.sizes;
    let plain: Vec<usize> = bench.plain::<plain::Byte>().parity().into_iter().map(|byte| byte.0 as usize).collect();
    for shelf in [Shelf::Image, Shelf::Array] {
        let mut numbers = vec![0; p * n];
        let mut image = bench.image.clone();
        proved::parity(bench.kind, shelf, bench.sizes, &mut image, 1, &mut numbers);
        assert_eq!(numbers, plain);
    }
    if let Some(parity) = isal::parity(data, p) {
        assert_eq!(parity, plain);
    }
}

fn parity_table(tables: &mut Tables) {
    tables.line("\n### Parity of the blocks, byte field, beside ISA-L\n");
    tables.line("| k, p, n | core, image shelf | core, array shelf | plain Rust | plain Rust, products by tables | ISA-L | image : ISA-L | array : ISA-L | plain : ISA-L | tables : ISA-L |");
    tables.line("| --- | --- | --- | --- | --- | --- | --- | --- | --- | --- |");
    for [k, p, n] in [[10, 4, 64], [10, 4, 128], [10, 4, 255], [20, 4, 255], [40, 4, 255], [64, 4, 255]] {
        let bench = Bench::new::<plain::Byte>([k, p, n, 4]);
        let data = data_blocks(&bench);
        assert_same(&bench, &data);
        let mut jobs = vec![
            bench.core_parity(Shelf::Image),
            bench.core_parity(Shelf::Array),
            bench.plain_parity::<plain::Byte>(),
            bench.plain_parity::<plain::Tabled>(),
        ];
        jobs.extend(isal::job(data, p));
        let took = tables.times(&mut jobs);
        let mut cells: Vec<String> = took.iter().map(|time| shown(*time)).collect();
        if let [own @ .., isal] = &took[..] {
            if took.len() == 5 {
                cells.extend(own.iter().map(|time| format!("{:.0}", time / isal)));
            }
        }
        cells.resize(9, String::new());
        tables.line(&format!("| {k}, {p}, {n} | {} |", cells.join(" | ")));
    }
    let (k, p, n) = (10, 4, 65_536);
    if let Some(job) = isal::job(vec![vec![90; n]; k], p) {
        let took = tables.times(&mut [job]);
        let rate = (k * n) as f64 / took[0] / 1e9;
        let time = shown(took[0]);
        tables.line(&format!("\nISA-L alone, k = {k}, p = {p}, blocks of {n} bytes: {time}, {rate:.1} GB/s of data."));
    }
}

fn all_tables(tables: &mut Tables) {
    calls_table::<plain::Byte>(tables, [10, 4, 255, 4]);
    calls_table::<plain::Counter>(tables, [10, 4, 1_024, 4]);
    calls_table::<plain::Byte>(tables, [64, 4, 255, 8]);
    calls_table::<plain::Counter>(tables, [64, 4, 4_096, 8]);
    calls_table::<plain::Byte>(tables, [2, 2, 3, 2]);
    calls_table::<plain::Counter>(tables, [2, 2, 3, 2]);
    growth_table::<plain::Byte>(tables, "Byte field, n doubles", [[10, 4, 62, 4], [10, 4, 124, 4], [10, 4, 248, 4]]);
    growth_table::<plain::Byte>(tables, "Byte field, k doubles", [[16, 4, 255, 4], [32, 4, 255, 4], [64, 4, 255, 4]]);
    growth_table::<plain::Counter>(
        tables,
        "Counter field, n doubles",
        [[10, 4, 1_024, 4], [10, 4, 2_048, 4], [10, 4, 4_096, 4]],
    );
    growth_table::<plain::Counter>(
        tables,
        "Counter field, k doubles",
        [[16, 4, 1_024, 4], [32, 4, 1_024, 4], [64, 4, 1_024, 4]],
    );
    parity_table(tables);
    tables_table(tables, [10, 4, 255, 4]);
}

pub fn speed() -> bool {
    let mut tables = Tables::default();
    for pass in 0..PASSES {
        eprintln!("pass {} of {PASSES}", pass + 1);
        tables.begin_pass();
        all_tables(&mut tables);
    }
    print!("{}", tables.text);
    true
}
