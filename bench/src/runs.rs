//! Random runs: a tray's sizes, an image, and a script of calls with damage between them.

use crate::law::{Claims, Twin};
use crate::model::{Answer, Arithmetic, Call, Tray, Verdict};
use crate::proved::Kind;
use crate::random::Random;

#[derive(Clone, PartialEq, Eq, Debug)]
pub enum Step {
    Call(Call),
    /// A byte of the image is overwritten.
    Damage(usize, u8),
}

#[derive(Clone)]
pub struct Case {
    pub kind: Kind,
    pub sizes: [usize; 4],
    pub image: Vec<u8>,
    pub steps: Vec<Step>,
}

/// Every answer as five numbers, the symbols of reads and writes afterwards, and the image at the end.
#[derive(PartialEq, Eq)]
pub struct Outcome {
    pub answers: Vec<[usize; 5]>,
    pub numbers: Vec<usize>,
    pub image: Vec<u8>,
}

/// How long the rows of a run are.
#[derive(Clone, Copy, PartialEq, Eq, Debug)]
pub enum Length {
    Short,
    Middle,
    Long,
    Limits,
}

/// An answer's kind, what it carries, and the layer that section 8 gives: 1 call, 2 shelf, 3 row, 4 tray.
pub fn numbers_of(answer: Answer) -> [usize; 5] {
    let verdict = |verdict| match verdict {
        Verdict::Sound => (0, 0),
        Verdict::Hole(place) => (1, place),
        Verdict::Card(component) => (2, component),
    };
    match answer {
        Answer::Done => [0; 5],
        Answer::Verdict(found) => [100, verdict(found).0, verdict(found).1, 0, 0],
        Answer::Counts(sound, others) => [101, sound, others, 0, 0],
        Answer::Unread => [102, 0, 0, 0, 0],
        Answer::Row(row) => [103, row, 0, 0, 0],
        Answer::NoRow => [104, 0, 0, 0, 0],
        Answer::Mended(count) => [105, count, 0, 0, 0],
        Answer::Refused1 => [1, 0, 0, 0, 1],
        Answer::Refused2 => [2, 0, 0, 0, 1],
        Answer::Refused3 => [3, 0, 0, 0, 1],
        Answer::Refused4(row) => [4, row, 0, 0, 1],
        Answer::Refused5(start) => [5, start, 0, 0, 1],
        Answer::Refused6(row, found) => {
            let (kind, at) = verdict(found);
            [6, row, at, kind, if kind == 1 { 2 } else { 3 }]
        }
        Answer::Refused7(row, place) => [7, row, place, 0, 2],
        Answer::Refused8(row, place) => [8, row, place, 0, 4],
        Answer::Refused9(count) => [9, count, 0, 0, 1],
        Answer::Refused10 => [10, 0, 0, 0, 1],
        Answer::Refused11(row) => [11, row, 0, 0, 1],
    }
}

/// What the model says of a run, and what the law claimed of it.
pub fn followed(field: &Arithmetic, case: &Case) -> (Outcome, Claims) {
    let mut tray = Tray::new(field, case.sizes, case.image.clone());
    let mut twin = Twin::new();
    let mut answers = Vec::new();
    let mut numbers = Vec::new();
    for step in &case.steps {
        match step {
            Step::Call(call) => {
                let (answer, symbols) = twin.follow(field, &mut tray, call);
                answers.push(numbers_of(answer));
                numbers.extend(symbols);
            }
            Step::Damage(offset, value) => {
                if let Some(byte) = tray.image.get_mut(*offset) {
                    *byte = *value;
                }
                answers.push([0; 5]);
            }
        }
    }
    (Outcome { answers, numbers, image: tray.image }, twin.claims)
}

/// What the model says of a run.
pub fn expected(field: &Arithmetic, case: &Case) -> Outcome {
    followed(field, case).0
}

/// An image with these sizes in its head, whose parity rows fit and whose cards are fresh.
pub fn good_image(field: &Arithmetic, sizes: [usize; 4], random: &mut Random) -> Vec<u8> {
    let [k, p, n, m] = sizes;
    let cells = (k + p) * (n + m);
    let mut image = vec![field.number, k as u8, p as u8, m as u8, (n >> 8) as u8, n as u8];
    image.resize(6 + cells * (1 + field.width), 0);
    for mark in &mut image[6..6 + cells] {
        *mark = 1;
    }
    let mut tray = Tray::new(field, sizes, image);
    let mut parity = vec![vec![0; n]; p];
    for row in 0..k {
        let zeros = random.percent(10);
        let block: Vec<usize> = (0..n).map(|_| if zeros { 0 } else { random.below(field.q) }).collect();
        for (i, sums) in parity.iter_mut().enumerate() {
            if i < 4 && row + 4 < field.q {
                let g = field.coefficient(i, row);
                for (sum, symbol) in sums.iter_mut().zip(&block) {
                    *sum = field.plus(*sum, field.times(g, *symbol));
                }
            }
        }
        put_row(&mut tray, field, row, &block);
    }
    for (i, block) in parity.iter().enumerate() {
        put_row(&mut tray, field, k + i, block);
    }
    tray.image
}

fn put_row(tray: &mut Tray, field: &Arithmetic, row: usize, block: &[usize]) {
    for (place, symbol) in block.iter().chain(&field.card(block, tray.m)).enumerate() {
        tray.put(row, place, *symbol);
    }
}

fn sizes(kind: Kind, length: Length, random: &mut Random) -> [usize; 4] {
    let longest = if kind == Kind::Byte { 255 } else { 4_096 };
    let p = random.within(1, 4);
    let m = random.within(2, 8);
    match length {
        Length::Short => [random.within(1, 6), p, random.within(1, 12), m],
        Length::Middle => [random.within(1, 24), p, random.within(1, 80), m],
        Length::Long => {
            let lengths = if kind == Kind::Byte { [100, 200, 254, 255] } else { [100, 255, 256, 600] };
            [random.pick(&[1, 10, 40, 63, 64]), p, random.pick(&lengths), m]
        }
        Length::Limits => [random.pick(&[2, 16, 64]), 4, longest, random.pick(&[2, 8])],
    }
}

/// Sizes beyond the limits, of which an image can mostly still be made.
fn bad_sizes(kind: Kind, sizes: [usize; 4], random: &mut Random) -> [usize; 4] {
    let [k, p, n, m] = sizes;
    match random.below(12) {
        0 => [0, p, n, m],
        1 => [65, p, n, m],
        2 => [k, 0, n, m],
        3 => [k, 5, n, m],
        4 => [k, p, 0, m],
        5 => [k, p, if kind == Kind::Byte { 256 } else { 4_097 }, m],
        6 => [k, p, n, 0],
        7 => [k, p, n, 1],
        8 => [k, p, n, 9],
        9 => [usize::MAX, p, n, m],
        10 => [k, usize::MAX, usize::MAX, m],
        _ => [0, p, usize::MAX, usize::MAX],
    }
}

fn first_image(field: &Arithmetic, sizes: [usize; 4], random: &mut Random) -> Vec<u8> {
    let [k, p, n, m] = sizes;
    if k > 255 || p > 255 || n > 65_535 || m > 255 {
        return good_image(field, [2, 2, 3, 2], random);
    }
    let mut image = good_image(field, sizes, random);
    match random.below(100) {
        0..=1 => image.truncate(random.below(8)),
        2..=3 => image.push(1),
        4..=5 => image[0] = random.pick(&[0, 1, 2, 3, 255]),
        // other sizes in the head, of which some have the same length
        6 => image.swap(1, 2),
        7 => image[random.within(1, 5)] ^= 1,
        _ => {}
    }
    image
}

/// A run's script is made beside a model, since damage and arguments look at what the tray holds.
struct Writer<'a> {
    field: &'a Arithmetic,
    tray: Tray<'a>,
    /// The image when last all rows were sound and a mend had nothing to do.
    good: Vec<u8>,
    steps: Vec<Step>,
}

pub fn random_case(field: &Arithmetic, kind: Kind, length: Length, random: &mut Random) -> Case {
    let mut own = sizes(kind, length, random);
    if random.percent(4) {
        own = bad_sizes(kind, own, random);
    }
    let image = first_image(field, own, random);
    let mut head = own;
    if random.percent(2) {
        // the tray is made with other sizes than the image has
        let at = random.below(4);
        head[at] = head[at].wrapping_add(random.pick(&[1, usize::MAX]));
    }
    let mut case = Case { kind, sizes: head, image, steps: Vec::new() };
    let mut writer =
        Writer { field, tray: Tray::new(field, head, case.image.clone()), good: case.image.clone(), steps: Vec::new() };
    if writer.tray.fits() && random.percent(25) {
        writer.damage(random);
    }
    let start = writer.tray.image.clone();
    writer.steps.clear();
    case.image = start;
    let count = match length {
        Length::Short => random.within(1, 60),
        Length::Middle => random.within(1, 30),
        Length::Long => random.within(1, 14),
        Length::Limits => random.within(4, 8),
    };
    writer.begin(random);
    for _ in 0..count {
        writer.step(random);
    }
    case.steps = writer.steps;
    case
}

impl Writer<'_> {
    /// Mostly an intake, and where it is refused for a hole or a symbol, mostly another one after the bytes were put right.
    fn begin(&mut self, random: &mut Random) {
        if !random.percent(92) {
            return;
        }
        self.call(Call::Intake);
        if random.percent(80) {
            self.heal(random);
            self.call(Call::Intake);
        }
    }

    fn call(&mut self, call: Call) -> Answer {
        let (answer, _) = self.tray.call(&call);
        self.steps.push(Step::Call(call.clone()));
        if matches!(answer, Answer::Mended(_)) || (call == Call::Intake && answer == Answer::Done) {
            self.good = self.tray.image.clone();
        }
        answer
    }

    fn overwrite(&mut self, offset: usize, value: u8) {
        self.tray.image[offset] = value;
        self.steps.push(Step::Damage(offset, value));
    }

    fn row(&self, bound: usize, random: &mut Random) -> usize {
        match random.below(24) {
            0 => bound,
            1 => random.pick(&[bound.wrapping_add(1), usize::MAX, 68, 69]),
            _ if bound == 0 || bound > 1000 => 0,
            _ => random.below(bound),
        }
    }

    /// A start and a count, mostly allowed.
    fn span(&self, random: &mut Random) -> (usize, usize) {
        let n = self.tray.n.min(4_100);
        match random.below(20) {
            0 => (n, 0),
            1 => (n, 1),
            2 => (n + 1, 0),
            3 => (usize::MAX, random.below(3)),
            4 => (random.within(0, n), n),
            5 => (0, n),
            6 => (0, n + 1),
            7 => (random.within(0, n), 0),
            _ => {
                let start = random.within(0, n);
                let left = n - start;
                let most = random.pick(&[1, 2, 8, 4_096]);
                (start, random.within(0, left.min(most)))
            }
        }
    }

    fn symbols(&self, count: usize, random: &mut Random) -> Vec<usize> {
        let edges = [0, 1, self.field.q - 1, self.field.q - 2];
        (0..count).map(|_| if random.percent(10) { random.pick(&edges) } else { random.below(self.field.q) }).collect()
    }

    fn step(&mut self, random: &mut Random) {
        let rows = self.tray.k.wrapping_add(self.tray.p);
        match random.below(100) {
            0..=1 => drop(self.call(Call::Fit)),
            2..=3 => drop(self.call(Call::Intake)),
            4..=13 => {
                let row = self.row(rows, random);
                self.call(Call::Audit(row));
            }
            14..=23 => {
                let (row, (start, count)) = (self.row(rows, random), self.span(random));
                let buffer = self.symbols(count, random);
                self.call(Call::Read(row, start, buffer));
            }
            24..=39 => {
                let (row, (start, count)) = (self.row(self.tray.k, random), self.span(random));
                let symbols = self.symbols(count, random);
                self.call(Call::Write(row, start, symbols));
            }
            40..=44 => drop(self.call(Call::Cross)),
            45..=49 => {
                self.call(Call::Begin);
                self.walk(random);
            }
            50..=55 => self.walk(random),
            56..=60 => drop(self.call(Call::Totals)),
            61 => drop(self.call(Call::Step)),
            62..=66 => {
                let row = self.row(rows, random);
                self.call(Call::Record(row));
            }
            67..=69 => drop(self.call(Call::First)),
            70..=77 => drop(self.call(Call::Mend)),
            78..=81 => self.heal(random),
            _ => self.damage(random),
        }
    }

    /// Steps for as long as they are accepted, or a few of them.
    fn walk(&mut self, random: &mut Random) {
        let whole = random.percent(60);
        for _ in 0..70 {
            let walked = matches!(self.call(Call::Step), Answer::Verdict(_));
            if !walked || (!whole && random.percent(40)) {
                break;
            }
        }
    }

    /// Puts back the bytes of the last good image, all of them or one row's.
    fn heal(&mut self, random: &mut Random) {
        if self.good.len() != self.tray.image.len() || !self.tray.fits() {
            return;
        }
        let row = random.below(self.tray.rows());
        let all = random.percent(60);
        let (first, _) = self.tray.offsets(row, 0);
        let (_, code) = self.tray.offsets(row, 0);
        let places = self.tray.n + self.tray.m;
        let own =
            |at: usize| (first..first + places).contains(&at) || (code..code + places * self.field.width).contains(&at);
        let changes: Vec<usize> =
            (0..self.good.len()).filter(|at| self.good[*at] != self.tray.image[*at] && (all || own(*at))).collect();
        if changes.len() <= 400 {
            for at in changes {
                self.overwrite(at, self.good[at]);
            }
        }
    }

    fn mark(&mut self, row: usize, place: usize, mark: u8) {
        let (at, _) = self.tray.offsets(row, place);
        self.overwrite(at, mark);
    }

    fn code(&mut self, row: usize, place: usize, number: usize) {
        let (_, at) = self.tray.offsets(row, place);
        let width = self.field.width;
        for i in 0..width {
            self.overwrite(at + i, (number >> (8 * (width - 1 - i))) as u8);
        }
    }

    fn damage(&mut self, random: &mut Random) {
        if !self.tray.fits() {
            return;
        }
        for _ in 0..random.pick(&[1, 1, 1, 2, 3, 5]) {
            self.damage_row(random);
        }
        if random.percent(1) {
            let value = random.below(256) as u8;
            let at = random.below(6);
            self.overwrite(at, value);
        }
    }

    fn damage_row(&mut self, random: &mut Random) {
        let (n, m) = (self.tray.n, self.tray.m);
        let row = random.below(self.tray.rows());
        let place = random.below(n);
        let anywhere = random.below(n + m);
        match random.below(10) {
            0..=1 => self.mark(row, anywhere, random.pick(&[0, 2, 255])),
            2 => self.mark(row, anywhere, 1),
            3 => self.code(row, n + random.below(m), random.below(self.field.q)),
            4 if self.field.width == 3 => {
                self.code(row, anywhere, random.pick(&[65_537, 65_536, 131_072, 0xFF_FFFF]));
            }
            4..=5 => self.code(row, place, random.below(self.field.q)),
            6 => {
                for _ in 0..random.within(1, m + 3) {
                    self.code(row, random.below(n), random.below(self.field.q));
                }
            }
            7 => self.unseen(row, random),
            8 => {
                self.code(row, place, random.below(self.field.q));
                self.freshen(row);
            }
            _ => {
                for _ in 0..random.within(2, 6) {
                    let other = random.below(self.tray.rows());
                    self.code(other, place, random.below(self.field.q));
                }
            }
        }
    }

    /// Makes the card that the row's block now has.
    fn freshen(&mut self, row: usize) {
        if let Some(block) = self.tray.block(row) {
            for (c, component) in self.field.card(&block, self.tray.m).into_iter().enumerate() {
                self.code(row, self.tray.n + c, component);
            }
        }
    }

    /// Changes m + 1 block places so that the card stays: by a multiple of the polynomial whose zeros are α^0 to α^(m − 1).
    fn unseen(&mut self, row: usize, random: &mut Random) {
        let (n, m, field) = (self.tray.n, self.tray.m, self.field);
        let Some(block) = self.tray.block(row) else { return };
        if n <= m {
            return;
        }
        let mut polynomial = vec![random.within(1, field.q - 1)];
        for c in 0..m {
            let mut next = vec![0; polynomial.len() + 1];
            for (i, a) in polynomial.iter().enumerate() {
                next[i + 1] = field.plus(next[i + 1], *a);
                next[i] = field.minus(next[i], field.times(field.power(c), *a));
            }
            polynomial = next;
        }
        let start = random.below(n - m);
        for (i, a) in polynomial.into_iter().enumerate() {
            self.code(row, start + i, field.plus(block[start + i], a));
        }
    }
}
