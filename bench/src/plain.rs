//! The same algorithms in straightforward Rust, over vectors, to time the proved core beside: symbol by symbol, and for bytes the same product,
//! bit by bit. Nothing is refused here but what the work itself finds.

pub trait Symbol: Copy + PartialEq {
    const ZERO: Self;
    const ONE: Self;
    const ALPHA: Self;
    fn numbered(number: usize) -> Self;
    fn plus(self, other: Self) -> Self;
    fn minus(self, other: Self) -> Self;
    fn times(self, other: Self) -> Self;
    fn inverse(self) -> Self;
}

#[derive(Clone, Copy, PartialEq, Eq, Debug)]
pub struct Byte(pub u8);

fn doubled(a: u8) -> u8 {
    if a < 128 {
        a << 1
    } else {
        (a << 1) ^ 0x1D
    }
}

impl Symbol for Byte {
    const ZERO: Self = Byte(0);
    const ONE: Self = Byte(1);
    const ALPHA: Self = Byte(2);

    fn numbered(number: usize) -> Self {
        Byte(number as u8)
    }

    fn plus(self, other: Self) -> Self {
        Byte(self.0 ^ other.0)
    }

    fn minus(self, other: Self) -> Self {
        Byte(self.0 ^ other.0)
    }

    fn times(self, other: Self) -> Self {
        let mut sum = 0;
        for i in (0..8).rev() {
            sum = doubled(sum);
            if (other.0 >> i) % 2 == 1 {
                sum ^= self.0;
            }
        }
        Byte(sum)
    }

    fn inverse(self) -> Self {
        let (mut square, mut power) = (self, Byte(1));
        for _ in 0..7 {
            square = square.times(square);
            power = power.times(square);
        }
        power
    }
}

/// A byte whose products go by tables of logarithms: what the bit by bit product costs shows beside it.
#[derive(Clone, Copy, PartialEq, Eq, Debug)]
pub struct Tabled(pub u8);

struct Tables {
    powers: [u8; 510],
    logs: [u8; 256],
}

static TABLES: Tables = tables();

const fn tables() -> Tables {
    let mut tables = Tables { powers: [0; 510], logs: [0; 256] };
    let mut power: u8 = 1;
    let mut i = 0;
    while i < 255 {
        tables.powers[i] = power;
        tables.powers[i + 255] = power;
        tables.logs[power as usize] = i as u8;
        power = if power < 128 { power << 1 } else { (power << 1) ^ 0x1D };
        i += 1;
    }
    tables
}

impl Symbol for Tabled {
    const ZERO: Self = Tabled(0);
    const ONE: Self = Tabled(1);
    const ALPHA: Self = Tabled(2);

    fn numbered(number: usize) -> Self {
        Tabled(number as u8)
    }

    fn plus(self, other: Self) -> Self {
        Tabled(self.0 ^ other.0)
    }

    fn minus(self, other: Self) -> Self {
        Tabled(self.0 ^ other.0)
    }

    fn times(self, other: Self) -> Self {
        if self.0 == 0 || other.0 == 0 {
            return Tabled(0);
        }
        let log = TABLES.logs[self.0 as usize] as usize + TABLES.logs[other.0 as usize] as usize;
        Tabled(TABLES.powers[log])
    }

    fn inverse(self) -> Self {
        Byte(self.0).inverse().into()
    }
}

impl From<Byte> for Tabled {
    fn from(byte: Byte) -> Self {
        Tabled(byte.0)
    }
}

#[derive(Clone, Copy, PartialEq, Eq, Debug)]
pub struct Counter(pub u32);

const PRIME: u64 = 65_537;

impl Symbol for Counter {
    const ZERO: Self = Counter(0);
    const ONE: Self = Counter(1);
    const ALPHA: Self = Counter(3);

    fn numbered(number: usize) -> Self {
        Counter(number as u32)
    }

    fn plus(self, other: Self) -> Self {
        Counter(((self.0 as u64 + other.0 as u64) % PRIME) as u32)
    }

    fn minus(self, other: Self) -> Self {
        Counter(((self.0 as u64 + PRIME - other.0 as u64) % PRIME) as u32)
    }

    fn times(self, other: Self) -> Self {
        Counter((self.0 as u64 * other.0 as u64 % PRIME) as u32)
    }

    fn inverse(self) -> Self {
        let mut power = Counter(1);
        for _ in 0..16 {
            power = power.times(power).times(self);
        }
        // the power 65,535
        power
    }
}

pub struct Tray<F> {
    pub k: usize,
    pub p: usize,
    pub n: usize,
    pub m: usize,
    pub symbols: Vec<F>,
    pub marks: Vec<u8>,
}

impl<F: Symbol> Tray<F> {
    pub fn get(&self, row: usize, place: usize) -> Option<F> {
        let at = row * (self.n + self.m) + place;
        if self.marks[at] == 1 {
            Some(self.symbols[at])
        } else {
            None
        }
    }

    pub fn put(&mut self, row: usize, place: usize, symbol: F) {
        let at = row * (self.n + self.m) + place;
        self.symbols[at] = symbol;
        self.marks[at] = 1;
    }

    pub fn lose(&mut self, row: usize, place: usize) {
        let at = row * (self.n + self.m) + place;
        self.marks[at] = 0;
    }

    fn symbol(&self, row: usize, place: usize) -> F {
        self.get(row, place).unwrap_or(F::ZERO)
    }

    fn coefficient(i: usize, j: usize) -> F {
        let (row, column) = (F::numbered(i), F::numbered(j + 4));
        F::ZERO.minus(column).times(row.minus(column).inverse())
    }

    fn coefficients(&self, i: usize) -> Vec<F> {
        (0..self.k).map(|j| Self::coefficient(i, j)).collect()
    }

    fn component(&self, row: usize, c: usize) -> F {
        let point = (0..c).fold(F::ONE, |power, _| power.times(F::ALPHA));
        (0..self.n).rev().fold(F::ZERO, |sum, place| self.symbol(row, place).plus(point.times(sum)))
    }

    pub fn sound(&self, row: usize) -> bool {
        (0..self.n + self.m).all(|place| self.get(row, place).is_some())
            && (0..self.m).all(|c| self.component(row, c) == self.symbol(row, self.n + c))
    }

    fn combination(&self, weights: &[F], place: usize) -> F {
        weights.iter().enumerate().fold(F::ZERO, |sum, (j, weight)| sum.plus(weight.times(self.symbol(j, place))))
    }

    pub fn parity(&self) -> Vec<F> {
        let mut out = Vec::with_capacity(self.p * self.n);
        for i in 0..self.p {
            let weights = self.coefficients(i);
            out.extend((0..self.n).map(|place| self.combination(&weights, place)));
        }
        out
    }

    fn put_card(&mut self, row: usize) {
        for c in 0..self.m {
            let component = self.component(row, c);
            self.put(row, self.n + c, component);
        }
    }

    pub fn intake(&mut self) -> bool {
        let rows = self.k + self.p;
        if (0..rows).any(|row| (0..self.n).any(|place| self.get(row, place).is_none())) {
            return false;
        }
        for i in 0..self.p {
            let weights = self.coefficients(i);
            if (0..self.n).any(|place| self.combination(&weights, place) != self.symbol(self.k + i, place)) {
                return false;
            }
        }
        for row in 0..rows {
            self.put_card(row);
        }
        true
    }

    pub fn write(&mut self, row: usize, start: usize, symbols: &[F]) -> bool {
        if !self.sound(row) || !(0..self.p).all(|i| self.sound(self.k + i)) {
            return false;
        }
        let column: Vec<F> = (0..self.p).map(|i| Self::coefficient(i, row)).collect();
        let mut bases = vec![F::ONE; self.m];
        for c in 1..self.m {
            bases[c] = bases[c - 1].times(F::ALPHA);
        }
        let mut powers = vec![F::ONE; self.m];
        for _ in 0..start {
            powers.iter_mut().zip(&bases).for_each(|(power, base)| *power = power.times(*base));
        }
        for (i, symbol) in symbols.iter().enumerate() {
            let place = start + i;
            let change = symbol.minus(self.symbol(row, place));
            self.grow(row, place, &powers, change);
            for (i, weight) in column.iter().enumerate() {
                self.grow(self.k + i, place, &powers, weight.times(change));
            }
            powers.iter_mut().zip(&bases).for_each(|(power, base)| *power = power.times(*base));
        }
        true
    }

    fn grow(&mut self, row: usize, place: usize, powers: &[F], change: F) {
        self.put(row, place, self.symbol(row, place).plus(change));
        for (c, power) in powers.iter().enumerate() {
            self.put(row, self.n + c, self.symbol(row, self.n + c).plus(power.times(change)));
        }
    }

    /// How many rows were put back, if they can be.
    pub fn mend(&mut self) -> Option<usize> {
        let rows = self.k + self.p;
        let damaged: Vec<usize> = (0..rows).filter(|row| !self.sound(*row)).collect();
        if damaged.len() > self.p {
            return None;
        }
        let lost: Vec<usize> = damaged.iter().copied().filter(|row| *row < self.k).collect();
        let parity: Vec<usize> = (0..self.p).filter(|i| !damaged.contains(&(self.k + i))).collect();
        let mut weights: Vec<Vec<F>> = (0..self.p).map(|i| self.coefficients(i)).collect();
        let blocks = self.lost_blocks(&lost, &parity, &weights);
        for (row, block) in lost.iter().zip(&blocks) {
            for (place, symbol) in block.iter().enumerate() {
                self.put(*row, place, *symbol);
            }
        }
        for i in &parity {
            if (0..self.n).any(|place| self.combination(&weights[*i], place) != self.symbol(self.k + i, place)) {
                return None;
            }
        }
        for row in &damaged {
            if *row >= self.k {
                let weights = std::mem::take(&mut weights[row - self.k]);
                for place in 0..self.n {
                    let symbol = self.combination(&weights, place);
                    self.put(*row, place, symbol);
                }
            }
            self.put_card(*row);
        }
        Some(damaged.len())
    }

    /// The lost blocks: a small inverse once, and then a sum over the rows at each place.
    fn lost_blocks(&self, lost: &[usize], parity: &[usize], weights: &[Vec<F>]) -> Vec<Vec<F>> {
        let r = lost.len();
        let square: Vec<Vec<F>> = (0..r).map(|a| lost.iter().map(|j| weights[parity[a]][*j]).collect()).collect();
        let inverse = inverted(square);
        let mut blocks = vec![Vec::with_capacity(self.n); r];
        for place in 0..self.n {
            let right: Vec<F> = (0..r)
                .map(|a| {
                    let mut sum = self.symbol(self.k + parity[a], place);
                    for j in (0..self.k).filter(|j| !lost.contains(j)) {
                        sum = sum.minus(weights[parity[a]][j].times(self.symbol(j, place)));
                    }
                    sum
                })
                .collect();
            for (b, block) in blocks.iter_mut().enumerate() {
                block.push((0..r).fold(F::ZERO, |sum, a| sum.plus(inverse[b][a].times(right[a]))));
            }
        }
        blocks
    }
}

/// The inverse of a small matrix whose squares all have one.
fn inverted<F: Symbol>(mut rows: Vec<Vec<F>>) -> Vec<Vec<F>> {
    let r = rows.len();
    for (a, row) in rows.iter_mut().enumerate() {
        row.extend((0..r).map(|b| if a == b { F::ONE } else { F::ZERO }));
    }
    for column in 0..r {
        let scale = rows[column][column].inverse();
        rows[column].iter_mut().for_each(|entry| *entry = entry.times(scale));
        let chosen = rows[column].clone();
        for (at, row) in rows.iter_mut().enumerate().filter(|(at, _)| *at != column) {
            let factor = row[column];
            debug_assert!(at < r);
            row.iter_mut().zip(&chosen).for_each(|(entry, base)| *entry = entry.minus(factor.times(*base)));
        }
    }
    rows.into_iter().map(|row| row[r..].to_vec()).collect()
}
