//! A second tray, written from docs/RULES.md alone, to compare the proved core with.
//! Products go by tables of logarithms, cards by tables of powers, and a mend by Gaussian elimination over whole rows.

/// A field of q elements, by their numbers, with the powers of α and their logarithms.
pub struct Arithmetic {
    pub number: u8,
    pub q: usize,
    pub reach: usize,
    pub width: usize,
    powers: Vec<usize>,
    logs: Vec<usize>,
}

impl Arithmetic {
    /// In both fields the powers of α run through every element but zero.
    fn with_powers(number: u8, q: usize, reach: usize, width: usize, next: fn(usize) -> usize) -> Self {
        let mut powers = vec![1; q - 1];
        let mut logs = vec![0; q];
        for i in 1..q - 1 {
            powers[i] = next(powers[i - 1]);
            logs[powers[i]] = i;
        }
        assert_eq!(next(powers[q - 2]), 1);
        Arithmetic { number, q, reach, width, powers, logs }
    }

    pub fn byte() -> Self {
        Self::with_powers(1, 256, 255, 1, |a| if a & 0x80 == 0 { a << 1 } else { (a << 1) ^ 0x11D })
    }

    pub fn counter() -> Self {
        Self::with_powers(2, 65_537, 4_096, 3, |a| a * 3 % 65_537)
    }

    pub fn plus(&self, a: usize, b: usize) -> usize {
        if self.q == 256 {
            a ^ b
        } else {
            (a + b) % self.q
        }
    }

    pub fn minus(&self, a: usize, b: usize) -> usize {
        if self.q == 256 {
            a ^ b
        } else {
            (a + self.q - b) % self.q
        }
    }

    pub fn times(&self, a: usize, b: usize) -> usize {
        if a == 0 || b == 0 {
            0
        } else {
            self.powers[(self.logs[a] + self.logs[b]) % (self.q - 1)]
        }
    }

    pub fn over(&self, a: usize, b: usize) -> usize {
        assert_ne!(b, 0);
        if a == 0 {
            0
        } else {
            self.powers[(self.logs[a] + (self.q - 1) - self.logs[b]) % (self.q - 1)]
        }
    }

    /// α to this power.
    pub fn power(&self, exponent: usize) -> usize {
        self.powers[exponent % (self.q - 1)]
    }

    /// g(i, j) of section 5.
    pub fn coefficient(&self, i: usize, j: usize) -> usize {
        self.over(self.minus(0, 4 + j), self.minus(i, 4 + j))
    }

    /// Section 4's sum.
    pub fn card(&self, block: &[usize], m: usize) -> Vec<usize> {
        (0..m)
            .map(|c| {
                block
                    .iter()
                    .enumerate()
                    .fold(0, |sum, (place, symbol)| self.plus(sum, self.times(self.power(c * place), *symbol)))
            })
            .collect()
    }
}

#[derive(Clone, Copy, PartialEq, Eq, Debug)]
pub enum Verdict {
    Sound,
    Hole(usize),
    Card(usize),
}

#[derive(Clone, Copy, PartialEq, Eq, Debug)]
pub enum Answer {
    Done,
    Verdict(Verdict),
    Counts(usize, usize),
    Unread,
    Row(usize),
    NoRow,
    Mended(usize),
    Refused1,
    Refused2,
    Refused3,
    Refused4(usize),
    Refused5(usize),
    Refused6(usize, Verdict),
    Refused7(usize, usize),
    Refused8(usize, usize),
    Refused9(usize),
    Refused10,
    Refused11(usize),
}

#[derive(Clone, Copy, PartialEq, Eq)]
enum Round {
    Resting,
    At(usize),
    Over,
}

/// One of the twelve calls. A read's symbols are its buffer's, before the call.
#[derive(Clone, PartialEq, Eq, Debug)]
pub enum Call {
    Fit,
    Intake,
    Audit(usize),
    Read(usize, usize, Vec<usize>),
    Write(usize, usize, Vec<usize>),
    Cross,
    Begin,
    Step,
    Totals,
    Record(usize),
    First,
    Mend,
}

/// The four sizes, and an image in memory of its own.
pub struct Tray<'a> {
    field: &'a Arithmetic,
    pub k: usize,
    pub p: usize,
    pub n: usize,
    pub m: usize,
    pub image: Vec<u8>,
    taken: bool,
    round: Round,
    sheet: Vec<Option<Verdict>>,
    coefficients: Vec<Vec<usize>>,
}

impl<'a> Tray<'a> {
    pub fn new(field: &'a Arithmetic, sizes: [usize; 4], image: Vec<u8>) -> Self {
        let [k, p, n, m] = sizes;
        let limited = k <= 64 && p <= 4;
        let coefficients = if limited {
            (0..p).map(|i| (0..k).map(|j| field.coefficient(i, j)).collect()).collect()
        } else {
            Vec::new()
        };
        Tray { field, k, p, n, m, image, taken: false, round: Round::Resting, sheet: vec![None; 68], coefficients }
    }

    /// The shelf's rows and places: sections 3 and 10.
    fn shelf(&self) -> (usize, usize) {
        let bytes = &self.image;
        if bytes.len() < 6 || bytes[0] != self.field.number {
            return (0, 0);
        }
        let rows = bytes[1] as usize + bytes[2] as usize;
        let places = bytes[3] as usize + bytes[4] as usize * 256 + bytes[5] as usize;
        if bytes.len() == 6 + rows * places * (1 + self.field.width) {
            (rows, places)
        } else {
            (0, 0)
        }
    }

    /// Where the mark and the code of a place lie.
    pub fn offsets(&self, row: usize, place: usize) -> (usize, usize) {
        let (rows, places) = self.shelf();
        let index = row * places + place;
        (6 + index, 6 + rows * places + index * self.field.width)
    }

    pub fn get(&self, row: usize, place: usize) -> Option<usize> {
        let (mark, code) = self.offsets(row, place);
        let number =
            self.image[code..code + self.field.width].iter().fold(0, |number, byte| number << 8 | *byte as usize);
        (self.image[mark] == 1 && number < self.field.q).then_some(number)
    }

    pub fn put(&mut self, row: usize, place: usize, symbol: usize) {
        let (mark, code) = self.offsets(row, place);
        self.image[mark] = 1;
        for i in 0..self.field.width {
            self.image[code + i] = (symbol >> (8 * (self.field.width - 1 - i))) as u8;
        }
    }

    pub fn rows(&self) -> usize {
        self.k + self.p
    }

    pub fn fits(&self) -> bool {
        if !(1..=64).contains(&self.k) || !(1..=4).contains(&self.p) {
            return false;
        }
        if !(1..=4096).contains(&self.n) || !(2..=8).contains(&self.m) {
            return false;
        }
        self.field.q >= self.k + 4 && self.n <= self.field.reach && self.shelf() == (self.k + self.p, self.n + self.m)
    }

    /// The symbols of a row's block, if it has no hole.
    pub fn block(&self, row: usize) -> Option<Vec<usize>> {
        (0..self.n).map(|place| self.get(row, place)).collect()
    }

    pub fn stored_card(&self, row: usize) -> Option<Vec<usize>> {
        (self.n..self.n + self.m).map(|place| self.get(row, place)).collect()
    }

    pub fn verdict(&self, row: usize) -> Verdict {
        if let Some(place) = (0..self.n + self.m).find(|place| self.get(row, *place).is_none()) {
            return Verdict::Hole(place);
        }
        let fresh = self.field.card(&self.block(row).unwrap(), self.m);
        let stored = self.stored_card(row).unwrap();
        match (0..self.m).find(|c| fresh[*c] != stored[*c]) {
            Some(component) => Verdict::Card(component),
            None => Verdict::Sound,
        }
    }

    /// What parity row i is to hold, from these data rows.
    fn combined(&self, i: usize, data: &[Vec<usize>]) -> Vec<usize> {
        let mut sums = vec![0; data[0].len()];
        for (j, row) in data.iter().enumerate() {
            for (sum, symbol) in sums.iter_mut().zip(row) {
                *sum = self.field.plus(*sum, self.field.times(self.coefficients[i][j], *symbol));
            }
        }
        sums
    }

    fn first_difference(&self, i: usize, held: &[usize], data: &[Vec<usize>]) -> Option<usize> {
        let wanted = self.combined(i, data);
        (0..wanted.len()).find(|at| wanted[*at] != held[*at])
    }

    fn put_row(&mut self, row: usize, block: &[usize]) {
        for (place, symbol) in block.iter().enumerate() {
            self.put(row, place, *symbol);
        }
        for (c, component) in self.field.card(block, self.m).into_iter().enumerate() {
            self.put(row, self.n + c, component);
        }
    }

    /// Makes a call, and answers with the buffer as the call leaves it.
    pub fn call(&mut self, call: &Call) -> (Answer, Vec<usize>) {
        let given = match call {
            Call::Read(_, _, symbols) | Call::Write(_, _, symbols) => symbols.clone(),
            _ => Vec::new(),
        };
        match self.answer(call) {
            Ok((answer, Some(symbols))) => (answer, symbols),
            Ok((answer, None)) | Err(answer) => (answer, given),
        }
    }

    fn answer(&mut self, call: &Call) -> Result<(Answer, Option<Vec<usize>>), Answer> {
        if !self.fits() {
            return Err(Answer::Refused1);
        }
        if *call == Call::Fit {
            return Ok((Answer::Done, None));
        }
        if *call == Call::Intake {
            return self.intake().map(|()| (Answer::Done, None));
        }
        if !self.taken {
            return Err(Answer::Refused2);
        }
        if let Call::Read(row, start, buffer) = call {
            let symbols = self.read(*row, *start, buffer.len())?;
            return Ok((Answer::Done, Some(symbols)));
        }
        let answer = match call {
            Call::Fit | Call::Intake | Call::Read(..) => unreachable!("answered above"),
            Call::Audit(row) => {
                self.row_below(*row, self.rows())?;
                Answer::Verdict(self.verdict(*row))
            }
            Call::Write(row, start, symbols) => self.write(*row, *start, symbols)?,
            Call::Cross => self.cross()?,
            Call::Begin => self.begin()?,
            Call::Step => self.step()?,
            Call::Totals => self.totals()?,
            Call::Record(row) => {
                self.row_below(*row, self.rows())?;
                self.sheet[*row].map_or(Answer::Unread, Answer::Verdict)
            }
            Call::First => (0..self.rows())
                .find(|row| !matches!(self.sheet[*row], None | Some(Verdict::Sound)))
                .map_or(Answer::NoRow, Answer::Row),
            Call::Mend => self.mend()?,
        };
        Ok((answer, None))
    }

    fn row_below(&self, row: usize, bound: usize) -> Result<(), Answer> {
        if row < bound {
            Ok(())
        } else {
            Err(Answer::Refused4(row))
        }
    }

    fn span(&self, start: usize, count: usize) -> Result<(), Answer> {
        let end = start as u128 + count as u128;
        if end <= self.n as u128 {
            Ok(())
        } else {
            Err(Answer::Refused5(start))
        }
    }

    fn sound(&self, row: usize) -> Result<(), Answer> {
        match self.verdict(row) {
            Verdict::Sound => Ok(()),
            verdict => Err(Answer::Refused6(row, verdict)),
        }
    }

    fn intake(&mut self) -> Result<(), Answer> {
        if self.taken {
            return Err(Answer::Refused3);
        }
        for row in 0..self.rows() {
            if let Some(place) = (0..self.n).find(|place| self.get(row, *place).is_none()) {
                return Err(Answer::Refused7(row, place));
            }
        }
        let blocks: Vec<Vec<usize>> = (0..self.rows()).map(|row| self.block(row).unwrap()).collect();
        for i in 0..self.p {
            let row = self.k + i;
            if let Some(place) = self.first_difference(i, &blocks[row], &blocks[..self.k]) {
                return Err(Answer::Refused8(row, place));
            }
        }
        for (row, block) in blocks.iter().enumerate() {
            self.put_row(row, block);
        }
        self.taken = true;
        Ok(())
    }

    fn read(&self, row: usize, start: usize, count: usize) -> Result<Vec<usize>, Answer> {
        self.row_below(row, self.rows())?;
        self.span(start, count)?;
        self.sound(row)?;
        Ok(self.block(row).unwrap()[start..start + count].to_vec())
    }

    /// All touched rows are sound, so their cards afterwards are those of their new blocks.
    fn write(&mut self, row: usize, start: usize, symbols: &[usize]) -> Result<Answer, Answer> {
        self.row_below(row, self.k)?;
        self.span(start, symbols.len())?;
        self.sound(row)?;
        for i in 0..self.p {
            self.sound(self.k + i)?;
        }
        let old = self.block(row).unwrap();
        let mut new = old.clone();
        new[start..start + symbols.len()].copy_from_slice(symbols);
        for i in 0..self.p {
            let mut parity = self.block(self.k + i).unwrap();
            for place in start..start + symbols.len() {
                let change = self.field.minus(new[place], old[place]);
                let share = self.field.times(self.coefficients[i][row], change);
                parity[place] = self.field.plus(parity[place], share);
            }
            self.put_row(self.k + i, &parity);
        }
        self.put_row(row, &new);
        Ok(Answer::Done)
    }

    fn cross(&self) -> Result<Answer, Answer> {
        for row in 0..self.rows() {
            for place in self.n..self.n + self.m {
                if self.get(row, place).is_none() {
                    return Err(Answer::Refused7(row, place));
                }
            }
        }
        let cards: Vec<Vec<usize>> = (0..self.rows()).map(|row| self.stored_card(row).unwrap()).collect();
        for i in 0..self.p {
            if let Some(c) = self.first_difference(i, &cards[self.k + i], &cards[..self.k]) {
                return Err(Answer::Refused8(self.k + i, self.n + c));
            }
        }
        Ok(Answer::Done)
    }

    fn begin(&mut self) -> Result<Answer, Answer> {
        if let Round::At(row) = self.round {
            return Err(Answer::Refused11(row));
        }
        self.sheet = vec![None; 68];
        self.round = Round::At(0);
        Ok(Answer::Done)
    }

    fn step(&mut self) -> Result<Answer, Answer> {
        let Round::At(row) = self.round else {
            return Err(Answer::Refused10);
        };
        let verdict = self.verdict(row);
        self.sheet[row] = Some(verdict);
        self.round = if row + 1 == self.rows() { Round::Over } else { Round::At(row + 1) };
        Ok(Answer::Verdict(verdict))
    }

    fn totals(&self) -> Result<Answer, Answer> {
        if self.round != Round::Over {
            return Err(Answer::Refused10);
        }
        let sound = (0..self.rows()).filter(|row| self.sheet[*row] == Some(Verdict::Sound)).count();
        Ok(Answer::Counts(sound, self.rows() - sound))
    }

    fn mend(&mut self) -> Result<Answer, Answer> {
        let damaged: Vec<usize> = (0..self.rows()).filter(|row| self.verdict(*row) != Verdict::Sound).collect();
        if damaged.len() > self.p {
            return Err(Answer::Refused9(damaged.len()));
        }
        let lost: Vec<usize> = damaged.iter().copied().filter(|row| *row < self.k).collect();
        let parity: Vec<usize> = (0..self.p).filter(|i| !damaged.contains(&(self.k + i))).collect();
        let mut data: Vec<Vec<usize>> = (0..self.k)
            .map(|row| if lost.contains(&row) { vec![0; self.n] } else { self.block(row).unwrap() })
            .collect();
        for (row, block) in lost.iter().zip(self.solved(&lost, &parity[..lost.len()], &data)) {
            data[*row] = block;
        }
        for i in &parity {
            let held = self.block(self.k + i).unwrap();
            if let Some(place) = self.first_difference(*i, &held, &data) {
                return Err(Answer::Refused8(self.k + i, place));
            }
        }
        for row in &damaged {
            let block = if *row < self.k { data[*row].clone() } else { self.combined(row - self.k, &data) };
            self.put_row(*row, &block);
        }
        Ok(Answer::Mended(damaged.len()))
    }

    /// The lost blocks, by elimination over rows of coefficients and right-hand sides. In `data` the lost rows are zero.
    fn solved(&self, lost: &[usize], parity: &[usize], data: &[Vec<usize>]) -> Vec<Vec<usize>> {
        let field = self.field;
        let mut rows: Vec<Vec<usize>> = parity
            .iter()
            .map(|i| {
                let known = self.combined(*i, data);
                let held = self.block(self.k + i).unwrap();
                let mut row: Vec<usize> = lost.iter().map(|j| self.coefficients[*i][*j]).collect();
                row.extend(held.iter().zip(&known).map(|(held, known)| field.minus(*held, *known)));
                row
            })
            .collect();
        for column in 0..lost.len() {
            let pivot =
                (column..rows.len()).find(|row| rows[*row][column] != 0).expect("section 7: exactly one solution");
            rows.swap(column, pivot);
            let scale = rows[column][column];
            for entry in rows[column].iter_mut() {
                *entry = field.over(*entry, scale);
            }
            let chosen = rows[column].clone();
            for (at, row) in rows.iter_mut().enumerate() {
                let factor = row[column];
                if at != column && factor != 0 {
                    for (entry, base) in row.iter_mut().zip(&chosen) {
                        *entry = field.minus(*entry, field.times(factor, *base));
                    }
                }
            }
        }
        rows.into_iter().map(|row| row[lost.len()..].to_vec()).collect()
    }
}
