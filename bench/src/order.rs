//! The puts of a write, one by one: section 7 fixes their order, and no comparison of what stands on the shelf afterwards shows it.

use crate::model::{Answer, Arithmetic, Call, Tray};
use crate::proved::{self, Kind};
use crate::random::Random;
use crate::runs::good_image;

/// A row, a place and a number.
type Put = [usize; 3];

/// Symbols of a touched row, grown in place by a change, with the puts that this takes.
struct Growing<'a> {
    field: &'a Arithmetic,
    tray: Tray<'a>,
    puts: Vec<Put>,
}

impl Growing<'_> {
    fn grow(&mut self, row: usize, place: usize, change: usize) {
        let symbol = self.field.plus(self.tray.get(row, place).expect("a sound row"), change);
        self.tray.put(row, place, symbol);
        self.puts.push([row, place, symbol]);
    }

    /// A row's symbol, and then its card from component 0 on.
    fn grow_row(&mut self, row: usize, place: usize, change: usize) {
        self.grow(row, place, change);
        for c in 0..self.tray.m {
            let share = self.field.times(self.field.power(c * place), change);
            self.grow(row, self.tray.n + c, share);
        }
    }

    /// For each symbol the data row, and then each parity row upward.
    fn write(&mut self, row: usize, start: usize, symbols: &[usize]) {
        for (i, symbol) in symbols.iter().enumerate() {
            let place = start + i;
            let change = self.field.minus(*symbol, self.tray.get(row, place).expect("a sound row"));
            self.grow_row(row, place, change);
            for i in 0..self.tray.p {
                let own = self.field.times(self.field.coefficient(i, row), change);
                self.grow_row(self.tray.k + i, place, own);
            }
        }
    }
}

/// One write right after intake; answers whether the core's puts are the rules'.
fn agrees(field: &Arithmetic, kind: Kind, random: &mut Random, compared: &mut usize) -> bool {
    let sizes = [random.within(1, 6), random.within(1, 4), random.within(1, 12), random.within(2, 8)];
    let [k, _, n, _] = sizes;
    let mut image = good_image(field, sizes, random);
    if random.percent(5) {
        // a hole or another symbol, so that intake may be refused
        let at = random.within(6, image.len() - 1);
        image[at] ^= 1;
    }
    let (row, start) = (random.below(k + 1), random.within(0, n + 1));
    let count = random.within(0, (n + 1).saturating_sub(start));
    let symbols: Vec<usize> = (0..count).map(|_| random.below(field.q)).collect();

    let mut tray = Tray::new(field, sizes, image.clone());
    let taken = tray.call(&Call::Intake).0 == Answer::Done;
    let rows = tray.rows();
    let cards = if taken { rows * tray.m } else { 0 };
    let mut written = Tray::new(field, sizes, tray.image.clone());
    written.call(&Call::Intake);
    let accepted = taken && written.call(&Call::Write(row, start, symbols.clone())).0 == Answer::Done;
    let mut growing = Growing { field, tray, puts: Vec::new() };
    if accepted {
        growing.write(row, start, &symbols);
        assert_eq!(growing.tray.image, written.image);
    }

    let puts = proved::puts(kind, sizes, &mut image, row, start, &symbols);
    *compared += puts.len();
    if puts.len() < cards || puts[cards..] != growing.puts[..] || image != growing.tray.image {
        println!("PUTS DIFFER, {kind:?} field, k p n m = {sizes:?}, write {row} {start} {symbols:?}");
        println!("  rules {:?}\n  core {:?}", growing.puts, puts);
        return false;
    }
    let places: Vec<(usize, usize)> = puts[..cards].iter().map(|put| (put[0], put[1])).collect();
    places == (0..rows).flat_map(|row| (n..n + sizes[3]).map(move |place| (row, place))).take(cards).collect::<Vec<_>>()
}

pub fn check(runs: u64, seed: u64) -> bool {
    let (byte, counter) = (Arithmetic::byte(), Arithmetic::counter());
    let mut compared = 0;
    let mut differences = 0;
    for run in 0..runs {
        let mut random = Random::new(!seed.wrapping_mul(1_000_003).wrapping_add(run));
        let (field, kind) = if run % 2 == 0 { (&byte, Kind::Byte) } else { (&counter, Kind::Counter) };
        differences += u64::from(!agrees(field, kind, &mut random, &mut compared));
        if differences == 5 {
            break;
        }
    }
    println!("puts of intakes and writes, in their order: {runs} runs, {compared} puts, {differences} runs differ");
    differences == 0
}
