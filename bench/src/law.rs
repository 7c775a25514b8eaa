//! Section 9 beside a run: the twin, struck rows, and what the law claims of the next audit and mend.

use crate::model::{Answer, Arithmetic, Call, Tray, Verdict};

/// What the law said of a run's calls.
#[derive(Default, Clone, Copy)]
pub struct Claims {
    pub audits: u64,
    pub mends: u64,
    pub broken: u64,
}

/// The twin of a run, from its accepted intake on, for as long as every row equals its twin or is struck.
pub struct Twin {
    data: Option<Vec<Vec<usize>>>,
    ended: bool,
    pub claims: Claims,
}

/// How a row stands to its twin.
#[derive(Clone, Copy, PartialEq, Eq)]
enum Standing {
    Equal,
    Struck,
    Neither,
}

impl Twin {
    pub fn new() -> Self {
        Twin { data: None, ended: false, claims: Claims::default() }
    }

    /// All rows of the twin, block and card, worked afresh from its data blocks.
    fn rows(&self, field: &Arithmetic, tray: &Tray) -> Option<Vec<Vec<usize>>> {
        let data = self.data.as_ref()?;
        let parity = (0..tray.p).map(|i| {
            (0..tray.n)
                .map(|place| {
                    data.iter()
                        .enumerate()
                        .fold(0, |sum, (j, block)| field.plus(sum, field.times(field.coefficient(i, j), block[place])))
                })
                .collect()
        });
        let blocks: Vec<Vec<usize>> = data.iter().cloned().chain(parity).collect();
        Some(blocks.into_iter().map(|block| [block.clone(), field.card(&block, tray.m)].concat()).collect())
    }

    fn standing(tray: &Tray, row: usize, twin: &[usize]) -> Standing {
        let held: Option<Vec<usize>> = (0..tray.n + tray.m).map(|place| tray.get(row, place)).collect();
        let Some(held) = held else { return Standing::Struck };
        let differing = |places: std::ops::Range<usize>| places.filter(|place| held[*place] != twin[*place]).count();
        match (differing(0..tray.n), differing(tray.n..tray.n + tray.m)) {
            (0, 0) => Standing::Equal,
            (0, _) => Standing::Struck,
            (places, 0) if places <= tray.m => Standing::Struck,
            _ => Standing::Neither,
        }
    }

    /// Makes a call on the model, and asks whether it does what the law says of it.
    pub fn follow(&mut self, field: &Arithmetic, tray: &mut Tray, call: &Call) -> (Answer, Vec<usize>) {
        let rows = if self.ended || !tray.fits() { None } else { self.rows(field, tray) };
        let Some(rows) = rows else {
            self.ended |= self.data.is_some();
            let made = tray.call(call);
            if *call == Call::Intake && made.0 == Answer::Done {
                self.data = (0..tray.k).map(|row| tray.block(row)).collect();
            }
            return made;
        };
        let standings: Vec<Standing> =
            rows.iter().enumerate().map(|(row, twin)| Self::standing(tray, row, twin)).collect();
        if standings.contains(&Standing::Neither) {
            self.ended = true;
            return tray.call(call);
        }
        let made = tray.call(call);
        self.judge(tray, call, made.0, &standings, &rows);
        made
    }

    fn judge(&mut self, tray: &Tray, call: &Call, answer: Answer, standings: &[Standing], rows: &[Vec<usize>]) {
        let struck = standings.iter().filter(|standing| **standing == Standing::Struck).count();
        match call {
            Call::Audit(row) if *row < tray.rows() => {
                self.claims.audits += 1;
                let sound = answer == Answer::Verdict(Verdict::Sound);
                self.claims.broken += u64::from(sound != (standings[*row] == Standing::Equal));
            }
            Call::Mend => {
                self.claims.mends += 1;
                let equal =
                    rows.iter().enumerate().all(|(row, twin)| Self::standing(tray, row, twin) == Standing::Equal);
                self.claims.broken += u64::from(equal != (struck <= tray.p));
            }
            Call::Write(row, start, symbols) => {
                let touched = std::iter::once(*row).chain(tray.k..tray.rows());
                let allowed = *row < tray.k && *start <= tray.n && symbols.len() <= tray.n - *start;
                if allowed && touched.into_iter().all(|row| standings[row] == Standing::Equal) {
                    let data = self.data.as_mut().expect("a twin that is followed has data");
                    data[*row][*start..*start + symbols.len()].copy_from_slice(symbols);
                }
            }
            _ => {}
        }
    }
}
