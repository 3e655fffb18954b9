//! Random weeks through the week test and the converter for C, beside the second version in `editions.rs`. Linked with the proved library.
//!
//!   weeks [SEED [WEEKS]]

mod editions;
mod random;

use editions::{converted, edition, tested, Edition, EDITIONS};
use random::Random;
use std::collections::BTreeMap;

const SEED: u64 = 20261118;
const WEEKS: u64 = 400_000;
const UNTOUCHED: u8 = 0x77;

#[rustfmt::skip]
extern "C" {
    fn desk_week_test(week: *const u8, week_len: usize) -> u64;
    fn desk_convert(week: *const u8, week_len: usize, mask: u16, out: *mut u8, out_len: usize) -> u64;
}

// Each of these lends the library exactly the memory of its slices.
fn test(week: &[u8]) -> u64 {
    unsafe { desk_week_test(week.as_ptr(), week.len()) }
}
fn convert(week: &[u8], mask: u16, out: &mut [u8]) -> u64 {
    unsafe { desk_convert(week.as_ptr(), week.len(), mask, out.as_mut_ptr(), out.len()) }
}

struct Trial {
    random: Random,
    met: BTreeMap<String, u64>, // how often each answer came
}

impl Trial {
    /// A time at a bound of the edition, at a whole hour, or any.
    fn time(&mut self, edition: Edition) -> u32 {
        match self.random.below(8) {
            0 => 0,
            1 => edition.limit,
            2 | 3 => self.random.below(25) as u32 * 60 / edition.unit,
            4 | 5 => self.random.below(97) as u32 * 15 / edition.unit,
            _ => self.random.below(u64::from(edition.limit) + 1) as u32,
        }
    }

    /// A week's bytes: most days in order, and now and then a time past the limit, or an odd minute.
    fn week(&mut self, edition: Edition) -> Vec<u8> {
        let unit = if edition.unit == 1 && !self.random.once_in(4) { 15 } else { 1 };
        let mut times = vec![];
        for _ in 0..7 {
            let (first, second) = (self.time(edition), self.time(edition));
            times.extend([first.min(second), first.max(second)].map(|time| time / unit * unit));
        }
        for _ in 0..self.random.pick(&[0, 0, 1, 2]) {
            let at = self.random.below(14) as usize;
            times[at] = match self.random.below(4) {
                0 => edition.limit + 1,
                1 => times[at ^ 1],
                2 => times[at] + 1,
                _ => self.random.pick(&[7, 14, 16, 96, 97, 255, 1440, 1441, 65535]),
            };
        }
        let mut week: Vec<u8> = times.into_iter().flat_map(|time| time.to_le_bytes()[..edition.width].to_vec()).collect();
        if edition.has_keyholders {
            week.extend(self.mask().to_le_bytes());
        }
        week
    }

    /// No keyholder, one, two, all but one, or any.
    fn mask(&mut self) -> u16 {
        let (one, another) = (1 << self.random.below(16), 1 << self.random.below(16));
        match self.random.below(8) {
            0 => 0,
            1 | 2 => one,
            3 | 4 => one | another,
            5 => !one,
            _ => self.random.below(65536) as u16,
        }
    }

    /// The length of the output: another edition's, mostly.
    fn room(&mut self, edition: Edition) -> usize {
        match self.random.below(16) {
            0 => self.random.below(65) as usize,
            1 => edition.length,
            _ => self.random.pick(&EDITIONS).length,
        }
    }

    fn count(&mut self, what: &str, answer: u64) {
        *self.met.entry(format!("{} {} {}", what, answer % 256, answer / 256)).or_default() += 1;
    }

    /// Both functions: the answers, and every byte that is lent.
    fn is_alike(&mut self, week: &[u8], mask: u16, room: usize) -> bool {
        let (mut out, mut expected) = (vec![UNTOUCHED; room], vec![UNTOUCHED; room]);
        let answer = tested(week).unwrap_or_else(|refusal| refusal.code());
        let step = match converted(week, mask, room) {
            Ok(bytes) => {
                expected.copy_from_slice(&bytes);
                0
            }
            Err(refusal) => refusal.code(),
        };
        self.count("test", answer);
        if let (Some(from), Some(to)) = (edition(week.len()), edition(room)) {
            self.count(&format!("{} to {}", from.number, to.number), step);
        } else {
            self.count("another length", step);
        }
        let (got, made) = (test(week), convert(week, mask, &mut out));
        let is_alike = got == answer && made == step && out == expected;
        if !is_alike {
            println!("{:?} to {} bytes with {:#x}: {} not {}, {} not {}, {:?} not {:?}", week, room, mask, got, answer, made, step, out, expected);
        }
        is_alike
    }

    /// Each answer of each function, with each day, came; and a pair of editions has no others.
    fn is_met(&self) -> bool {
        let days = |what: &str, refusal: u64| (1..=7).map(|day| format!("{} {} {}", what, refusal, day)).collect::<Vec<_>>();
        let plain = |answers: &[&str]| answers.iter().map(|answer| answer.to_string()).collect::<Vec<_>>();
        let mut wanted = plain(&["test 1 0", "test 2 0", "test 3 0", "test 15 0", "test 29 0", "another length 15 0"]);
        wanted.extend(plain(&["1 to 1 15 0", "2 to 2 15 0", "3 to 3 15 0", "3 to 1 30 0", "3 to 2 30 0"]));
        wanted.extend(plain(&["1 to 2 0 0", "2 to 1 0 0", "1 to 3 0 0", "2 to 3 0 0", "1 to 3 29 0", "2 to 3 29 0"]));
        for what in ["test", "1 to 2", "2 to 1", "1 to 3", "2 to 3"] {
            wanted.extend(days(what, 16));
        }
        wanted.extend(days("2 to 1", 17));
        let others: Vec<&String> = self.met.keys().filter(|answer| !wanted.contains(answer)).collect();
        if !others.is_empty() {
            println!("not to be met: {:?}", others);
        }
        let missing: Vec<&String> = wanted.iter().filter(|answer| !self.met.contains_key(*answer)).collect();
        if !missing.is_empty() {
            println!("never met: {:?}", missing);
        }
        missing.is_empty() && others.is_empty()
    }
}

fn main() {
    let words: Vec<u64> = std::env::args().skip(1).map(|word| word.parse().expect("weeks [SEED [WEEKS]]")).collect();
    let (seed, weeks) = (words.first().copied().unwrap_or(SEED), words.get(1).copied().unwrap_or(WEEKS));
    let mut trial = Trial { random: Random::new(seed), met: BTreeMap::new() };
    for number in 0..weeks {
        let edition = trial.random.pick(&EDITIONS);
        let (mut week, mask, room) = (trial.week(edition), trial.mask(), trial.room(edition));
        if trial.random.once_in(50) {
            week.resize(trial.random.below(65) as usize, 0);
        }
        if !trial.is_alike(&week, mask, room) {
            println!("FAILED: seed {}, week {}", seed, number);
            std::process::exit(1);
        }
    }
    let is_met = trial.is_met();
    println!("seed {}: {} weeks alike, {} kinds of answers", seed, weeks, trial.met.len());
    println!("{} passed, {} failed", 1 + u64::from(is_met), u64::from(!is_met));
    std::process::exit(i32::from(!is_met));
}
