//! Random pages and sheets through the functions for C, beside the second version in `sheet.rs`. Linked with the proved library.
//!
//!   pages [SEED [PAGES]]

mod random;
mod sheet;

use random::Random;
use sheet::{Fields, Found, History, Log, MOST_FILES, MOST_PAGES, PAGE};

const SEED: u64 = 20261115;
const PAGES: u64 = 200_000;
const UNTOUCHED: u8 = 0x77;
const REFUSED: u64 = u64::MAX;

/// Of the sheets inspected: those in which an action has written a file again, and what the lowest wrong page is, of a file with a token.
const AGAIN: [&str; 4] =
    ["lawful, files written again", "another action's image", "linked to the image that it overtakes", "not above the version"];

#[rustfmt::skip]
extern "C" {
    fn desk_pack(
        kind: u64, small: u64, file: u64, action: u64, link: u64, start: u64, value: *const u8, value_len: usize,
        place: u64, files: u64, out: *mut u8, out_len: usize,
    ) -> u64;
    fn desk_test(part: *const u8, part_len: usize, place: u64, files: u64, fields: *mut u64, fields_len: usize) -> u64;
    fn desk_inspect(sheet: *const u8, sheet_len: usize, files: u64) -> u64;
}

// Each of these lends the library exactly the memory of its slices.
fn pack(n: [u64; 6], value: &[u8], place: u64, files: u64, out: &mut [u8]) -> u64 {
    let (from, to) = (value.as_ptr(), out.as_mut_ptr());
    unsafe { desk_pack(n[0], n[1], n[2], n[3], n[4], n[5], from, value.len(), place, files, to, out.len()) }
}
fn test(part: &[u8], place: u64, files: u64, fields: &mut [u64]) -> u64 {
    unsafe { desk_test(part.as_ptr(), part.len(), place, files, fields.as_mut_ptr(), fields.len()) }
}
fn inspect(sheet: &[u8], files: u64) -> u64 {
    unsafe { desk_inspect(sheet.as_ptr(), sheet.len(), files) }
}

struct Trial {
    random: Random,
    packs: [u64; 3], // how often each answer came
    tests: [u64; 5],
    lawful: u64,
    unlawful: u64,
    refused: u64,
    again: [u64; AGAIN.len()],
}

impl Trial {
    /// A number at, below or above a bound, or beyond what its bytes can hold.
    fn near(&mut self, bound: u64) -> u64 {
        match self.random.below(12) {
            0 => bound.wrapping_sub(1),
            1 => bound.wrapping_add(1),
            2 => self.random.pick(&[0, 1, 2, 255, 256, 1 << 32, u64::MAX]),
            3 => bound.wrapping_add(1 << 32),
            _ => bound,
        }
    }

    fn place(&mut self) -> u64 {
        let bound = self.random.pick(&[1, 2, 3, MOST_PAGES]);
        match self.random.below(4) {
            0 => self.near(bound),
            _ => 2 + self.random.below(MOST_PAGES - 1),
        }
    }

    fn files(&mut self) -> u64 {
        let bound = self.random.pick(&[1, MOST_FILES]);
        match self.random.below(4) {
            0 => self.near(bound),
            _ => 1 + self.random.below(MOST_FILES),
        }
    }

    /// Fields that some page of this place can have.
    fn fields(&mut self, place: u64, files: u64) -> Fields {
        let below_place = |random: &mut Random| 1 + random.below(place.wrapping_sub(1) % MOST_PAGES);
        let mut fields = Fields { numbers: [1, self.random.below(2), 0, place, 0, 0], value: [0; 32] };
        match self.random.below(5) {
            0 => (),
            1 => fields.numbers = [3, 1 + self.random.below(2), 0, below_place(&mut self.random), 0, 0],
            _ => {
                let size = self.random.pick(&[0, 1, 5, 31, 32]);
                let (action, link) = (below_place(&mut self.random), self.random.below(place));
                let start = self.random.pick(&[1, 2, 1 << 32, u64::MAX]);
                fields.numbers = [2, size, 1 + self.random.below(files), action, link, start];
                fields.value[..size as usize].iter_mut().for_each(|byte| *byte = 1 + self.random.below(255) as u8);
            }
        }
        fields
    }

    /// The same with one number, or a byte of the value, at or past a bound.
    fn strained(&mut self, mut fields: Fields, place: u64, files: u64) -> Fields {
        let at = self.random.below(7) as usize;
        let bound = self.random.pick(&[0, 1, 2, 3, 32, place, files]);
        match at {
            6 => fields.value[self.random.below(32) as usize] = self.random.below(3) as u8,
            _ => fields.numbers[at] = self.near(bound),
        }
        fields
    }

    /// Pack, both ways: the answer, and every byte that is lent.
    fn packs_alike(&mut self, fields: &Fields, place: u64, files: u64) -> bool {
        let size = if self.random.once_in(20) { self.random.pick(&[0, 31, 33, 64]) } else { 32 };
        let room = if self.random.once_in(20) { self.random.pick(&[0, 63, 65, 128]) } else { PAGE };
        let mut value = fields.value.to_vec();
        value.resize(size, 0);
        let (mut out, mut expected) = (vec![UNTOUCHED; room], vec![UNTOUCHED; room]);
        let number = match sheet::packed(fields, place, files) {
            _ if size != 32 || room != PAGE => 1,
            Ok(page) => {
                expected.copy_from_slice(&page);
                0
            }
            Err(number) => number,
        };
        self.packs[number as usize] += 1;
        let got = pack(fields.numbers, &value, place, files, &mut out);
        is_right(got == number && out == expected, || format!("pack {:?} {} {}: {} not {}", fields, place, files, got, number))
    }

    /// The page test, both ways; and a page that fits, packed again, is the same page.
    fn tests_alike(&mut self, part: &[u8], place: u64, files: u64) -> bool {
        let room = if self.random.once_in(30) { self.random.pick(&[0, 5, 7]) } else { 6 };
        let (mut fields, mut expected) = (vec![u64::MAX / 3; room], vec![u64::MAX / 3; room]);
        let mut again = part.to_vec();
        let number = match sheet::tested(part, place, files) {
            _ if room != 6 => 1,
            Found::Fields(found) => {
                expected.copy_from_slice(&found.numbers);
                let is_packed = pack(found.numbers, &found.value, place, files, &mut again) == 0;
                again[0] = if is_packed { again[0] } else { 0 };
                0
            }
            Found::Refused => 1,
            Found::Unfit => 2,
            Found::Blank => 3,
            Found::Torn => 4,
        };
        self.tests[number as usize] += 1;
        let got = test(part, place, files, &mut fields);
        let is_alike = got == number && fields == expected && again == part;
        is_right(is_alike, || format!("test {:02x?} {} {}: {} not {}", part, place, files, got, number))
    }

    fn damaged(&mut self, mut page: Vec<u8>) -> Vec<u8> {
        let at = self.random.below(PAGE as u64) as usize;
        match self.random.below(16) {
            0 | 1 => page[at] ^= 1 << self.random.below(8),
            2 => page[at] = self.random.below(256) as u8,
            3 => page.swap(at, (at + 1) % PAGE),
            4 | 5 => page[at..].iter_mut().for_each(|byte| *byte = 0), // a cut, after no byte too
            6 => page.truncate(at),
            7 => page.push(0),
            8 => page.iter_mut().for_each(|byte| *byte = self.random.below(256) as u8),
            9 => page[PAGE - 1] = 0,
            10 => page.iter_mut().for_each(|byte| *byte = 0),
            11 => page.iter_mut().enumerate().for_each(|(i, byte)| *byte = u8::from(i == at)),
            _ => {
                page[at.min(59)] ^= 1 << self.random.below(8);
                let word = sheet::check_word(&page[..60]) as u16; // the check word is right, and something else is not
                page[60..62].copy_from_slice(&word.to_le_bytes());
            }
        }
        page
    }

    fn one_page(&mut self) -> bool {
        let (place, files) = (self.place(), self.files());
        let good = self.fields(place, files);
        let fields = if self.random.once_in(2) { self.strained(good, place, files) } else { good };
        let whole = sheet::written(&fields, place);
        let page = if self.random.once_in(3) { self.damaged(whole) } else { whole };
        let (place, files) = match self.random.below(20) {
            0 => (self.near(place), files),
            1 => (place, self.near(files)),
            _ => (place, files),
        };
        self.packs_alike(&fields, place, files) && self.tests_alike(&page, place, files)
    }

    /// A page that may stand at this place above those that the log has.
    fn next_page(&mut self, log: &Log, place: u64, files: u64) -> Fields {
        let late = log.decided.iter().rev().take(40); // not all: a long sheet has thousands
        let open: Vec<u64> = late.filter(|(_, is_decided)| !**is_decided).map(|(action, _)| *action).collect();
        let is_carried = u64::from(self.random.once_in(4));
        let mut fields = Fields { numbers: [1, is_carried, 0, place, 0, 0], value: [0; 32] };
        if open.is_empty() || self.random.once_in(5) {
            return fields;
        }
        let mut action = self.random.pick(&open);
        let file = 1 + self.random.below(files);
        let history = log.files.get(&file).cloned().unwrap_or_default();
        let own = history.token.map_or(action, |(by, ..)| by);
        if self.random.once_in(2) {
            action = own;
        }
        if action != own || self.random.once_in(4) {
            fields.numbers = [3, 1 + self.random.below(2), 0, action, 0, 0];
        } else {
            fields.numbers = [2, 3, file, action, history.version.0, history.version.1 + 1 + self.random.below(3)];
            fields.value[..3].copy_from_slice(b"abc");
        }
        fields
    }

    /// A page whose fields are right for the table and wrong for the pages below.
    fn misfit(&mut self, log: &Log, mut fields: Fields, place: u64) -> Fields {
        let other = self.random.below(place);
        let history = log.files.get(&fields.numbers[2]).cloned().unwrap_or_default();
        let own = fields.numbers[3];
        let mut others = log.decided.iter().rev().filter(|(action, is_decided)| !**is_decided && **action != own);
        match (fields.numbers[0], self.random.below(8)) {
            (1, _) => fields.numbers = [3, 1, 0, other, 0, 0],
            (2, 0) => fields.numbers[5] -= 1,
            (2, 1) => fields.numbers[4] = other,
            (2, 2) => fields.numbers[2] = 1,
            (2, 3) => fields.numbers[4] = history.token.map_or(other, |(_, place, _)| place),
            (2, 4 | 5) => fields.numbers[5] = history.version.1.max(1),
            (2, 6) => fields.numbers[3] = others.next().map_or(other, |(action, _)| *action),
            _ => fields.numbers[3] = other,
        }
        fields
    }

    /// A sheet whose pages go on from each other, some torn; with `wild`, one in so many pages is wrong in some way.
    fn sheet(&mut self, pages: u64, used: u64, files: u64, wild: u64) -> Vec<u8> {
        let mut log = Log::default();
        let mut bytes = Vec::new();
        for place in 1..=used {
            let mut fields = self.next_page(&log, place, files);
            let has_token = log.files.get(&fields.numbers[2]).is_some_and(|history| history.token.is_some());
            if wild > 0 && self.random.once_in(if has_token { wild / 8 + 1 } else { wild }) {
                fields = self.misfit(&log, fields, place);
            }
            let mut page = sheet::written(&fields, place);
            if self.random.once_in(20) {
                page[1 + self.random.below(62) as usize..].iter_mut().for_each(|byte| *byte = 0);
            } else {
                log.take(&fields, place);
            }
            if wild > 0 && self.random.once_in(2 * wild) {
                page = self.damaged(page);
                page.resize(PAGE, 0);
            }
            bytes.extend(page);
        }
        bytes.resize(PAGE * pages as usize, 0);
        bytes
    }

    /// Which of `AGAIN` a sheet is, if any, by the lowest wrong page and what those below it tell.
    fn count_again(&mut self, bytes: &[u8], files: u64, place: u64, log: &Log) {
        if place == 0 {
            self.again[0] += u64::from(log.overtaken > 0);
            return;
        }
        let from = PAGE * (place as usize - 1);
        let Found::Fields(fields) = sheet::tested(&bytes[from..from + PAGE], place, files) else {
            return;
        };
        let [kind, _, file, action, link, start] = fields.numbers;
        let history = log.files.get(&file).cloned().unwrap_or_default();
        let History { version, token: Some((by, token, _)) } = history else {
            return;
        };
        if kind != 2 || log.decided.get(&action) != Some(&false) {
            return;
        }
        let is_own = by == action;
        self.again[1] += u64::from(!is_own);
        self.again[2] += u64::from(is_own && link == token && start > version.1);
        self.again[3] += u64::from(is_own && link == version.0);
    }

    fn inspects_alike(&mut self, bytes: &[u8], files: u64) -> bool {
        let climbed = sheet::climbed(bytes, files);
        if let Some((place, log)) = &climbed {
            self.count_again(bytes, files, *place, log);
        }
        let expected = climbed.map_or(REFUSED, |(place, _)| place);
        match expected {
            0 => self.lawful += 1,
            REFUSED => self.refused += 1,
            _ => self.unlawful += 1,
        }
        let got = inspect(bytes, files);
        is_right(got == expected, || format!("inspect {} bytes, {} files: {} not {}", bytes.len(), files, got, expected))
    }

    fn one_sheet(&mut self) -> bool {
        let files = self.random.pick(&[1, 2, 5, 8, MOST_FILES]);
        let pages = 1 + self.random.below(60);
        let (used, wild) = (self.random.below(pages + 1), self.random.pick(&[0, 8, 30, 100]));
        let mut bytes = self.sheet(pages, used, files, wild);
        if self.random.once_in(20) {
            bytes.truncate(self.random.below(bytes.len() as u64) as usize);
        }
        let asked = if self.random.once_in(10) { self.near(files) } else { files };
        self.inspects_alike(&bytes, asked)
    }

    /// The longest sheets, and those just past the bound; the last page is right, wrong, or alone.
    fn long_sheets(&mut self) -> bool {
        let mut is_right = true;
        for (pages, wild) in [(MOST_PAGES, 0), (MOST_PAGES, 60_000), (MOST_PAGES - 1, 0), (MOST_PAGES + 1, 0), (4096, 4000)] {
            let mut bytes = self.sheet(pages, pages, 8, wild);
            is_right &= self.inspects_alike(&bytes, 8);
            let last = bytes.len() - 1;
            bytes[last] ^= 1;
            is_right &= self.inspects_alike(&bytes, 8);
            bytes[..last].iter_mut().for_each(|byte| *byte = 0);
            is_right &= self.inspects_alike(&bytes, 8);
        }
        is_right
    }
}

fn is_right(is_right: bool, what: impl FnOnce() -> String) -> bool {
    if !is_right {
        println!("  {}", what());
    }
    is_right
}

fn main() {
    let words: Vec<u64> = std::env::args().skip(1).map(|word| word.parse().unwrap_or(SEED)).collect();
    let (seed, pages) = (words.first().copied().unwrap_or(SEED), words.get(1).copied().unwrap_or(PAGES));
    let random = Random::new(seed);
    let mut t = Trial { random, packs: [0; 3], tests: [0; 5], lawful: 0, unlawful: 0, refused: 0, again: [0; AGAIN.len()] };
    let (mut passed, mut failed) = (0, 0);
    let mut tell = |what: String, is_right: bool| {
        println!("{}: {}", if is_right { "ok" } else { "FAILED" }, what);
        *(if is_right { &mut passed } else { &mut failed }) += 1;
    };
    println!("seed {}", seed);
    let alike = (0..pages).all(|_| t.one_page());
    tell(format!("{} pages packed and tested, answers {:?} and {:?}", pages, t.packs, t.tests), alike);
    let often = t.packs.iter().chain(&t.tests).all(|n| *n > pages / 100);
    tell("every answer of packing and of the page test came often".to_string(), often);
    let alike = (0..pages / 10).all(|_| t.one_sheet());
    let often = [t.lawful, t.unlawful, t.refused].iter().all(|n| *n > pages / 200);
    let counts = format!("{} lawful, {} not, {} refused", t.lawful, t.unlawful, t.refused);
    tell(format!("{} sheets inspected: {}", pages / 10, counts), alike && often);
    let often = t.again.iter().all(|n| *n > pages / 4000);
    let counts: Vec<String> = AGAIN.iter().zip(&t.again).map(|(what, n)| format!("{} {}", n, what)).collect();
    tell(format!("where files have tokens: {}", counts.join(", ")), often);
    tell("sheets of up to 65,537 pages inspected".to_string(), t.long_sheets());
    println!("{} passed, {} failed", passed, failed);
    std::process::exit(i32::from(failed != 0));
}
