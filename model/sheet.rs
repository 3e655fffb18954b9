//! Pages and sheets by the table of documents 01 and 02, a second time: packing, the page test and inspection.

use std::collections::BTreeMap;

pub const PAGE: usize = 64;
pub const MOST_PAGES: u64 = 65_536;
pub const MOST_FILES: u64 = 256;
const OPENING: u64 = 1;
const IMAGE: u64 = 2;
const OUTCOME: u64 = 3;
const CARRIED: u64 = 1;
const COMMITTED: u64 = 1;
const END_MARK: u64 = 0xA5;

#[derive(Clone, Debug, PartialEq)]
pub struct Fields {
    pub numbers: [u64; 6], // kind, small, file, action, link, start
    pub value: [u8; 32],
}

#[derive(Debug, PartialEq)]
pub enum Found {
    Fields(Fields),
    Refused,
    Unfit,
    Blank,
    Torn,
}

pub fn check_word(bytes: &[u8]) -> u64 {
    bytes.iter().fold(1, |word, byte| (257 * word + u64::from(*byte)) % 65_521)
}

/// The lowest bytes of a number, the lowest first.
fn put(page: &mut Vec<u8>, number: u64, bytes: usize) {
    page.extend_from_slice(&number.to_le_bytes()[..bytes]);
}

/// The page that the table gives, whether or not any rule admits the fields.
pub fn written(fields: &Fields, place: u64) -> Vec<u8> {
    let [kind, small, file, action, link, start] = fields.numbers;
    let mut page = Vec::new();
    put(&mut page, kind, 1);
    put(&mut page, small, 1);
    put(&mut page, 0, 2);
    put(&mut page, file, 4);
    put(&mut page, action, 4);
    put(&mut page, link, 4);
    put(&mut page, start, 8);
    page.extend_from_slice(&fields.value);
    put(&mut page, place, 4);
    let word = check_word(&page);
    put(&mut page, word, 2);
    put(&mut page, 0, 1);
    put(&mut page, END_MARK, 1);
    page
}

/// The columns of the table, with the link, and an image's or outcome's action, below the place.
fn is_admitted(fields: &Fields, place: u64, files: u64) -> bool {
    let [kind, small, file, action, link, start] = fields.numbers;
    let zeros_from = |n: usize| fields.value[n..].iter().all(|byte| *byte == 0);
    match kind {
        OPENING => small <= CARRIED && [file, link, start] == [0; 3] && action == place && zeros_from(0),
        IMAGE => {
            let is_image = small <= 32 && (1..=files).contains(&file) && (1..place).contains(&action);
            is_image && link < place && start >= 1 && zeros_from(small as usize)
        }
        OUTCOME => (1..=2).contains(&small) && [file, link, start] == [0; 3] && (1..place).contains(&action) && zeros_from(0),
        _ => false,
    }
}

fn is_in_bounds(place: u64, files: u64) -> bool {
    (1..=MOST_PAGES).contains(&place) && (1..=MOST_FILES).contains(&files)
}

/// The page, or the refusal's number.
pub fn packed(fields: &Fields, place: u64, files: u64) -> Result<Vec<u8>, u64> {
    if !is_in_bounds(place, files) {
        return Err(1);
    }
    if !is_admitted(fields, place, files) {
        return Err(2);
    }
    Ok(written(fields, place))
}

fn taken(part: &[u8], from: usize, upto: usize) -> u64 {
    part[from..upto].iter().rev().fold(0, |number, byte| number << 8 | u64::from(*byte))
}

/// A page fits if it is what its own fields pack to.
pub fn tested(part: &[u8], place: u64, files: u64) -> Found {
    if part.len() != PAGE || !is_in_bounds(place, files) {
        return Found::Refused;
    }
    if part.iter().all(|byte| *byte == 0) {
        return Found::Blank;
    }
    if (1..=3).contains(&part[0]) && part[PAGE - 1] == 0 {
        return Found::Torn;
    }
    let ends = [(0, 1), (1, 2), (4, 8), (8, 12), (12, 16), (16, 24)];
    let mut fields = Fields { numbers: ends.map(|(from, upto)| taken(part, from, upto)), value: [0; 32] };
    fields.value.copy_from_slice(&part[24..56]);
    match packed(&fields, place, files) {
        Ok(page) if page == part => Found::Fields(fields),
        _ => Found::Unfit,
    }
}

/// A file as the pages so far tell it: its newest version's place and start, and its token's action, place and start.
#[derive(Clone, Default)]
pub struct History {
    pub version: (u64, u64),
    pub token: Option<(u64, u64, u64)>,
}

/// What the pages so far tell.
#[derive(Clone, Default)]
pub struct Log {
    pub decided: BTreeMap<u64, bool>, // by action
    pub files: BTreeMap<u64, History>,
    pub overtaken: u64, // images that their own action has written again
}

impl Log {
    /// Takes in a page that goes on from those below, or says that it does not.
    pub fn take(&mut self, fields: &Fields, place: u64) -> bool {
        let [kind, small, file, action, link, start] = fields.numbers;
        if kind == OPENING {
            self.decided.insert(place, false);
            return true;
        }
        if self.decided.get(&action) != Some(&false) {
            return false;
        }
        if kind == OUTCOME {
            self.decide(action, small == COMMITTED);
            return true;
        }
        let history = self.files.entry(file).or_default();
        let has_others_token = history.token.is_some_and(|(by, ..)| by != action);
        if has_others_token || link != history.version.0 || start <= history.version.1 {
            return false;
        }
        self.overtaken += u64::from(history.token.is_some());
        history.token = Some((action, place, start));
        true
    }

    fn decide(&mut self, action: u64, is_committed: bool) {
        self.decided.insert(action, true);
        for history in self.files.values_mut() {
            match history.token {
                Some((by, place, start)) if by == action => {
                    history.token = None;
                    if is_committed {
                        history.version = (place, start);
                    }
                }
                _ => (),
            }
        }
    }
}

/// 0 if lawful, else the lowest place that is bad or does not fit, and what the pages below it tell; None if line 1 refuses.
pub fn climbed(sheet: &[u8], files: u64) -> Option<(u64, Log)> {
    let pages = sheet.len() / PAGE;
    if sheet.len() % PAGE != 0 || !is_in_bounds(pages as u64, files) {
        return None;
    }
    let used = sheet.iter().rposition(|byte| *byte != 0).map_or(0, |last| last / PAGE + 1);
    let mut log = Log::default();
    for (part, place) in sheet.chunks(PAGE).take(used).zip(1..) {
        let is_lawful = match tested(part, place, files) {
            Found::Fields(fields) => log.take(&fields, place),
            Found::Torn => true,
            _ => false,
        };
        if !is_lawful {
            return Some((place, log));
        }
    }
    Some((0, log))
}
