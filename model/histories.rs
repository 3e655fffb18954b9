//! The store as documents 01 and 02 tell it, at the level of histories: each file has its versions and at most one token, which another
//! image of its action overtakes, each action a fate and the place at which it was decided, every image that was stored whole stays, and
//! every append uses up one place. What a carried action brought from an older sheet is marked so. There are no bytes here, no rows and no
//! links.

use std::collections::{BTreeMap, BTreeSet};

pub const PAGES: u64 = 256;
pub const MOST_FILES: u64 = 256;
const LONGEST_VALUE: usize = 32;

#[derive(Clone, Copy, PartialEq)]
pub enum Fate {
    Undecided = 1,
    Committed = 2,
    Aborted = 3,
}

#[derive(Clone)]
pub struct Version {
    pub place: u64,
    pub start: u64,
    pub value: Vec<u8>,
    pub is_carried: bool, // what was before it is on an older sheet
}

pub struct Token {
    pub action: u64,
    pub version: Version,
}

#[derive(Default)]
pub struct File {
    pub versions: Vec<Version>, // oldest first
    pub token: Option<Token>,
}

impl File {
    pub fn newest_start(&self) -> u64 {
        self.versions.last().map_or(0, |version| version.start)
    }

    fn token_start(&self) -> u64 {
        self.token.as_ref().map_or(0, |token| token.version.start)
    }

    fn has_token_of(&self, action: u64) -> bool {
        matches!(&self.token, Some(token) if token.action == action)
    }

    fn at(&self, time: u64) -> Option<&Version> {
        self.versions.iter().rev().find(|version| version.start <= time)
    }
}

/// An image that is stored whole, whatever becomes of its action.
pub struct Image {
    pub place: u64,
    pub file: u64,
    pub start: u64,
    pub action: u64,
}

/// What stays when the supply is cut.
pub struct Sheet {
    pub pages: u64,
    pub used: u64,              // places, torn ones included
    pub carried: BTreeSet<u64>, // actions
    pub fates: BTreeMap<u64, Fate>,
    pub outcomes: BTreeMap<u64, u64>, // by action, the place at which it was decided
    pub files: BTreeMap<u64, File>,
    pub images: Vec<Image>, // every one, those of aborted actions and overtaken ones included
}

/// What goes: the numbers of an opening, and the latest times that were read since.
pub struct Session {
    pub files: u64,
    pub floor: u64,
    seen: BTreeMap<u64, u64>,       // a file's newest version, or its empty history
    seen_token: BTreeMap<u64, u64>, // a file's token, those that it overtook included
}

/// One append.
pub enum Change {
    Opening { is_carried: bool },
    Image { file: u64, start: u64, action: u64, value: Vec<u8> },
    Outcome { action: u64, fate: Fate },
}

/// What a commit or abort comes to.
pub enum Decision {
    Now(Change),
    Before(u64),
}

/// A refusal's number and place.
#[derive(Clone, Copy, PartialEq)]
pub struct Refusal(pub u64, pub u64);

fn refused<T>(number: u64) -> Result<T, Refusal> {
    Err(Refusal(number, 0))
}

impl Default for Sheet {
    fn default() -> Sheet {
        Sheet::blank(PAGES)
    }
}

impl Sheet {
    pub fn blank(pages: u64) -> Sheet {
        let (fates, outcomes, files) = (BTreeMap::new(), BTreeMap::new(), BTreeMap::new());
        Sheet { pages, used: 0, carried: BTreeSet::new(), fates, outcomes, files, images: Vec::new() }
    }

    pub fn undecided(&self) -> u64 {
        self.fates.values().filter(|fate| **fate == Fate::Undecided).count() as u64
    }

    pub fn open(&self, files: u64, floor: u64) -> Result<Session, Refusal> {
        if !(1..=MOST_FILES).contains(&files) {
            return refused(1);
        }
        if let Some(image) = self.images.iter().rev().find(|image| image.file > files) {
            return Err(Refusal(2, image.place));
        }
        if self.carried.contains(&1) && !self.outcomes.contains_key(&1) {
            return refused(24);
        }
        Ok(Session { files, floor, seen: BTreeMap::new(), seen_token: BTreeMap::new() })
    }

    /// The image with the highest start among those of so many files, if there is any: the floor of a bare `open`.
    pub fn highest(&self, files: u64) -> Option<&Image> {
        self.images.iter().filter(|image| image.file <= files).max_by_key(|image| image.start)
    }

    /// Stores a whole page: what it says holds from now on.
    pub fn store(&mut self, change: Change) -> u64 {
        self.used += 1;
        let place = self.used;
        match change {
            Change::Opening { is_carried } => {
                self.fates.insert(place, Fate::Undecided);
                self.carried.extend(Some(place).filter(|_| is_carried));
            }
            Change::Image { file, start, action, value } => {
                self.images.push(Image { place, file, start, action });
                let version = Version { place, start, value, is_carried: self.carried.contains(&action) };
                self.files.entry(file).or_default().token = Some(Token { action, version });
            }
            Change::Outcome { action, fate } => {
                self.outcomes.insert(action, place);
                self.decide(action, fate);
            }
        }
        place
    }

    fn decide(&mut self, action: u64, fate: Fate) {
        self.fates.insert(action, fate);
        for file in self.files.values_mut() {
            if file.has_token_of(action) {
                let token = file.token.take();
                if fate == Fate::Committed {
                    file.versions.extend(token.map(|token| token.version));
                }
            }
        }
    }

    fn fate(&self, action: u64) -> Result<Fate, Refusal> {
        self.fates.get(&action).copied().ok_or(Refusal(5, 0))
    }

    /// An action's fate, and the place at which it was decided, 0 while it is not.
    pub fn test(&self, action: u64) -> Result<(Fate, u64), Refusal> {
        Ok((self.fate(action)?, self.outcomes.get(&action).copied().unwrap_or(0)))
    }

    fn is_undecided(&self, action: u64) -> Result<(), Refusal> {
        match self.fate(action)? {
            Fate::Undecided => Ok(()),
            _ => refused(6),
        }
    }

    fn has_room(&self, need: u64) -> Result<(), Refusal> {
        if self.pages - self.used < need {
            return refused(11);
        }
        Ok(())
    }

    pub fn begin(&self) -> Result<Change, Refusal> {
        self.has_room(self.undecided() + 2)?;
        Ok(Change::Opening { is_carried: false })
    }

    /// The outcome to be stored or, if the action was decided alike before, the place of that one.
    pub fn decision(&self, action: u64, fate: Fate) -> Result<Decision, Refusal> {
        let (before, place) = self.test(action)?;
        if before == fate {
            return Ok(Decision::Before(place));
        }
        self.is_undecided(action)?;
        self.has_room(1)?;
        Ok(Decision::Now(Change::Outcome { action, fate }))
    }

    pub fn write(&self, now: &Session, file: u64, start: u64, action: u64, value: &[u8]) -> Result<Change, Refusal> {
        now.has_file(file)?;
        if value.len() > LONGEST_VALUE {
            return refused(4);
        }
        self.is_undecided(action)?;
        let token = self.files.get(&file).and_then(|f| f.token.as_ref());
        if let Some(others) = token.filter(|token| token.action != action) {
            return Err(Refusal(8, others.action));
        }
        if start <= now.end_of(self, file).max(now.floor) {
            return refused(10);
        }
        self.has_room(self.undecided() + 1)?;
        Ok(Change::Image { file, start, action, value: value.to_vec() })
    }

    /// The version that a time shows; the session keeps that it was asked.
    pub fn read(&self, now: &mut Session, file: u64, time: u64, action: u64) -> Result<Option<Version>, Refusal> {
        now.has_file(file)?;
        if action != 0 {
            self.is_undecided(action)?;
        }
        let empty = File::default();
        let history = self.files.get(&file).unwrap_or(&empty);
        if let Some(token) = history.token.as_ref().filter(|token| token.version.start <= time) {
            if token.action != action {
                return Err(Refusal(9, token.action));
            }
            now.see_token(file, time);
            return Ok(Some(token.version.clone()));
        }
        if time >= history.newest_start() {
            now.see(file, time);
        }
        match history.at(time) {
            None if history.versions.iter().any(|version| version.is_carried) => refused(25),
            found => Ok(found.cloned()),
        }
    }
}

impl Session {
    fn has_file(&self, file: u64) -> Result<(), Refusal> {
        if !(1..=self.files).contains(&file) {
            return refused(3);
        }
        Ok(())
    }

    /// A file's current end: its newest start, or the latest time read there.
    pub fn end_of(&self, sheet: &Sheet, file: u64) -> u64 {
        let start = sheet.files.get(&file).map_or(0, File::newest_start);
        start.max(self.seen.get(&file).copied().unwrap_or(0))
    }

    /// The same of its token: its start, the latest time read there, or the start of one that it overtook.
    pub fn token_end_of(&self, sheet: &Sheet, file: u64) -> u64 {
        let start = sheet.files.get(&file).map_or(0, File::token_start);
        start.max(self.seen_token.get(&file).copied().unwrap_or(0))
    }

    fn see(&mut self, file: u64, time: u64) {
        let latest = self.seen.entry(file).or_insert(0);
        *latest = time.max(*latest);
    }

    fn see_token(&mut self, file: u64, time: u64) {
        let latest = self.seen_token.entry(file).or_insert(0);
        *latest = time.max(*latest);
    }

    /// To be told before an image is stored: the token that it overtakes, if there is one, leaves its end to it.
    pub fn overtake(&mut self, sheet: &Sheet, file: u64) {
        self.see_token(file, self.token_end_of(sheet, file));
    }

    /// To be told before an outcome is stored: what was read of a token is now read of the version, or of nothing.
    pub fn settle(&mut self, sheet: &Sheet, action: u64, fate: Fate) {
        for (file, history) in &sheet.files {
            if history.has_token_of(action) {
                let latest = self.seen_token.remove(file).unwrap_or(0);
                if fate == Fate::Committed {
                    self.seen.insert(*file, latest);
                }
            }
        }
    }
}
