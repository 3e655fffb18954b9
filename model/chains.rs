//! A chain of sheets as a desk box goes along it: the proved store and the histories side by side, and what was answered on the way.

use crate::histories::{Change, Decision, Fate, Refusal, Session, Sheet, Version};
use crate::sheet::{self, Fields};
use crate::store::{Kind, Store, Told, FATE, MOVED, NOTHING, OPENED, PAGE, REFUSED, STORED, VALUE};
use std::collections::BTreeMap;

/// A fresh sheet, as bytes and as histories.
pub struct Fresh {
    pub model: Sheet,
    pub bytes: Vec<u8>,
}

/// A call, with what it is given.
pub struct Ask {
    pub kind: Kind,
    pub file: u64,
    pub time: u64,
    pub action: u64,
    pub value: Vec<u8>,
}

/// What a read outside any action has answered: start and value, or none.
type Answered = Option<(u64, Vec<u8>)>;

pub struct Chain {
    pub files: u64,
    pub model: Sheet,
    pub session: Option<Session>,
    pub store: Store,
    pub moves: u64,
    pub asked: u64, // the highest time answered outside any action, on all sheets
    pub answers: BTreeMap<(u64, u64), Answered>,
    pub said: Vec<String>,
}

/// An answer's numbers, and zeros after them.
fn numbers(which: u64, values: &[u64]) -> [u64; 6] {
    let mut all = [which, 0, 0, 0, 0, 0];
    all[1..=values.len()].copy_from_slice(values);
    all
}

fn no(refusal: Refusal) -> [u64; 6] {
    numbers(REFUSED, &[refusal.0, refusal.1])
}

/// The page that a change stores at a place, by the table. A carried image has no link, and no other is packed here.
fn page_of(change: &Change, place: u64) -> Vec<u8> {
    let mut value = [0; 32];
    let numbers = match change {
        Change::Opening { is_carried } => [1, u64::from(*is_carried), 0, place, 0, 0],
        Change::Outcome { action, fate } => [3, *fate as u64 - 1, 0, *action, 0, 0],
        Change::Image { file, start, action, value: text } => {
            value[..text.len()].copy_from_slice(text);
            [2, text.len() as u64, *file, *action, 0, *start]
        }
    };
    sheet::written(&Fields { numbers, value }, place)
}

impl Chain {
    pub fn new(files: u64, pages: u64) -> Chain {
        let store = Store::on(vec![0; PAGE * pages as usize], files);
        let (model, answers) = (Sheet::blank(pages), BTreeMap::new());
        Chain { files, model, session: None, store, moves: 0, asked: 0, answers, said: Vec::new() }
    }

    /// Whether the store has told what the model expects, the state's numbers too.
    fn is_told(&mut self, what: String, expected: [u64; 6], state: [u64; 3], told: Told) -> bool {
        let is_right = told[..6] == expected && told[6..] == state;
        let mark = if is_right { "" } else { "  *" };
        self.said.push(format!("{}: {:?} {:?}, model {:?} {:?}{}", what, &told[..6], &told[6..], expected, state, mark));
        is_right
    }

    fn state(&self) -> [u64; 3] {
        let floor = self.session.as_ref().map_or(0, |now| now.floor);
        self.session.as_ref().map_or([0; 3], |_| [self.model.used, floor, self.model.undecided()])
    }

    /// An opening, both ways; its answer's numbers.
    pub fn open(&mut self, floor: u64) -> Option<[u64; 6]> {
        let opened = self.model.open(self.files, floor);
        let expected = match &opened {
            Ok(_) => numbers(OPENED, &[self.model.used, self.model.undecided()]),
            Err(refusal) => no(*refusal),
        };
        self.session = opened.ok();
        let told = self.store.open(floor);
        self.is_told(format!("open {} {}", self.files, floor), expected, self.state(), told).then_some(expected)
    }

    fn expected_read(&mut self, ask: &Ask) -> ([u64; 6], Option<Version>) {
        let Some(now) = self.session.as_mut() else {
            return (no(Refusal(0, 0)), None);
        };
        match self.model.read(now, ask.file, ask.time, ask.action) {
            Ok(Some(v)) => (numbers(VALUE, &[v.place, v.start, v.value.len() as u64]), Some(v)),
            Ok(None) => (numbers(NOTHING, &[]), None),
            Err(refusal) => (no(refusal), None),
        }
    }

    /// A read, both ways; its answer's numbers.
    pub fn read(&mut self, ask: &Ask) -> Option<[u64; 6]> {
        let (expected, version) = self.expected_read(ask);
        let told = self.store.call(Kind::Read, ask.file, ask.time, ask.action, &[]);
        let what = format!("read {} {} {}", ask.file, ask.time, ask.action);
        let is_right = self.is_told(what, expected, self.state(), told)
            && version.as_ref().is_none_or(|v| self.store.value(v.place, v.value.len() as u64) == v.value);
        let is_kept = is_right && (ask.action != 0 || self.is_repeated(ask, expected, version));
        is_kept.then_some(expected)
    }

    /// What was answered outside any action before is answered alike, places excepted; below a carried start it may be refused 25.
    fn is_repeated(&mut self, ask: &Ask, answer: [u64; 6], version: Option<Version>) -> bool {
        let now = version.map(|v| (v.start, v.value));
        let before = self.answers.get(&(ask.file, ask.time));
        if answer[0] == REFUSED {
            let is_below =
                self.model.files.get(&ask.file).is_some_and(|f| f.versions.iter().any(|v| v.is_carried && v.start > ask.time));
            return before.is_none() || (answer[1] == 25 && is_below);
        }
        let is_alike = before.is_none_or(|before| *before == now);
        self.asked = self.asked.max(ask.time);
        self.answers.insert((ask.file, ask.time), now);
        is_alike
    }

    /// What a call that may append comes to: a page to be stored, or an answer.
    fn change(&self, ask: &Ask) -> Result<Change, [u64; 6]> {
        let Some(now) = self.session.as_ref() else {
            return Err(no(Refusal(0, 0)));
        };
        let fate = if ask.kind == Kind::Commit { Fate::Committed } else { Fate::Aborted };
        match ask.kind {
            Kind::Begin => self.model.begin().map_err(no),
            Kind::Write => self.model.write(now, ask.file, ask.time, ask.action, &ask.value).map_err(no),
            Kind::Test | Kind::Read => {
                Err(self.model.test(ask.action).map_or_else(no, |(fate, place)| numbers(FATE, &[fate as u64, place])))
            }
            Kind::Commit | Kind::Abort => match self.model.decision(ask.action, fate).map_err(no)? {
                Decision::Now(change) => Ok(change),
                Decision::Before(place) => Err(numbers(STORED, &[place])),
            },
        }
    }

    /// Any other call, both ways. If a page is stored, so many bytes of it are, and with a cut the session is gone.
    pub fn call(&mut self, ask: &Ask, cut: Option<usize>) -> Option<[u64; 6]> {
        let what = format!("{} {} {} {} {}", ask.kind.word(), ask.file, ask.time, ask.action, ask.value.escape_ascii());
        let told = self.store.call(ask.kind, ask.file, ask.time, ask.action, &ask.value);
        let change = match self.change(ask) {
            Ok(change) => change,
            Err(expected) => return self.is_told(what, expected, self.state(), told).then_some(expected),
        };
        let place = self.model.used + 1;
        let expected = numbers(STORED, &[place]);
        if let Some(bytes) = cut {
            self.session = None;
            self.store.cut(place, bytes);
            match bytes {
                0 => (),
                PAGE => drop(self.model.store(change)),
                _ => self.model.used += 1,
            }
            self.said.push(format!("{}, cut after {} bytes", what, bytes));
            return (told[..6] == expected).then_some(expected);
        }
        self.append(change);
        self.is_told(what, expected, self.state(), told).then_some(expected)
    }

    fn append(&mut self, change: Change) {
        if let Some(now) = self.session.as_mut() {
            match &change {
                Change::Opening { .. } => (),
                Change::Image { file, .. } => now.overtake(&self.model, *file),
                Change::Outcome { action, fate } => now.settle(&self.model, *action, *fate),
            }
        }
        self.model.store(change);
    }

    /// A move onto a fresh sheet, both ways: the answer, the old sheet, and every byte of the fresh one. What was stored comes into it, up to a
    /// cut if there is one, and the old session is gone then or, where nothing is cut, once the box goes over.
    pub fn move_to(&mut self, fresh: &mut Fresh, cut: Option<usize>) -> Option<[u64; 6]> {
        let now = self.session.as_ref()?;
        let is_blank = fresh.bytes.iter().all(|byte| *byte == 0);
        let moved = self.model.moved(now, fresh.model.pages, is_blank);
        let (expected, pages) = match &moved {
            Ok(m) => (numbers(MOVED, &[m.floor]), m.changes.iter().zip(1..).flat_map(|(c, place)| page_of(c, place)).collect()),
            Err(refusal) => (no(*refusal), Vec::new()),
        };
        let (old, mut bytes) = (self.store.sheet.clone(), fresh.bytes.clone());
        let told = self.store.move_to(&mut bytes);
        let stored = cut.unwrap_or(pages.len()).min(pages.len());
        fresh.bytes[..pages.len()].copy_from_slice(&pages);
        let is_stored = bytes == fresh.bytes && self.store.sheet == old;
        fresh.bytes[stored..pages.len()].fill(0);
        let changes = moved.map_or(Vec::new(), |m| m.changes);
        for change in changes.into_iter().take(stored / PAGE) {
            fresh.model.store(change);
        }
        fresh.model.used += u64::from(stored % PAGE > 0);
        let what = format!("move to {} pages, {} of {} bytes stored", fresh.model.pages, stored, pages.len());
        (self.is_told(what, expected, self.state(), told) && is_stored).then_some(expected)
    }

    /// From now on the box works on this sheet, and opens it first.
    pub fn go_over(&mut self, fresh: Fresh) {
        self.store = Store::on(fresh.bytes, self.files);
        self.model = fresh.model;
        self.session = None;
        self.moves += 1;
        self.said.push("over to the fresh sheet".to_string());
    }
}
