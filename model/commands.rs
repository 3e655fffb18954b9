//! The command language of documents 01 and 02, and a conversation in it.

use crate::histories::{Change, Decision, Fate, Refusal, Session, Sheet, Version};

const LONGEST_LINE: usize = 255;
const PAGE: u64 = 64;
pub const BARE_FILES: u64 = 8; // of a bare `open`

enum Command {
    BareOpen,
    Open { files: u64, floor: u64 },
    Begin,
    Write { file: u64, start: u64, action: u64, text: Vec<u8> },
    Read { file: u64, time: u64, action: u64 },
    Test(u64),
    Decide(u64, Fate),
    Cut(u64),
}

/// A decimal number up to 2^64−1, however many zeros it begins with.
fn number(word: &[u8]) -> Option<u64> {
    if word.is_empty() {
        return None;
    }
    word.iter().try_fold(0u64, |sum, byte| match byte {
        b'0'..=b'9' => sum.checked_mul(10)?.checked_add(u64::from(byte - b'0')),
        _ => None,
    })
}

fn text(word: &[u8]) -> Option<Vec<u8>> {
    let is_text = !word.is_empty() && word.iter().all(|byte| (0x21..=0x7E).contains(byte));
    if is_text {
        Some(word.to_vec())
    } else {
        None
    }
}

fn parsed(line: &[u8]) -> Option<Command> {
    if line.len() > LONGEST_LINE {
        return None;
    }
    let words: Vec<&[u8]> = line.split(|byte| *byte == b' ').collect();
    Some(match (words[0], &words[1..]) {
        (b"open", []) => Command::BareOpen,
        (b"open", [f, t]) => Command::Open { files: number(f)?, floor: number(t)? },
        (b"begin", []) => Command::Begin,
        (b"write", [f, s, a, t]) => Command::Write { file: number(f)?, start: number(s)?, action: number(a)?, text: text(t)? },
        (b"read", [f, t, a]) => Command::Read { file: number(f)?, time: number(t)?, action: number(a)? },
        (b"test", [a]) => Command::Test(number(a)?),
        (b"commit", [a]) => Command::Decide(number(a)?, Fate::Committed),
        (b"abort", [a]) => Command::Decide(number(a)?, Fate::Aborted),
        (b"cut", [n]) => Command::Cut(number(n).filter(|n| *n <= PAGE)?),
        _ => return None,
    })
}

/// A conversation: the sheet, the session if there is one, and the cut that waits.
#[derive(Default)]
pub struct Desk {
    pub sheet: Sheet,
    pub session: Option<Session>,
    pub cut: Option<u64>,
}

impl Desk {
    /// The answer to one line, without its newline.
    pub fn answer(&mut self, line: &[u8]) -> String {
        match parsed(line) {
            None => "what".to_string(),
            Some(Command::Cut(n)) => {
                self.cut = Some(n);
                format!("cut {}", n)
            }
            Some(Command::BareOpen) => self.open(BARE_FILES, self.highest_start()),
            Some(Command::Open { files, floor }) => self.open(files, floor),
            Some(command) => match self.session.take() {
                None => "closed".to_string(),
                Some(session) => self.call(session, command),
            },
        }
    }

    /// The floor of a bare `open`.
    pub fn highest_start(&self) -> u64 {
        self.sheet.highest(BARE_FILES).map_or(0, |image| image.start)
    }

    fn open(&mut self, files: u64, floor: u64) -> String {
        self.session = None;
        match self.sheet.open(files, floor) {
            Ok(session) => {
                self.session = Some(session);
                format!("open {} {}", self.sheet.used, self.sheet.undecided())
            }
            Err(refusal) => no(refusal),
        }
    }

    fn call(&mut self, mut now: Session, command: Command) -> String {
        let change = match command {
            Command::Begin => self.sheet.begin(),
            Command::Write { file, start, action, text } => self.sheet.write(&now, file, start, action, &text),
            Command::Decide(action, fate) => match self.sheet.decision(action, fate) {
                Ok(Decision::Before(place)) => {
                    self.session = Some(now);
                    return format!("{} {}", decided(fate), place);
                }
                Ok(Decision::Now(change)) => Ok(change),
                Err(refusal) => Err(refusal),
            },
            Command::Read { file, time, action } => {
                let found = self.sheet.read(&mut now, file, time, action);
                self.session = Some(now);
                return found.map_or_else(no, shown);
            }
            Command::Test(action) => {
                self.session = Some(now);
                return self.sheet.test(action).map_or_else(no, |(fate, place)| format!("test {} {}", fate as u64, place));
            }
            Command::BareOpen | Command::Open { .. } | Command::Cut(_) => unreachable!(),
        };
        match change {
            Ok(change) => self.append(now, change),
            Err(refusal) => {
                self.session = Some(now);
                no(refusal)
            }
        }
    }

    /// Stores a page, or so much of it as the waiting cut lets through: none, some, so that its place is lost, or all.
    fn append(&mut self, mut now: Session, change: Change) -> String {
        if let Some(n) = self.cut.take() {
            match n {
                0 => (),
                PAGE => drop(self.sheet.store(change)),
                _ => self.sheet.used += 1,
            }
            return "lost".to_string();
        }
        let word = match &change {
            Change::Opening { .. } => "begin",
            Change::Image { file, .. } => {
                now.overtake(&self.sheet, *file);
                "write"
            }
            Change::Outcome { action, fate } => {
                now.settle(&self.sheet, *action, *fate);
                decided(*fate)
            }
        };
        self.session = Some(now);
        format!("{} {}", word, self.sheet.store(change))
    }
}

fn decided(fate: Fate) -> &'static str {
    if fate == Fate::Committed {
        "commit"
    } else {
        "abort"
    }
}

fn no(refusal: Refusal) -> String {
    format!("no {} {}", refusal.0, refusal.1)
}

fn shown(version: Option<Version>) -> String {
    match version {
        None => "none".to_string(),
        Some(v) => format!("read {} {} {}", v.place, v.start, String::from_utf8_lossy(&v.value)),
    }
}

/// The lines of an input: a last one without its newline counts if it has a byte.
pub fn lines_of(input: &[u8]) -> Vec<Vec<u8>> {
    let mut lines: Vec<Vec<u8>> = input.split(|byte| *byte == b'\n').map(<[u8]>::to_vec).collect();
    if matches!(lines.last(), Some(line) if line.is_empty()) {
        lines.pop();
    }
    lines
}

/// A whole conversation's answers.
pub fn answers(lines: &[Vec<u8>]) -> Vec<String> {
    let mut desk = Desk::default();
    lines.iter().map(|line| desk.answer(line)).collect()
}
