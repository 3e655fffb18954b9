//! What conversations have met: every answer by its command and, where that counts, what the sheet was like then.

use crate::commands::{Desk, BARE_FILES};
use crate::histories::{Fate, PAGES};
use crate::lists::List;
use crate::overtaken::{self, Overtaken};
use std::collections::BTreeMap;

/// Every answer that the program can give, by command, and every refusal that can be reached; and what else must come: decisions asked
/// again, what a sheet is like at a bare `open`, and writes about its floor. Where files are written again, `overtaken.rs` has the rest.
const ANSWERS: &str = "open open,open no 1,open no 2,\
    bare open,bare open of a sheet without an image,bare open no 2,\
    bare open after one for more files,bare open without a state,bare open while a cut waits,\
    bare open with the highest start committed,bare open with the highest start aborted,bare open with the highest start undecided,\
    bare open with a newer image that starts lower,bare open with a torn image that starts higher,\
    write just below a bare floor no 10,write at a bare floor no 10,write just above a bare floor,\
    write above a bare floor and not above a torn start,write at or below the highest start,\
    begin begin,begin lost,begin closed,begin no 11,\
    write write,write lost,write closed,write no 3,write no 4,write no 5,write no 6,write no 8,write no 10,write no 11,\
    read read,read none,read closed,read no 3,read no 5,read no 6,read no 9,\
    test test 1,test test 2,test test 3,test closed,test no 5,\
    commit commit,commit lost,commit closed,commit no 5,commit no 6,commit no 11,\
    commit again,commit again while a cut waits,commit again on a full sheet,\
    abort abort,abort lost,abort closed,abort no 5,abort no 6,abort no 11,\
    abort again,abort again while a cut waits,abort again on a full sheet,\
    cut cut,what";

/// What there was before a line.
struct Before {
    used: u64,
    cut: Option<u64>,
    is_open: bool,
    highest: u64, // the floor that a bare `open` would have
}

/// A conversation as it goes on.
#[derive(Default)]
struct Watch {
    desk: Desk,
    is_bare: bool, // the last opening
    files: u64,    // of the last state
    torn: u64,     // the highest start in a torn image
    overtaken: Overtaken,
}

/// An answer's kind: the command's first word, and of the answer what makes it that answer.
fn kind(line: &[u8], answer: &str) -> String {
    let command = String::from_utf8_lossy(line.split(|byte| *byte == b' ').next().unwrap_or(b""));
    let words: Vec<&str> = answer.split(' ').collect();
    match words[..] {
        ["what"] => "what".to_string(),
        ["no" | "test", number, ..] => format!("{} {} {}", command, words[0], number),
        _ => format!("{} {}", command, words[0]),
    }
}

impl Watch {
    fn kinds(&mut self, line: &[u8]) -> Vec<String> {
        let (used, cut, is_open) = (self.desk.sheet.used, self.desk.cut, self.desk.session.is_some());
        let before = Before { used, cut, is_open, highest: self.desk.highest_start() };
        let answer = self.desk.answer(line);
        let kind = kind(line, &answer);
        let more = match kind.as_str() {
            "commit commit" | "abort abort" if self.desk.sheet.used == used => return again(line, &before),
            "open open" | "open no 1" | "open no 2" => self.opened(line, &before),
            "write write" | "write no 10" | "write lost" => self.written(line, &answer, &before),
            _ => vec![],
        };
        let again = self.overtaken.kinds(&self.desk, &kind, line, cut);
        more.into_iter().chain(again).map(str::to_string).chain([kind]).collect()
    }

    /// Which image a bare `open` has its floor from, and what else lay about.
    fn opened(&mut self, line: &[u8], before: &Before) -> Vec<&'static str> {
        let earlier = self.files;
        self.is_bare = line == b"open";
        self.files = self.desk.session.as_ref().map_or(earlier, |now| now.files);
        if !self.is_bare {
            return vec![];
        }
        if self.desk.session.is_none() {
            return vec!["bare open no 2"];
        }
        let sheet = &self.desk.sheet;
        let Some(highest) = sheet.highest(BARE_FILES) else {
            return vec!["bare open", "bare open of a sheet without an image"];
        };
        let by_fate = match sheet.fates[&highest.action] {
            Fate::Committed => "bare open with the highest start committed",
            Fate::Aborted => "bare open with the highest start aborted",
            Fate::Undecided => "bare open with the highest start undecided",
        };
        let is_newest_lower = sheet.images.last().is_some_and(|newest| newest.start < highest.start);
        let besides = met(&[
            (earlier > BARE_FILES, "bare open after one for more files"),
            (!before.is_open, "bare open without a state"),
            (before.cut.is_some(), "bare open while a cut waits"),
            (is_newest_lower, "bare open with a newer image that starts lower"),
            (self.torn > highest.start, "bare open with a torn image that starts higher"),
            (overtaken::is_overtaken(sheet, highest), "bare open with the highest start overtaken"),
        ]);
        ["bare open", by_fate].into_iter().chain(besides).collect()
    }

    /// Which writes tell the floor of a bare `open`, the file's own end being below it; and which are below the highest start.
    fn written(&mut self, line: &[u8], answer: &str, before: &Before) -> Vec<&'static str> {
        let words: Vec<u64> = String::from_utf8_lossy(line).split(' ').map(|word| word.parse().unwrap_or(0)).collect();
        let (file, start) = (words[1], words[2]);
        let Some(now) = self.desk.session.as_ref() else {
            if self.desk.sheet.used > before.used && before.cut != Some(64) {
                self.torn = start.max(self.torn);
            }
            return vec![];
        };
        let is_refused = answer.starts_with("no");
        if !self.is_bare {
            return met(&[(!is_refused && start <= before.highest, "write at or below the highest start")]);
        }
        let is_told = now.floor > now.end_of(&self.desk.sheet, file);
        met(&[
            (is_told && is_refused && start.wrapping_add(1) == now.floor, "write just below a bare floor no 10"),
            (is_told && is_refused && start == now.floor, "write at a bare floor no 10"),
            (is_told && !is_refused && start.wrapping_sub(1) == now.floor, "write just above a bare floor"),
            (!is_refused && start <= self.torn, "write above a bare floor and not above a torn start"),
        ])
    }
}

/// What of these was met.
pub fn met(cases: &[(bool, &'static str)]) -> Vec<&'static str> {
    cases.iter().filter(|(is_met, _)| *is_met).map(|(_, what)| *what).collect()
}

/// A decision that is answered and has stored nothing was asked again.
fn again(line: &[u8], before: &Before) -> Vec<String> {
    let again = if line.starts_with(b"commit") { "commit again" } else { "abort again" };
    let mut kinds = vec![again.to_string()];
    if before.cut.is_some() {
        kinds.push(format!("{} while a cut waits", again));
    }
    if before.used == PAGES {
        kinds.push(format!("{} on a full sheet", again));
    }
    kinds
}

pub fn count(list: &List, counts: &mut BTreeMap<String, u64>) {
    let mut watch = Watch::default();
    for line in &list.lines {
        for kind in watch.kinds(line) {
            *counts.entry(kind).or_insert(0) += 1;
        }
    }
}

/// Each answer must have come once in 4,000 commands, and none that is not listed.
pub fn is_covered(counts: &BTreeMap<String, u64>, commands: u64) -> bool {
    let mut is_right = true;
    let must: Vec<&str> = ANSWERS.split(',').chain(overtaken::ANSWERS.split(',')).collect();
    for answer in &must {
        let n = counts.get(*answer).copied().unwrap_or(0);
        println!("  {:>8}  {}{}", n, answer, if n <= commands / 4000 { "  too seldom" } else { "" });
        is_right &= n > commands / 4000;
    }
    for answer in counts.keys().filter(|answer| !must.contains(&answer.as_str())) {
        println!("  not listed: {}", answer);
        is_right = false;
    }
    is_right
}
