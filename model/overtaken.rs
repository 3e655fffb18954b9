//! What conversations have met where an action writes a file again, so that its newest image there overtakes those before.

use crate::commands::Desk;
use crate::histories::{Image, Sheet};
use crate::met::met;
use std::collections::BTreeMap;

pub const ANSWERS: &str = "write again at a lower start,write again at the same start,write again at a higher start,\
    write a third time,write again after an own read past every start,write again no 10,write again no 11,\
    write again cut before its first byte,write again torn,write again whole though lost,\
    write no 8 where 10 would come too,\
    read inside before an overtaken start,read inside past an overtaken start and before the newest,\
    commit of a file written again,commit of a lower start than one overtaken,abort of a file written again,\
    write at or below an overtaken start no 10,write at or below an own read of an overtaken token no 10,\
    write just above an end left by an overtaken token,\
    read outside before an overtaken start,read outside past an overtaken start and before the newest,\
    write at or below a start overtaken before the opening,\
    bare open with the highest start overtaken";

/// What is kept since the opening.
#[derive(Default)]
pub struct Overtaken {
    tokens: BTreeMap<u64, (u64, u64)>, // by file: a token's action, and the end above its start that one overtaken has left to it
    ends: BTreeMap<u64, u64>,          // by file: such an end, made the current one by a commit
}

/// The images of a file under an action, oldest first: the last counts, the others are overtaken.
fn images_of(sheet: &Sheet, file: u64, action: u64) -> Vec<&Image> {
    sheet.images.iter().filter(|image| image.file == file && image.action == action).collect()
}

/// The same under the action that wrote the file's newest version.
fn images_of_version(sheet: &Sheet, file: u64) -> Vec<&Image> {
    let place = sheet.files.get(&file).and_then(|f| f.versions.last()).map_or(0, |version| version.place);
    let newest = sheet.images.iter().find(|image| image.place == place);
    newest.map_or(vec![], |newest| images_of(sheet, file, newest.action))
}

fn highest(images: &[&Image]) -> u64 {
    images.iter().map(|image| image.start).max().unwrap_or(0)
}

/// The highest start that was overtaken, 0 if there is none.
fn overtaken(images: &[&Image]) -> u64 {
    images.split_last().map_or(0, |(_, earlier)| highest(earlier))
}

/// Of a read at a time: whether it lies at or past the newest of these and before an overtaken one, or the other way round.
fn between(images: &[&Image], time: u64) -> (bool, bool) {
    let Some((newest, earlier)) = images.split_last() else {
        return (false, false);
    };
    let is_past = |image: &&Image| image.start <= time;
    (is_past(newest) && !earlier.iter().all(is_past), !is_past(newest) && earlier.iter().any(is_past))
}

/// The image that a bare `open` has its floor from is overtaken.
pub fn is_overtaken(sheet: &Sheet, image: &Image) -> bool {
    images_of(sheet, image.file, image.action).last().is_some_and(|newest| newest.place != image.place)
}

impl Overtaken {
    /// By an answer's kind, with what is there after it, and the cut that waited before.
    pub fn kinds(&mut self, desk: &Desk, kind: &str, line: &[u8], cut: Option<u64>) -> Vec<&'static str> {
        let words: Vec<u64> = String::from_utf8_lossy(line).split(' ').map(|word| word.parse().unwrap_or(0)).collect();
        match (kind, &words[1..]) {
            ("open open" | "open no 1" | "open no 2", _) => {
                *self = Overtaken::default();
                vec![]
            }
            ("write write", &[file, start, action, _]) => self.written(desk, file, start, action),
            ("write lost", &[file, _, action, _]) => lost(&desk.sheet, file, action, cut),
            ("write no 8" | "write no 10" | "write no 11", &[file, start, action, _]) => {
                self.refused(desk, kind, file, start, action)
            }
            ("read read" | "read none", &[file, time, action]) => read(&desk.sheet, file, time, action),
            ("commit commit" | "abort abort", &[action]) => self.decided(&desk.sheet, kind == "commit commit", action),
            _ => vec![],
        }
    }

    fn written(&mut self, desk: &Desk, file: u64, start: u64, action: u64) -> Vec<&'static str> {
        let images = images_of(&desk.sheet, file, action);
        let end = desk.session.as_ref().map_or(0, |now| now.token_end_of(&desk.sheet, file));
        let is_just_above = self.ends.get(&file).is_some_and(|end| start.wrapping_sub(1) == *end);
        let mut kinds = met(&[
            (is_just_above, "write just above an end left by an overtaken token"),
            (start <= overtaken(&images_of_version(&desk.sheet, file)), "write at or below a start overtaken before the opening"),
        ]);
        let [.., before, _] = images[..] else {
            return kinds;
        };
        self.tokens.remove(&file);
        if end > start {
            self.tokens.insert(file, (action, end));
        }
        kinds.extend(met(&[
            (start < before.start, "write again at a lower start"),
            (start == before.start, "write again at the same start"),
            (start > before.start, "write again at a higher start"),
            (images.len() > 2, "write a third time"),
            (end > highest(&images), "write again after an own read past every start"),
        ]));
        kinds
    }

    fn refused(&self, desk: &Desk, kind: &str, file: u64, start: u64, action: u64) -> Vec<&'static str> {
        let (bar, floor) = desk.session.as_ref().map_or((0, 0), |now| (now.end_of(&desk.sheet, file), now.floor));
        let is_again = !images_of(&desk.sheet, file, action).is_empty();
        let version = images_of_version(&desk.sheet, file);
        let is_kept = start > floor && self.ends.get(&file).is_some_and(|end| start <= *end);
        let is_told = kind == "write no 10" && is_kept && version.last().is_some_and(|newest| start > newest.start);
        met(&[
            (kind == "write no 8" && start <= bar.max(floor), "write no 8 where 10 would come too"),
            (kind == "write no 10" && is_again, "write again no 10"),
            (kind == "write no 11" && is_again, "write again no 11"),
            (is_told && start <= overtaken(&version), "write at or below an overtaken start no 10"),
            (is_told && start > overtaken(&version), "write at or below an own read of an overtaken token no 10"),
        ])
    }

    fn decided(&mut self, sheet: &Sheet, is_commit: bool, action: u64) -> Vec<&'static str> {
        let of_action = |file: &u64| images_of_version(sheet, *file).last().is_some_and(|newest| newest.action == action);
        self.ends.retain(|file, _| !of_action(file));
        let left = self.tokens.iter().filter(|(file, (by, _))| *by == action && of_action(file));
        self.ends.extend(left.map(|(file, (_, end))| (*file, *end)));
        self.tokens.retain(|_, (by, _)| *by != action);
        let again = sheet.files.keys().map(|file| images_of(sheet, *file, action)).filter(|images| images.len() > 1);
        let is_lower: Vec<bool> = again.map(|images| images[images.len() - 1].start < overtaken(&images)).collect();
        met(&[
            (is_commit && !is_lower.is_empty(), "commit of a file written again"),
            (is_commit && is_lower.contains(&true), "commit of a lower start than one overtaken"),
            (!is_commit && !is_lower.is_empty(), "abort of a file written again"),
        ])
    }
}

fn lost(sheet: &Sheet, file: u64, action: u64, cut: Option<u64>) -> Vec<&'static str> {
    let images = images_of(sheet, file, action).len();
    met(&[
        (cut == Some(0) && images > 0, "write again cut before its first byte"),
        (cut.is_some_and(|n| (1..64).contains(&n)) && images > 0, "write again torn"),
        (cut == Some(64) && images > 1, "write again whole though lost"),
    ])
}

fn read(sheet: &Sheet, file: u64, time: u64, action: u64) -> Vec<&'static str> {
    let images = if action == 0 { images_of_version(sheet, file) } else { images_of(sheet, file, action) };
    let (is_before, is_past) = between(&images, time);
    met(&[
        (action != 0 && is_before, "read inside before an overtaken start"),
        (action != 0 && is_past, "read inside past an overtaken start and before the newest"),
        (action == 0 && is_before, "read outside before an overtaken start"),
        (action == 0 && is_past, "read outside past an overtaken start and before the newest"),
    ])
}
