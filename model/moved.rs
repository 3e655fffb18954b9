//! The move to a fresh sheet, at the level of histories: each file's newest version is carried, what was before it is forgotten, and places
//! and actions are counted anew from 1.

use crate::histories::{Change, Fate, Refusal, Session, Sheet, Version};

const MOST_PAGES: u64 = 65_536;

/// What a move stores, in order of place, and the floor that it answers.
pub struct Move {
    pub changes: Vec<Change>,
    pub floor: u64,
}

impl Sheet {
    fn newest(&self, file: u64) -> Option<&Version> {
        self.files.get(&file)?.versions.last()
    }

    pub fn version_count(&self, files: u64) -> u64 {
        (1..=files).filter(|file| self.newest(*file).is_some()).count() as u64
    }

    /// The carried opening, the newest versions in file order, and the committed outcome.
    fn carried_over(&self, files: u64) -> Vec<Change> {
        let image = |file: u64| {
            let version = self.newest(file)?;
            Some(Change::Image { file, start: version.start, action: 1, value: version.value.clone() })
        };
        let first = Some(Change::Opening { is_carried: true });
        let last = Some(Change::Outcome { action: 1, fate: Fate::Committed });
        first.into_iter().chain((1..=files).filter_map(image)).chain(last).collect()
    }

    /// To a sheet of so many pages. This one stays as it is.
    pub fn moved(&self, now: &Session, pages: u64, is_blank: bool) -> Result<Move, Refusal> {
        if !(1..=MOST_PAGES).contains(&pages) {
            return Err(Refusal(1, 0));
        }
        if let Some((action, _)) = self.fates.iter().find(|(_, fate)| **fate == Fate::Undecided) {
            return Err(Refusal(23, *action));
        }
        if pages < self.version_count(now.files) + 2 {
            return Err(Refusal(11, 0));
        }
        if !is_blank {
            return Err(Refusal(12, 0));
        }
        let floor = (1..=now.files).map(|file| now.end_of(self, file)).fold(now.floor, u64::max);
        Ok(Move { changes: self.carried_over(now.files), floor })
    }
}
