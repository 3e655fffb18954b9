//! Weeks of opening hours a second time, from document 02 alone: a week is what its hours mean, minutes of each day, and the keyholders who must
//! attend; an edition is a way to write that down.

use std::collections::BTreeSet;

pub const EDITIONS: [Edition; 3] = [
    Edition { number: 1, length: 14, width: 1, unit: 15, limit: 96, has_keyholders: false },
    Edition { number: 2, length: 28, width: 2, unit: 1, limit: 1440, has_keyholders: false },
    Edition { number: 3, length: 30, width: 2, unit: 1, limit: 1440, has_keyholders: true },
];

#[derive(Clone, Copy)]
pub struct Edition {
    pub number: u64,
    pub length: usize,
    pub width: usize, // bytes of a time
    pub unit: u32,    // its minutes
    pub limit: u32,
    pub has_keyholders: bool,
}

#[derive(Clone, Copy, Debug, PartialEq)]
pub enum Refusal {
    Length,
    Times(u64), // the day
    Minutes(u64),
    Keyholders,
    StepDown,
}

impl Refusal {
    /// As the functions for C say it.
    pub fn code(self) -> u64 {
        match self {
            Refusal::Length => 15,
            Refusal::Times(day) => 16 + 256 * day,
            Refusal::Minutes(day) => 17 + 256 * day,
            Refusal::Keyholders => 29,
            Refusal::StepDown => 30,
        }
    }
}

/// When a shop opens and closes, in minutes, Monday first.
type Hours = Vec<(u32, u32)>;

/// The numbers of the keyholders, from 0: byte by byte, lowest bit first.
type Keyholders = BTreeSet<u32>;

pub fn edition(length: usize) -> Option<Edition> {
    EDITIONS.into_iter().find(|edition| edition.length == length)
}

/// The hours, and whether each day is one that the edition allows.
fn hours(edition: Edition, bytes: &[u8]) -> (Hours, Vec<bool>) {
    let times: Vec<u32> = bytes
        .chunks(edition.width)
        .take(14)
        .map(|part| part.iter().rev().fold(0, |number, byte| 256 * number + u32::from(*byte)))
        .collect();
    let days = times.chunks(2);
    let allowed = days.clone().map(|day| day[0] <= day[1] && day[1] <= edition.limit).collect();
    (days.map(|day| (edition.unit * day[0], edition.unit * day[1])).collect(), allowed)
}

/// The bits that are set in two bytes.
fn keyholders(bytes: [u8; 2]) -> Keyholders {
    (0..16).filter(|number| bytes[*number as usize / 8] & (1 << (number % 8)) != 0).collect()
}

/// Monday is day 1.
fn lowest(fails: impl Iterator<Item = bool>) -> Option<u64> {
    fails.zip(1..).find_map(|(fails, day)| fails.then_some(day))
}

fn passed(edition: Edition, bytes: &[u8]) -> Result<Hours, Refusal> {
    let (hours, allowed) = hours(edition, bytes);
    match lowest(allowed.into_iter().map(|is_allowed| !is_allowed)) {
        Some(day) => Err(Refusal::Times(day)),
        None => Ok(hours),
    }
}

/// Dual custody.
fn attended(attending: &Keyholders) -> Result<(), Refusal> {
    if attending.len() < 2 {
        return Err(Refusal::Keyholders);
    }
    Ok(())
}

/// The edition's number.
pub fn tested(bytes: &[u8]) -> Result<u64, Refusal> {
    let edition = edition(bytes.len()).ok_or(Refusal::Length)?;
    passed(edition, bytes)?;
    if edition.has_keyholders {
        attended(&keyholders([bytes[28], bytes[29]]))?;
    }
    Ok(edition.number)
}

/// The week's bytes in the edition of this length, with these keyholders if it has any.
pub fn converted(bytes: &[u8], mask: u16, length: usize) -> Result<Vec<u8>, Refusal> {
    let (from, to) = (edition(bytes.len()).ok_or(Refusal::Length)?, edition(length).ok_or(Refusal::Length)?);
    if from.number == to.number {
        return Err(Refusal::Length);
    }
    if from.number == 3 {
        return Err(Refusal::StepDown);
    }
    let hours = passed(from, bytes)?;
    let attending = keyholders(mask.to_le_bytes());
    if to.has_keyholders {
        attended(&attending)?;
    }
    let cannot_tell = |minute: u32| minute / to.unit * to.unit != minute;
    if let Some(day) = lowest(hours.iter().map(|day| cannot_tell(day.0) || cannot_tell(day.1))) {
        return Err(Refusal::Minutes(day));
    }
    let times = hours.iter().flat_map(|day| [day.0 / to.unit, day.1 / to.unit]);
    let mut week: Vec<u8> = times.flat_map(|time| time.to_le_bytes()[..to.width].to_vec()).collect();
    if to.has_keyholders {
        let halves = [0, 8].map(|first| (0..8).map(|bit| u8::from(attending.contains(&(first + bit))) << bit).sum::<u8>());
        week.extend(halves);
    }
    Ok(week)
}
