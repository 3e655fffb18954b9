//! Random command lists. The model goes along, so that most lines ask for something near what there is: an undecided action, a
//! file with a token, a time at or beside a start. Without that, nearly every answer would be a refusal.

use crate::commands::Desk;
use crate::histories::{Fate, Image, MOST_FILES, PAGES};
use crate::random::Random;

pub struct List {
    pub lines: Vec<Vec<u8>>,
    pub ends_in_newline: bool,
}

struct Author {
    random: Random,
    desk: Desk,
    files: u64, // of most openings
    bare: u64,  // of twelve openings, how many are bare
    cuts: u64,  // one in so many lines
    noise: u64,
    hurries: bool, // to a full sheet
}

/// A conversation of some hundreds of lines.
pub fn list(seed: u64) -> List {
    let hurries = Random::new(seed).once_in(4);
    let length = if hurries { 500 } else { 100 } + Random::new(seed).below(400);
    list_of(seed, length, hurries)
}

pub fn list_of(seed: u64, length: u64, hurries: bool) -> List {
    let mut random = Random::new(seed);
    let files = random.pick(&[8, 8, 8, 16, 1, 2, 3, 40, MOST_FILES]);
    let bare = random.pick(&[1, 3, 6]);
    let cuts = random.pick(&[8, 15, 40, 200]);
    let noise = random.pick(&[10, 30, 30, 100]);
    let mut author = Author { random, desk: Desk::default(), files, bare, cuts, noise, hurries };
    let lines = (0..length).map(|_| author.next_line()).collect();
    List { lines, ends_in_newline: !author.random.once_in(4) }
}

impl Author {
    fn next_line(&mut self) -> Vec<u8> {
        let mut line = self.command().into_bytes();
        if self.random.once_in(self.noise) {
            line = self.spoilt(line);
        }
        self.desk.answer(&line);
        line
    }

    fn command(&mut self) -> String {
        // with the last time as the floor nothing can be written
        let lines = self.desk.session.as_ref().map_or(2, |now| if now.floor == u64::MAX { 5 } else { 30 });
        if self.random.once_in(lines) {
            return self.open();
        }
        if self.random.once_in(self.cuts) {
            return self.cut();
        }
        let undecided = self.desk.sheet.undecided();
        let (has_room, is_full) = (PAGES - self.desk.sheet.used > undecided + 1, self.desk.sheet.used == PAGES);
        match self.random.below(100) {
            n if n < 8 || (undecided == 0 && n < 40) => "begin".to_string(),
            n if n < 45 && self.hurries && has_room => "begin".to_string(),
            n if n < 25 && self.hurries && undecided > 0 => format!("commit {}", self.action(60)),
            n if n < 50 => self.write(),
            n if n < 75 => self.read(),
            n if n < 80 => format!("test {}", self.action(3)),
            n if n < 83 || (is_full && n < 90) => self.again(),
            n if n < 92 => self.commit(),
            _ => format!("abort {}", self.action(6)),
        }
    }

    fn open(&mut self) -> String {
        let files = match self.random.below(12) {
            0 => self.random.pick(&[0, MOST_FILES + 1, u64::MAX, 1 << 32]),
            1 => 1 + self.random.below(self.files),
            2 => self.files + self.random.below(3),
            n if n < 3 + self.bare => return "open".to_string(),
            _ => self.files,
        };
        let file = self.file();
        let floor = match self.random.below(8) {
            0 => self.time(file),
            1 => self.random.below(60),
            _ => 0,
        };
        format!("open {} {}", files, floor)
    }

    fn cut(&mut self) -> String {
        let n = match self.random.below(4) {
            0 => 0,
            1 => 64,
            _ => 1 + self.random.below(63),
        };
        format!("cut {}", n)
    }

    /// Mostly a few files, so that they have versions and tokens; now and then one that there is not.
    fn file(&mut self) -> u64 {
        match self.random.below(16) {
            0 => self.random.pick(&[0, self.files + 1, 1 << 32, u64::MAX]),
            1 | 2 => 1 + self.random.below(self.files),
            _ => 1 + self.random.below(self.files.min(4)),
        }
    }

    /// Mostly an undecided action; one time in `decided` a decided one, and now and then none at all.
    fn action(&mut self, decided: u64) -> u64 {
        if self.random.once_in(20) {
            let strange = self.random.below(self.desk.sheet.used + 3);
            return self.random.pick(&[0, strange, strange, (1 << 32) + 1, u64::MAX]);
        }
        let is_decided = self.random.once_in(decided);
        let fates = self.desk.sheet.fates.iter();
        let actions: Vec<u64> = fates.filter(|(_, f)| (**f != Fate::Undecided) == is_decided).map(|(a, _)| *a).collect();
        match actions.len() {
            0 => self.random.below(self.desk.sheet.used + 2),
            n => actions[self.random.below(n as u64) as usize],
        }
    }

    /// Often of an action that has written a file again.
    fn commit(&mut self) -> String {
        let sheet = &self.desk.sheet;
        let token_of = |image: &Image| sheet.files.get(&image.file).and_then(|f| f.token.as_ref());
        let is_overtaken =
            |image: &&Image| token_of(image).is_some_and(|t| t.action == image.action && t.version.place > image.place);
        let again: Vec<u64> = sheet.images.iter().filter(is_overtaken).map(|image| image.action).collect();
        match again.len() {
            n if n > 0 && self.random.once_in(2) => format!("commit {}", again[self.random.below(n as u64) as usize]),
            _ => format!("commit {}", self.action(6)),
        }
    }

    /// The decision of a decided action once more, often of the one that was decided last: its reply may have been lost.
    fn again(&mut self) -> String {
        let last = self.desk.sheet.outcomes.iter().max_by_key(|(_, place)| **place).map(|(action, _)| *action);
        let action = match last {
            Some(action) if self.random.once_in(2) => action,
            _ => self.action(1),
        };
        let is_aborted = self.desk.sheet.fates.get(&action) == Some(&Fate::Aborted);
        format!("{} {}", if is_aborted { "abort" } else { "commit" }, action)
    }

    fn token(&self, file: u64) -> Option<(u64, u64)> {
        let token = self.desk.sheet.files.get(&file)?.token.as_ref()?;
        Some((token.action, token.version.start))
    }

    fn end(&self, file: u64) -> u64 {
        self.desk.session.as_ref().map_or(0, |now| now.end_of(&self.desk.sheet, file))
    }

    /// At, just below or just above something that counts for the file.
    fn time(&mut self, file: u64) -> u64 {
        let versions = self.desk.sheet.files.get(&file).map_or(&[][..], |f| &f.versions);
        let old = match versions.len() {
            0 => 0,
            n => versions[self.random.below(n as u64) as usize].start,
        };
        let token = self.token(file).map_or(old, |(_, start)| start);
        let near = self.random.pick(&[old, old, old, token, token, self.end(file)]);
        match self.random.below(40) {
            0 => self.random.pick(&[0, u64::MAX, u64::MAX - 1, 1 << 32, 1 << 63]),
            n if n < 14 => near.saturating_sub(1),
            n if n < 20 => near.saturating_add(1 + self.random.below(3)),
            _ => near,
        }
    }

    fn read(&mut self) -> String {
        let file = self.file();
        let mut time = self.time(file);
        let action = match (self.token(file), self.random.below(10)) {
            (Some((action, _)), 0..=1) => action,
            (Some((action, start)), 2..=4) => {
                time = start.saturating_sub(2).saturating_add(self.random.below(14)); // about those that it overtook
                action
            }
            (_, 5) => self.action(4),
            (_, 6) => self.action(1),
            _ => 0,
        };
        format!("read {} {} {}", file, time, action)
    }

    /// Now and then one whose end lies above its newest start: that was read there, or an overtaken token left it.
    fn written_file(&mut self) -> u64 {
        let files = self.desk.sheet.files.iter();
        let ended: Vec<u64> = files.filter(|(f, history)| self.end(**f) > history.newest_start()).map(|(f, _)| *f).collect();
        match ended.len() {
            n if n > 0 && self.random.once_in(2) => ended[self.random.below(n as u64) as usize],
            _ => self.file(),
        }
    }

    fn write(&mut self) -> String {
        let (mut file, mut action) = (self.written_file(), self.action(12));
        match (self.token(file), self.random.below(8)) {
            (Some((own, _)), 0..=3) => action = own,
            (Some(_), 4..=6) => file = 1 + self.random.below(self.files),
            _ => (),
        }
        let start = self.start(file);
        let length = match self.random.below(20) {
            0 => 33 + self.random.below(180),
            1 => 32,
            _ => 1 + self.random.below(8),
        };
        let text: String = (0..length).map(|_| (0x21 + self.random.below(0x5E)) as u8 as char).collect();
        format!("write {} {} {} {}", file, start, action, text)
    }

    /// Mostly just above what bars the file, and now and then at it or just below. While a cut waits often far above, so that a torn
    /// image can start higher than all others.
    fn start(&mut self, file: u64) -> u64 {
        let floor = self.desk.session.as_ref().map_or(0, |now| now.floor);
        let bar = self.end(file).max(floor);
        match self.random.below(12) {
            0 => self.time(file),
            1..=3 => bar,
            4 => bar.saturating_sub(1),
            _ if self.desk.cut.is_some() => bar.saturating_add(1 + self.random.below(20)),
            _ => bar.saturating_add(1 + self.random.below(3)),
        }
    }

    /// A line with something wrong, or only odd, about it.
    fn spoilt(&mut self, mut line: Vec<u8>) -> Vec<u8> {
        let at = self.random.below(line.len() as u64) as usize;
        match self.random.below(12) {
            0 => line.insert(at, b' '),
            1 => line.push(b' '),
            2 => line.insert(0, b' '),
            3 => line[at] = self.random.pick(&[0, 9, 13, 0x7F, 0x80, 0xFF, b' ', b'+', b'-', b'A', b'0', b'9', b'~', b'!']),
            4 => line.truncate(at),
            5 => drop(line.remove(at)),
            6 => line.extend_from_slice(b" 1"),
            7 => line = self.with_number(line, b"18446744073709551616"),
            8 => line = self.with_number(line, b"100000000000000000000000000018446744073709551615"),
            9 => line = self.with_number(line, b"00000000000000000000000000018446744073709551615"),
            10 => line = self.random.pick(&["cut 65", "open 8", "what", "cut", "", "rebuild 1", "inspect"]).as_bytes().to_vec(),
            _ => line = self.stretched(line),
        }
        line.retain(|byte| *byte != b'\n');
        line
    }

    /// One of the words, the first only if there is no other, becomes another number.
    fn with_number(&mut self, line: Vec<u8>, number: &[u8]) -> Vec<u8> {
        let mut words: Vec<&[u8]> = line.split(|byte| *byte == b' ').collect();
        let last = words.len() - 1;
        let at = 1 + self.random.below(last as u64) as usize;
        words[at.min(last)] = number;
        words.join(&b' ')
    }

    /// Zeros before the last word, so that the line has 255 or 256 bytes or some more.
    fn stretched(&mut self, line: Vec<u8>) -> Vec<u8> {
        let length = self.random.pick(&[255, 255, 256, 257, 300, 511, 512, 513, 700, 4096, 4097]);
        let at = line.iter().rposition(|byte| *byte == b' ').map_or(line.len(), |i| i + 1);
        let zeros = vec![b'0'; usize::saturating_sub(length, line.len())];
        [&line[..at], &zeros, &line[at..]].concat()
    }
}
