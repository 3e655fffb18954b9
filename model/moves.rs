//! Chains of sheets: random calls, cuts, openings and moves to fresh sheets, cut too, through the proved functions and beside the
//! histories; and what a dealer relies on along a whole chain. Linked with the proved library.
//!
//!   moves [SEED [CALLS]]

mod chains;
#[allow(dead_code)] // the command program needs more of these two
mod histories;
mod moved;
mod random;
#[allow(dead_code)]
mod sheet;
mod store;

use chains::{Ask, Chain, Fresh};
use histories::{Fate, Sheet};
use random::Random;
use std::collections::BTreeMap;
use store::{Kind, Store, MOVED, NOTHING, OPENED, PAGE, REFUSED, VALUE};

const SEED: u64 = 20261118;
const CALLS: u64 = 200_000;

/// What must come often.
const MET: &str = "open,open no 24,begin,begin no 11,write,write no 8,write no 10,write no 11,read,none,read no 9,read no 25,\
    test,test no 5,commit,commit no 6,commit no 11,abort,call cut,\
    move,move no 23,move no 11,move no 12,move onto a sheet that a cut has left no 12,\
    move of no versions,move of some versions,move of every version,move to a full sheet,\
    second move of a chain,third move of a chain or later,\
    move cut before its first byte,move cut in its first page,move cut after its first page,move cut before its outcome,\
    move cut in its outcome,move cut after its outcome,\
    a sheet cut in its first page opens as an empty store,the old sheet opened after a cut move,\
    read of a carried version,read of a version written since,none on a moved sheet,\
    repeated read alike on another sheet,repeated read refused 25,repeated none on another sheet,\
    a write that the move's floor refuses";

struct Trial {
    random: Random,
    counts: BTreeMap<String, u64>,
    done: u64,
    is_kept: bool, // each opening's floor is at least every time asked, and a move's is taken
}

impl Trial {
    fn meet(&mut self, what: &str, is_met: bool) {
        if is_met {
            *self.counts.entry(what.to_string()).or_insert(0) += 1;
        }
    }

    /// The floor of an opening; after a move the one that was answered.
    fn floor(&mut self, chain: &Chain, answered: Option<u64>) -> u64 {
        match answered {
            Some(floor) if self.is_kept => floor,
            _ if self.is_kept => chain.asked.saturating_add(self.random.below(3)),
            _ => self.random.below(40),
        }
    }

    fn open(&mut self, chain: &mut Chain, answered: Option<u64>) -> bool {
        if !self.is_kept {
            chain.answers.clear(); // nothing is promised
        }
        let floor = self.floor(chain, answered);
        self.done += 1;
        self.meet("open", true);
        chain.open(floor).is_some_and(|numbers| numbers[0] == OPENED)
    }

    fn action(&mut self, chain: &Chain) -> u64 {
        let open: Vec<u64> =
            chain.model.fates.iter().filter(|(_, fate)| **fate == Fate::Undecided).map(|(action, _)| *action).collect();
        match open.is_empty() || self.random.once_in(12) {
            true => self.random.below(chain.model.used + 2),
            false => self.random.pick(&open),
        }
    }

    /// A time that was asked before, or one about the start of a file's newest version or token.
    fn time(&mut self, chain: &Chain, file: u64) -> u64 {
        let earlier: Vec<u64> = chain.answers.range((file, 0)..=(file, u64::MAX)).map(|((_, time), _)| *time).collect();
        let history = chain.model.files.get(&file);
        let newest = history.map_or(0, |f| f.newest_start());
        let token = history.and_then(|f| f.token.as_ref()).map_or(newest, |token| token.version.start);
        match self.random.below(8) {
            0..=2 if !earlier.is_empty() => self.random.pick(&earlier),
            3 => self.random.below(newest.min(1000) + 1),
            4 if self.random.once_in(200) => u64::MAX,
            5 => token,
            _ => newest.saturating_add(self.random.below(4)).saturating_sub(1),
        }
    }

    fn read(&mut self, chain: &mut Chain, file: u64) -> bool {
        let (time, inside) = (self.time(chain, file), self.random.once_in(4));
        let action = if inside { self.action(chain) } else { 0 };
        let earlier = chain.answers.get(&(file, time)).cloned().filter(|_| action == 0 && self.is_kept);
        let ask = Ask { kind: Kind::Read, file, time, action, value: vec![] };
        let Some(answer) = chain.read(&ask) else {
            return false;
        };
        let is_moved = chain.moves > 0;
        let is_carried =
            chain.model.files.get(&file).is_some_and(|f| f.versions.iter().any(|v| v.place == answer[1] && v.is_carried));
        self.meet("read", answer[0] == VALUE);
        self.meet("none", answer[0] == NOTHING);
        self.meet("read no 9", answer[..2] == [REFUSED, 9]);
        self.meet("read no 25", answer[..2] == [REFUSED, 25]);
        self.meet("read of a carried version", answer[0] == VALUE && is_carried);
        self.meet("read of a version written since", answer[0] == VALUE && is_moved && !is_carried);
        self.meet("none on a moved sheet", answer[0] == NOTHING && is_moved);
        self.meet("repeated read alike on another sheet", is_moved && answer[0] == VALUE && earlier.is_some());
        self.meet("repeated none on another sheet", is_moved && answer[0] == NOTHING && earlier.is_some());
        self.meet("repeated read refused 25", answer[..2] == [REFUSED, 25] && earlier.is_some());
        true
    }

    /// A start above all that bars it, mostly, or one about that.
    fn start(&mut self, chain: &Chain, file: u64) -> u64 {
        let Some(now) = chain.session.as_ref() else {
            return 0;
        };
        let bar = now.floor.max(now.end_of(&chain.model, file));
        match self.random.below(8) {
            0 => bar,
            1 => self.random.below(bar.min(1000) + 1),
            _ => bar.saturating_add(1 + self.random.below(4)),
        }
    }

    fn call(&mut self, chain: &mut Chain, kind: Kind) -> bool {
        let file = 1 + self.random.below(chain.files);
        if kind == Kind::Read {
            return self.read(chain, file);
        }
        let (time, action) = (self.start(chain, file), self.action(chain));
        let size = self.random.pick(&[0, 1, 5, 32]);
        let value = (0..size).map(|_| self.random.below(256) as u8).collect();
        let cut = self.random.once_in(20).then(|| self.random.pick(&[0, 1, 30, 63, 64]));
        let (used, end) = (chain.model.used, chain.session.as_ref().map_or(0, |now| now.end_of(&chain.model, file)));
        let Some(answer) = chain.call(&Ask { kind, file, time, action, value }, cut) else {
            return false;
        };
        let word = kind.word();
        let is_floor = kind == Kind::Write && chain.moves > 0 && time > end;
        self.meet(word, answer[0] != REFUSED);
        self.meet(&format!("{} no {}", word, answer[1]), answer[0] == REFUSED);
        self.meet("a write that the move's floor refuses", is_floor && answer[..2] == [REFUSED, 10]);
        self.meet("call cut", chain.session.is_none() && chain.model.used > used);
        true
    }

    /// A call of some kind. What was cut is opened again.
    fn step(&mut self, chain: &mut Chain) -> bool {
        use Kind::{Abort, Begin, Commit, Read, Test, Write};
        self.done += 1;
        let has_open = chain.model.undecided() > 0;
        let kind = match has_open {
            false => self.random.pick(&[Begin, Begin, Begin, Read, Read, Test, Commit, Write]),
            true => self.random.pick(&[Begin, Write, Write, Write, Write, Read, Read, Read, Commit, Commit, Abort, Test]),
        };
        self.call(chain, kind) && (chain.session.is_some() || self.open(chain, None))
    }

    /// Every undecided action is decided, mostly committed, as far as there are pages.
    fn decide_all(&mut self, chain: &mut Chain) -> bool {
        let open: Vec<u64> =
            chain.model.fates.iter().filter(|(_, fate)| **fate == Fate::Undecided).map(|(action, _)| *action).collect();
        open.into_iter().all(|action| {
            let kind = if self.random.once_in(4) { Kind::Abort } else { Kind::Commit };
            chain.call(&Ask { kind, file: 0, time: 0, action, value: vec![] }, None).is_some()
        })
    }

    /// Mostly a blank sheet with room, often no more than is needed.
    fn fresh(&mut self, chain: &Chain) -> Fresh {
        let needed = chain.model.version_count(chain.files) + 2;
        let pages = match self.random.below(8) {
            0 => needed - 1,
            1 => needed,
            _ => needed + 2 + self.random.below(30),
        };
        let mut bytes = vec![0; PAGE * pages as usize];
        if self.random.once_in(12) {
            let at = self.random.below(bytes.len() as u64) as usize;
            bytes[at] = 1 + self.random.below(255) as u8;
        }
        Fresh { model: Sheet::blank(pages), bytes }
    }

    /// After how many bytes a move of so many pages is cut.
    fn cut_of(&mut self, pages: u64) -> usize {
        let (any, inside) = (self.random.below(pages), self.random.pick(&[0, 0, 1, 40, 63, 64]));
        let page = self.random.pick(&[0, 0, 1, pages - 1, pages - 1, any]);
        PAGE * page as usize + inside
    }

    fn meet_cut(&mut self, cut: usize, all: usize) {
        self.meet("move cut before its first byte", cut == 0);
        self.meet("move cut in its first page", cut > 0 && cut < PAGE);
        self.meet("move cut after its first page", cut == PAGE);
        self.meet("move cut before its outcome", cut == all - PAGE);
        self.meet("move cut in its outcome", cut > all - PAGE && cut < all);
        self.meet("move cut after its outcome", cut == all);
    }

    fn meet_move(&mut self, chain: &Chain, fresh: &Fresh, versions: u64) {
        self.meet("move", true);
        self.meet("move of no versions", versions == 0);
        self.meet("move of some versions", versions > 0 && versions < chain.files);
        self.meet("move of every version", versions == chain.files);
        self.meet("move to a full sheet", fresh.model.pages == versions + 2);
        self.meet("second move of a chain", chain.moves == 1);
        self.meet("third move of a chain or later", chain.moves > 1);
    }

    /// What a cut before the outcome is whole has left: it is refused 24, or opens as an empty store, and no move goes onto it but if it is
    /// blank. The box goes on with the old sheet, from an opening on.
    fn stays(&mut self, chain: &mut Chain, mut fresh: Fresh) -> bool {
        let mut store = Store::on(fresh.bytes.clone(), chain.files);
        let told = store.open(9);
        let is_right = match fresh.model.open(chain.files, 9) {
            Ok(_) => told == [OPENED, fresh.model.used, 0, 0, 0, 0, fresh.model.used, 9, 0],
            Err(refusal) => told == [REFUSED, refusal.0, refusal.1, 0, 0, 0, 0, 0, 0],
        };
        self.meet("open no 24", told[..2] == [REFUSED, 24]);
        self.meet("a sheet cut in its first page opens as an empty store", told[0] == OPENED && fresh.model.used == 1);
        self.meet("the old sheet opened after a cut move", true);
        chain.session = None;
        if !is_right || !self.open(chain, None) {
            return false;
        }
        if fresh.model.used == 0 || chain.model.undecided() > 0 {
            return true;
        }
        self.meet("move onto a sheet that a cut has left no 12", true);
        chain.move_to(&mut fresh, None).is_some_and(|numbers| numbers[..2] == [REFUSED, 12])
    }

    /// What is said of a moved sheet: it is lawful, the highest start on it is the highest that was carried, and the floor that the move
    /// answers is no lower, nor than any time that was asked.
    fn is_good(&self, chain: &Chain, fresh: &Fresh, floor: u64) -> bool {
        let highest = fresh.model.highest(chain.files).map_or(0, |image| image.start);
        let is_lawful = sheet::climbed(&fresh.bytes, chain.files).is_some_and(|(place, _)| place == 0);
        let is_told = Store::on(fresh.bytes.clone(), chain.files).highest_start(chain.files) == highest;
        is_lawful && is_told && floor >= highest && (!self.is_kept || floor >= chain.asked)
    }

    fn move_on(&mut self, chain: &mut Chain) -> bool {
        if self.random.below(4) > 0 && !self.decide_all(chain) {
            return false;
        }
        let mut fresh = self.fresh(chain);
        let versions = chain.model.version_count(chain.files);
        let all = PAGE * (versions as usize + 2);
        let cut = self.random.once_in(2).then(|| self.cut_of(versions + 2));
        let Some(answer) = chain.move_to(&mut fresh, cut) else {
            return false;
        };
        self.done += 1;
        if answer[0] != MOVED {
            self.meet(&format!("move no {}", answer[1]), true);
            return true;
        }
        self.meet_move(chain, &fresh, versions);
        cut.into_iter().for_each(|cut| self.meet_cut(cut, all));
        if cut.is_some_and(|cut| cut < all) {
            return self.stays(chain, fresh);
        }
        let is_good = self.is_good(chain, &fresh, answer[1]);
        chain.go_over(fresh);
        is_good && self.open(chain, Some(answer[1]).filter(|_| cut.is_none()))
    }

    /// One chain, from a blank sheet.
    fn is_alike(&mut self) -> bool {
        let mut chain = Chain::new(1 + self.random.below(6), 3 + self.random.below(40));
        self.is_kept = !self.random.once_in(4);
        let steps = 30 + self.random.below(120);
        let mut is_right = self.open(&mut chain, None);
        for _ in 0..steps {
            is_right = is_right && if self.random.once_in(10) { self.move_on(&mut chain) } else { self.step(&mut chain) };
        }
        if !is_right {
            println!("{}", chain.said.join("\n"));
        }
        is_right
    }

    fn is_covered(&self) -> bool {
        let mut is_right = true;
        for what in MET.split(',') {
            let n = self.counts.get(what).copied().unwrap_or(0);
            println!("  {:>8}  {}{}", n, what, if n <= self.done / 4000 { "  too seldom" } else { "" });
            is_right &= n > self.done / 4000;
        }
        is_right
    }
}

fn main() {
    let words: Vec<u64> = std::env::args().skip(1).map(|word| word.parse().unwrap_or(SEED)).collect();
    let (seed, calls) = (words.first().copied().unwrap_or(SEED), words.get(1).copied().unwrap_or(CALLS));
    let mut t = Trial { random: Random::new(seed), counts: BTreeMap::new(), done: 0, is_kept: true };
    let (mut passed, mut failed, mut chains, mut alike) = (0, 0, 0, true);
    let mut tell = |what: String, is_right: bool| {
        println!("{}: {}", if is_right { "ok" } else { "FAILED" }, what);
        *(if is_right { &mut passed } else { &mut failed }) += 1;
    };
    println!("seed {}", seed);
    while alike && t.done < calls {
        alike = t.is_alike();
        chains += 1;
    }
    tell(format!("{} calls, openings and moves along {} chains of sheets", t.done, chains), alike);
    tell("every answer and refusal came often".to_string(), alike && t.is_covered());
    println!("{} passed, {} failed", passed, failed);
    std::process::exit(i32::from(failed != 0));
}
