//! A second version of the desk program, written from documents 01 and 02 alone, and its comparison with the first.
//!
//!   model run                                answers the commands on its input
//!   model check PROGRAM [SEED [COMMANDS]]    random conversations, the program's answers beside the model's

mod commands;
mod compare;
mod histories;
mod lists;
mod met;
mod overtaken;
mod points;
mod random;

use commands::Desk;
use lists::List;
use std::collections::BTreeMap;
use std::io::{self, BufRead, Write};

const SEED: u64 = 20261115;
const COMMANDS: u64 = 200_000;

struct Tally {
    passed: u64,
    failed: u64,
}

impl Tally {
    fn tell(&mut self, what: &str, is_right: bool) {
        println!("{}: {}", if is_right { "ok" } else { "FAILED" }, what);
        if is_right {
            self.passed += 1;
        } else {
            self.failed += 1;
        }
    }
}

/// The answers that 01 and 02 fix: the model must give them, and so must the program.
fn check_points(program: &str, tally: &mut Tally) {
    for point in points::POINTS {
        let list = List { lines: points::lines(point.input), ends_in_newline: true };
        let expected: Vec<String> = point.output.split(" / ").map(str::to_string).collect();
        tally.tell(point.what, commands::answers(&list.lines) == expected && compare::agree(program, list));
    }
}

/// Lines of many lengths, as the last of an input, with its newline and without.
fn check_lengths(program: &str) -> bool {
    let lengths = [1, 2, 6, 254, 255, 256, 257, 511, 512, 513, 4095, 4096, 4097, 65_536, 200_000];
    let long = |length: usize| [b"cut ", &vec![b'0'; length.saturating_sub(4)][..]].concat()[..length].to_vec();
    let both = [true, false];
    let ends = |ends_in_newline: bool| {
        let list = |lines: Vec<Vec<u8>>| compare::agree(program, List { lines, ends_in_newline });
        list(vec![]) && lengths.iter().all(|n| list(vec![long(*n)]) && list(vec![b"open".to_vec(), long(*n), b"begin".to_vec()]))
    };
    both.iter().all(|newline| ends(*newline))
}

/// Cuts after each number of bytes where a file is written again, once and twice.
fn check_cuts(program: &str) -> bool {
    let is_right = |second: u64, third: u64| {
        let (lines, expected) = points::three_images(second, third);
        commands::answers(&lines) == expected && compare::agree(program, List { lines, ends_in_newline: true })
    };
    (0..=64).all(|n| is_right(n, 64) && is_right(64, n) && is_right(n, n))
}

fn check(program: &str, seed: u64, commands: u64) -> bool {
    let mut tally = Tally { passed: 0, failed: 0 };
    let mut counts = BTreeMap::new();
    let (mut done, mut conversations, mut alike) = (0, 0, true);
    println!("seed {}", seed);
    check_points(program, &mut tally);
    tally.tell("lines of 0 to 200,000 bytes", check_lengths(program));
    tally.tell("three images of a file under one action, the second and the third cut after every byte", check_cuts(program));
    tally.tell("a conversation of 30,000 lines", compare::agree(program, lists::list_of(seed, 30_000, false)));
    while alike && done < commands {
        let list = lists::list(seed.wrapping_add(conversations));
        done += list.lines.len() as u64;
        conversations += 1;
        met::count(&list, &mut counts);
        alike = compare::agree(program, list);
        if conversations % 1000 == 0 {
            eprintln!("{} conversations, {} of {} commands", conversations, done, commands);
        }
    }
    tally.tell(&format!("{} random commands in {} conversations", done, conversations), alike);
    if alike {
        let covered = met::is_covered(&counts, done);
        tally.tell("every answer and refusal came often", covered);
    } else {
        println!("seed {} begins with it", seed.wrapping_add(conversations - 1));
    }
    println!("{} passed, {} failed", tally.passed, tally.failed);
    tally.failed == 0
}

fn run() -> io::Result<()> {
    let (mut input, mut output) = (io::stdin().lock(), io::stdout().lock());
    let mut desk = Desk::default();
    let mut line = Vec::new();
    while input.read_until(b'\n', &mut line)? > 0 {
        if line.last() == Some(&b'\n') {
            line.pop();
        }
        writeln!(output, "{}", desk.answer(&line))?;
        line.clear();
    }
    Ok(())
}

fn main() {
    let words: Vec<String> = std::env::args().skip(1).collect();
    let number = |i: usize, default: u64| words.get(i).map_or(Some(default), |word| word.parse().ok());
    let is_right = match (words.first().map(String::as_str), words.get(1), number(2, SEED), number(3, COMMANDS)) {
        (Some("run"), None, ..) => run().is_ok(),
        (Some("check"), Some(program), Some(seed), Some(commands)) => check(program, seed, commands),
        _ => {
            eprintln!("usage: model run | model check PROGRAM [SEED [COMMANDS]]");
            std::process::exit(2);
        }
    };
    std::process::exit(i32::from(!is_right));
}
