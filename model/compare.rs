//! The model beside the program: the same lines through both, line by line.

use crate::commands::{answers, lines_of, Desk};
use crate::lists::List;
use std::collections::BTreeMap;
use std::io::Write;
use std::process::{Command, Stdio};

/// What the program writes for a list, one answer a line; or what went wrong.
pub fn program_answers(program: &str, list: &List) -> Result<Vec<String>, String> {
    let mut input = list.lines.join(&b'\n');
    // without its newline an empty last line is no line
    let needs_newline = list.ends_in_newline || input.is_empty() || input.ends_with(b"\n");
    if needs_newline && !list.lines.is_empty() {
        input.push(b'\n');
    }
    let spawned = Command::new(program).stdin(Stdio::piped()).stdout(Stdio::piped()).spawn();
    let mut child = spawned.map_err(|error| format!("{} cannot be started: {}", program, error))?;
    let pipe = child.stdin.take();
    // written beside the reading, so that neither side waits for the other
    let writer = std::thread::spawn(move || pipe.map(|mut pipe| pipe.write_all(&input)));
    let output = child.wait_with_output().map_err(|error| error.to_string())?;
    drop(writer.join());
    if !output.status.success() {
        return Err(format!("{} ended with {}", program, output.status));
    }
    if !output.stdout.is_empty() && !output.stdout.ends_with(b"\n") {
        return Err(format!("{} ended in the middle of a line", program));
    }
    Ok(lines_of(&output.stdout).iter().map(|line| String::from_utf8_lossy(line).into_owned()).collect())
}

/// The first line that the two answer differently.
fn difference(program: &str, list: &List) -> Option<usize> {
    let expected = answers(&list.lines);
    match program_answers(program, list) {
        Ok(got) if got == expected => None,
        Ok(got) => Some((0..).find(|i| got.get(*i) != expected.get(*i)).unwrap_or(0)),
        Err(_) => Some(expected.len()),
    }
}

/// A line that names an action by its place, with the place that it has now.
fn renamed(line: &[u8], now: &BTreeMap<u64, u64>) -> Vec<u8> {
    let text = String::from_utf8_lossy(line);
    let mut words: Vec<String> = text.split(' ').map(str::to_string).collect();
    let at = match words[0].as_str() {
        "write" | "read" => 3,
        "test" | "commit" | "abort" => 1,
        _ => return line.to_vec(),
    };
    match words.get(at).and_then(|word| word.parse().ok()).and_then(|place: u64| now.get(&place)) {
        Some(place) => words[at] = place.to_string(),
        None => return line.to_vec(),
    }
    words.join(" ").into_bytes()
}

/// A list without its lines from one to another. Places that become lower for that are renamed in what follows.
fn without(list: &List, from: usize, upto: usize) -> List {
    let (mut before, mut after) = (Desk::default(), Desk::default());
    let (mut lines, mut now) = (Vec::new(), BTreeMap::new());
    for (i, line) in list.lines.iter().enumerate() {
        let used = before.sheet.used;
        before.answer(line);
        if (from..upto).contains(&i) {
            continue;
        }
        let line = renamed(line, &now);
        after.answer(&line);
        if before.sheet.used > used {
            now.insert(before.sheet.used, after.sheet.used);
        }
        lines.push(line);
    }
    List { lines, ends_in_newline: list.ends_in_newline }
}

/// A short list on which the two still differ: runs of lines are left out, first long ones and then short ones.
fn cut_down(program: &str, mut list: List, at: usize) -> List {
    list.lines.truncate(at + 1);
    let mut run = list.lines.len();
    while run > 0 {
        let (before, mut from) = (list.lines.len(), 0);
        while from < list.lines.len() {
            let shorter = without(&list, from, from + run);
            match difference(program, &shorter) {
                Some(at) if !shorter.lines.is_empty() => {
                    list = shorter;
                    list.lines.truncate(at + 1);
                }
                _ => from += run,
            }
        }
        if run > 1 || list.lines.len() == before {
            run /= 2; // single lines are tried again until none can go
        }
    }
    list
}

/// A line that can be printed; of one that is above a command's length, the beginning.
fn printable(line: &[u8]) -> String {
    match line.len() {
        n if n > 300 => format!("{}... ({} bytes)", line[..40].escape_ascii(), n),
        _ => line.escape_ascii().to_string(),
    }
}

fn show(program: &str, list: &List) {
    let expected = answers(&list.lines);
    let got = program_answers(program, list);
    println!("  {:<40} {:<24} program", "line", "model");
    for (i, line) in list.lines.iter().enumerate() {
        let mine = &expected[i];
        let its = got.as_ref().ok().and_then(|lines| lines.get(i)).map_or("(nothing)", String::as_str);
        let mark = if mine == its { " " } else { "*" };
        println!("{} {:<40} {:<24} {}", mark, printable(line), mine, its);
    }
    match got {
        Err(why) => println!("{}", why),
        Ok(got) => got.iter().skip(expected.len()).for_each(|line| println!("* {:<40} {:<24} {}", "", "(nothing)", line)),
    }
    println!("{} lines{}", list.lines.len(), if list.ends_in_newline { "" } else { ", the last without its newline" });
}

/// Whether the two agree; if not, a short list on which they do not is shown.
pub fn agree(program: &str, list: List) -> bool {
    match difference(program, &list) {
        None => true,
        Some(at) => {
            show(program, &cut_down(program, list, at));
            false
        }
    }
}
