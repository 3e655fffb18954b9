//! Conversations whose answers documents 01 and 02 fix: the listing, the points, and places that are easily read otherwise. Slashes
//! part lines, as in 01; `~` stands for a byte that a source line does not show.

pub struct Point {
    pub what: &'static str,
    pub input: &'static str,
    pub output: &'static str,
}

pub const POINTS: &[Point] = &[
    Point {
        what: "the listing of 01",
        input: "open / begin / write 3 10 1 AB / read 3 10 0 / read 3 9 0 / commit 1 / read 3 10 0 / begin / write 3 12 4 CD / \
                cut 20 / commit 4 / open / test 4 / read 3 11 0 / abort 4 / read 3 12 0",
        output: "open 0 0 / begin 1 / write 2 / no 9 1 / none / commit 3 / read 2 10 AB / begin 4 / write 5 / cut 20 / lost / \
                 open 6 1 / test 1 0 / read 2 10 AB / abort 7 / read 2 10 AB",
    },
    Point {
        what: "values of 32 and 33 bytes",
        input: "open / begin / write 1 1 1 12345678901234567890123456789012 / write 2 1 1 123456789012345678901234567890123",
        output: "open 0 0 / begin 1 / write 2 / no 4 0",
    },
    Point {
        what: "files 1 and 8 of 8, not 0 and 9",
        input: "open / begin / write 1 1 1 a / write 8 1 1 a / write 0 1 1 a / write 9 1 1 a / read 0 1 1 / read 9 1 1",
        output: "open 0 0 / begin 1 / write 2 / write 3 / no 3 0 / no 3 0 / no 3 0 / no 3 0",
    },
    Point {
        what: "a start at the current end, and above",
        input: "open / begin / write 1 10 1 a / commit 1 / begin / write 1 10 4 b / write 1 11 4 b",
        output: "open 0 0 / begin 1 / write 2 / commit 3 / begin 4 / no 10 0 / write 5",
    },
    Point {
        what: "an empty file read at the last time",
        input: "open / read 1 18446744073709551615 0 / begin / write 1 18446744073709551615 1 a / open / \
                write 1 18446744073709551615 1 a",
        output: "open 0 0 / none / begin 1 / no 10 0 / open 1 1 / write 2",
    },
    Point {
        what: "a second commit",
        input: "open / begin / commit 1 / commit 1 / abort 1 / test 1 / write 1 1 1 a / read 1 1 1 / begin",
        output: "open 0 0 / begin 1 / commit 2 / commit 2 / no 6 0 / test 2 2 / no 6 0 / no 6 0 / begin 3",
    },
    Point {
        what: "a second abort",
        input: "open / begin / test 1 / abort 1 / abort 1 / commit 1 / test 1 / test 0 / test 2 / commit 2 / abort 0",
        output: "open 0 0 / begin 1 / test 1 0 / abort 2 / abort 2 / no 6 0 / test 3 2 / no 5 0 / no 5 0 / no 5 0 / no 5 0",
    },
    Point {
        what: "a decision asked again counts no action twice",
        input: "open / begin / begin / commit 1 / commit 1 / commit 1 / open / commit 1 / open / commit 2 / commit 1 / open",
        output: "open 0 0 / begin 1 / begin 2 / commit 3 / commit 3 / commit 3 / open 3 1 / commit 3 / open 3 1 / commit 4 / \
                 commit 3 / open 4 0",
    },
    Point {
        what: "a decision asked again uses up no cut",
        input: "open / begin / commit 1 / cut 20 / commit 1 / abort 1 / test 1 / commit 1 / begin / commit 1 / open / commit 1",
        output: "open 0 0 / begin 1 / commit 2 / cut 20 / commit 2 / no 6 0 / test 2 2 / commit 2 / lost / closed / open 3 0 / \
                 commit 2",
    },
    Point {
        what: "a commit whose reply is lost with none, some or all of its bytes stored",
        input: "open / begin / begin / begin / cut 0 / commit 1 / open / commit 1 / commit 1 / cut 63 / commit 2 / open / \
                test 2 / commit 2 / commit 2 / cut 64 / commit 3 / open / test 3 / commit 3 / commit 3",
        output: "open 0 0 / begin 1 / begin 2 / begin 3 / cut 0 / lost / open 3 3 / commit 4 / commit 4 / cut 63 / lost / \
                 open 5 2 / test 1 0 / commit 6 / commit 6 / cut 64 / lost / open 7 0 / test 2 7 / commit 7 / commit 7",
    },
    Point {
        what: "what an action reads of its own token goes with it",
        input: "open / begin / write 2 10 1 a / read 2 50 1 / abort 1 / begin / write 2 10 4 b",
        output: "open 0 0 / begin 1 / write 2 / read 2 10 a / abort 3 / begin 4 / write 5",
    },
    Point {
        what: "what an action reads of its own token stays if it commits",
        input: "open / begin / write 2 10 1 a / read 2 50 1 / commit 1 / begin / write 2 50 4 b / write 2 51 4 b",
        output: "open 0 0 / begin 1 / write 2 / read 2 10 a / commit 3 / begin 4 / no 10 0 / write 5",
    },
    Point {
        what: "both files of a cut action, or none",
        input: "open / begin / write 1 5 1 till / write 2 5 1 float / cut 63 / commit 1 / open / read 1 4 0 / read 1 5 0 / \
                read 2 5 0 / cut 64 / commit 1 / open / read 1 5 0 / read 2 5 0",
        output: "open 0 0 / begin 1 / write 2 / write 3 / cut 63 / lost / open 4 1 / none / no 9 1 / no 9 1 / cut 64 / lost / \
                 open 5 0 / read 2 5 till / read 3 5 float",
    },
    Point {
        what: "a cut waits, is replaced, and is used up by an append alone",
        input: "cut 5 / cut 65 / cut 0 / open / read 1 1 0 / commit 9 / begin / begin / open / begin",
        output: "cut 5 / what / cut 0 / open 0 0 / none / no 5 0 / lost / closed / open 0 0 / begin 1",
    },
    Point {
        what: "fewer files than there are images of",
        input: "open 8 0 / begin / write 8 1 1 a / abort 1 / open 7 0 / begin / open 256 0 / open 257 0 / test 1 / open 0 0",
        output: "open 0 0 / begin 1 / write 2 / abort 3 / no 2 2 / closed / open 3 0 / no 1 0 / closed / no 1 0",
    },
    Point {
        what: "a bare open of a sheet without an image: floor 0",
        input: "open / begin / open / write 1 1 1 a",
        output: "open 0 0 / begin 1 / open 1 1 / write 2",
    },
    Point {
        what: "a bare open after a commit: no file is written at or below the highest start",
        input: "open / begin / write 1 10 1 a / commit 1 / open / begin / write 2 9 4 b / write 2 10 4 b / write 2 11 4 b",
        output: "open 0 0 / begin 1 / write 2 / commit 3 / open 3 0 / begin 4 / no 10 0 / no 10 0 / write 5",
    },
    Point {
        what: "a bare open counts aborted images",
        input: "open / begin / write 1 10 1 a / abort 1 / open / begin / write 1 10 4 b / write 1 11 4 b",
        output: "open 0 0 / begin 1 / write 2 / abort 3 / open 3 0 / begin 4 / no 10 0 / write 5",
    },
    Point {
        what: "a bare open counts undecided images",
        input: "open / begin / write 1 10 1 a / open / write 2 10 1 b / write 2 11 1 b",
        output: "open 0 0 / begin 1 / write 2 / open 2 1 / no 10 0 / write 3",
    },
    Point {
        what: "a bare open counts no torn image, and a whole one though its reply was lost",
        input: "open / begin / cut 63 / write 1 10 1 a / open / write 1 1 1 a / cut 64 / write 2 10 1 b / open / \
                write 3 10 1 c / write 3 11 1 c",
        output: "open 0 0 / begin 1 / cut 63 / lost / open 2 1 / write 3 / cut 64 / lost / open 4 1 / no 10 0 / write 5",
    },
    Point {
        what: "a bare open looks past the newest image",
        input: "open / begin / write 1 20 1 a / write 2 10 1 b / commit 1 / open / begin / write 3 20 5 c / write 3 21 5 c",
        output: "open 0 0 / begin 1 / write 2 / write 3 / commit 4 / open 4 0 / begin 5 / no 10 0 / write 6",
    },
    Point {
        what: "a bare open after a refused opening",
        input: "open / begin / write 1 10 1 a / open 257 0 / test 1 / open / write 2 10 1 b / write 2 11 1 b",
        output: "open 0 0 / begin 1 / write 2 / no 1 0 / closed / open 2 1 / no 10 0 / write 3",
    },
    Point {
        what: "a bare open uses up no cut",
        input: "open / begin / write 1 10 1 a / cut 20 / open / write 2 10 1 b / write 2 11 1 b / open / write 2 11 1 b",
        output: "open 0 0 / begin 1 / write 2 / cut 20 / open 2 1 / no 10 0 / lost / open 3 1 / write 4",
    },
    Point {
        what: "floor 0 is still to be had, and forgotten at the next bare open",
        input: "open / begin / write 1 10 1 a / open 8 0 / write 2 1 1 b / open / write 3 10 1 c / open 8 5 / write 3 5 1 c / \
                write 3 6 1 c",
        output: "open 0 0 / begin 1 / write 2 / open 2 1 / write 3 / open 3 1 / no 10 0 / open 3 1 / no 10 0 / write 4",
    },
    Point {
        what: "a start at the last time bars every write under a bare open",
        input: "open / begin / write 1 18446744073709551615 1 a / abort 1 / open / begin / write 2 18446744073709551615 4 b / \
                open 8 18446744073709551614 / write 2 18446744073709551615 4 b",
        output: "open 0 0 / begin 1 / write 2 / abort 3 / open 3 0 / begin 4 / no 10 0 / open 4 1 / write 5",
    },
    Point {
        what: "a bare open is for 8 files",
        input: "open 16 0 / begin / write 8 10 1 a / open / write 9 11 1 b / write 1 10 1 b / write 1 11 1 b",
        output: "open 0 0 / begin 1 / write 2 / open 2 1 / no 3 0 / no 10 0 / write 3",
    },
    Point {
        what: "a bare open of a sheet with an image of file 9",
        input: "open 16 0 / begin / write 9 10 1 a / write 8 5 1 b / abort 1 / open / begin / open 16 0 / begin / write 1 1 5 c",
        output: "open 0 0 / begin 1 / write 2 / write 3 / abort 4 / no 2 2 / closed / open 4 0 / begin 5 / write 6",
    },
    Point {
        what: "a time that was read and never written does not bar a bare open's writes",
        input: "open / read 1 60 0 / begin / cut 0 / begin / open / write 1 52 1 a / commit 1 / read 1 60 0",
        output: "open 0 0 / none / begin 1 / cut 0 / lost / open 1 1 / write 2 / commit 3 / read 2 52 a",
    },
    Point {
        what: "a file written again: the newest image is the token, and an own read before it still bars the next writer",
        input: "open / begin / write 1 10 1 a / read 1 40 1 / write 1 7 1 b / read 1 7 1 / commit 1 / read 1 7 0 / begin / \
                write 1 40 5 c / write 1 41 5 c",
        output: "open 0 0 / begin 1 / write 2 / read 2 10 a / write 3 / read 3 7 b / commit 4 / read 3 7 b / begin 5 / \
                 no 10 0 / write 6",
    },
    Point {
        what: "a file written again is barred by its current end alone, and linked past what it overtook",
        input: "open / begin / write 1 10 1 a / commit 1 / begin / write 1 20 4 b / write 1 20 4 c / write 1 30 4 d / \
                write 1 10 4 e / write 1 11 4 e / read 1 11 4 / read 1 10 4 / commit 4 / read 1 30 0 / read 1 10 0 / read 1 9 0",
        output: "open 0 0 / begin 1 / write 2 / commit 3 / begin 4 / write 5 / write 6 / write 7 / no 10 0 / write 8 / \
                 read 8 11 e / read 2 10 a / commit 9 / read 8 11 e / read 2 10 a / none",
    },
    Point {
        what: "a file written again is barred by the floor",
        input: "open / begin / write 1 10 1 a / open 8 20 / write 1 20 1 b / write 1 21 1 b / read 1 21 1",
        output: "open 0 0 / begin 1 / write 2 / open 2 1 / no 10 0 / write 3 / read 3 21 b",
    },
    Point {
        what: "another action's token, whatever the start",
        input: "open / begin / begin / write 1 10 1 a / write 1 10 2 b / write 1 0 2 b / write 1 11 1 c / write 1 12 2 b / \
                abort 1 / write 1 10 2 b / commit 2 / read 1 10 0",
        output: "open 0 0 / begin 1 / begin 2 / write 3 / no 8 1 / no 8 1 / write 4 / no 8 1 / abort 5 / write 6 / commit 7 / \
                 read 6 10 b",
    },
    Point {
        what: "outside, only the newest image is in the way",
        input: "open / begin / write 1 10 1 a / write 1 20 1 b / read 1 15 0 / read 1 20 0 / write 1 15 1 c / write 1 16 1 c / \
                read 1 16 0 / commit 1 / read 1 15 0 / read 1 20 0",
        output: "open 0 0 / begin 1 / write 2 / write 3 / none / no 9 1 / no 10 0 / write 4 / no 9 1 / commit 5 / none / \
                 read 4 16 c",
    },
    Point {
        what: "an own read before the token bars writing again",
        input: "open / begin / write 1 10 1 a / read 1 5 1 / write 1 5 1 b / write 1 6 1 b / read 1 9 1",
        output: "open 0 0 / begin 1 / write 2 / none / no 10 0 / write 3 / read 3 6 b",
    },
    Point {
        what: "an overtaken start bars the next writer until the opening",
        input: "open / begin / write 1 10 1 a / write 1 7 1 b / commit 1 / begin / write 1 10 5 c / open 8 0 / write 1 7 5 c / \
                write 1 8 5 c / commit 5 / read 1 7 0 / read 1 10 0",
        output: "open 0 0 / begin 1 / write 2 / write 3 / commit 4 / begin 5 / no 10 0 / open 5 1 / no 10 0 / write 6 / \
                 commit 7 / read 3 7 b / read 6 8 c",
    },
    Point {
        what: "written again after an opening: the start that the opening found counts, not those before it",
        input: "open / begin / write 1 30 1 a / write 1 10 1 b / open 8 0 / write 1 7 1 c / commit 1 / begin / write 1 10 6 d / \
                write 1 11 6 d",
        output: "open 0 0 / begin 1 / write 2 / write 3 / open 3 1 / write 4 / commit 5 / begin 6 / no 10 0 / write 7",
    },
    Point {
        what: "an abort takes every image of the action, and what was read of them",
        input: "open / begin / write 1 10 1 a / read 1 40 1 / write 1 7 1 b / abort 1 / begin / write 1 5 5 c / commit 5 / \
                read 1 100 0",
        output: "open 0 0 / begin 1 / write 2 / read 2 10 a / write 3 / abort 4 / begin 5 / write 6 / commit 7 / read 6 5 c",
    },
    Point {
        what: "a bare open counts overtaken images",
        input: "open / begin / write 1 10 1 a / write 1 7 1 b / commit 1 / open / begin / write 2 10 5 c / write 2 11 5 c",
        output: "open 0 0 / begin 1 / write 2 / write 3 / commit 4 / open 4 0 / begin 5 / no 10 0 / write 6",
    },
    Point {
        what: "two files, one of them written again",
        input: "open / begin / write 1 10 1 a / write 2 10 1 b / write 1 12 1 c / commit 1 / open 8 0 / read 1 11 0 / \
                read 1 12 0 / read 2 12 0",
        output: "open 0 0 / begin 1 / write 2 / write 3 / write 4 / commit 5 / open 5 0 / none / read 4 12 c / read 3 10 b",
    },
    Point {
        what: "grammar before state",
        input: "begin x / begin / open 8 / open  8 0 /  open / open  / OPEN / open 8 -0 / open 8 +0 / / read 1 1 / \
                test 18446744073709551616 / test 18446744073709551615 / open 0008 00 / test 4294967297 / write 1 1 1 / \
                write 1 1 1 a b / write 1 1 1 ~ / cut 064",
        output: "what / closed / what / what / what / what / what / what / what / what / what / what / closed / open 0 0 / \
                 no 5 0 / what / what / what / cut 64",
    },
];

/// Three images of file 1 under one action, the second and the third cut after so many bytes, and what must be answered: the newest one
/// that is stored whole is the token, and the version in the end.
pub fn three_images(second: u64, third: u64) -> (Vec<Vec<u8>>, Vec<String>) {
    let mut talk = vec![("open".to_string(), "open 0 0".to_string()), ("begin".to_string(), "begin 1".to_string())];
    talk.push(("write 1 10 1 a".to_string(), "write 2".to_string()));
    let (mut used, mut newest) = (2, "read 2 10 a".to_string());
    for (bytes, start, text) in [(second, 7, 'b'), (third, 12, 'c')] {
        used += u64::from(bytes > 0);
        if bytes == 64 {
            newest = format!("read {} {} {}", used, start, text);
        }
        talk.push((format!("cut {}", bytes), format!("cut {}", bytes)));
        talk.push((format!("write 1 {} 1 {}", start, text), "lost".to_string()));
        talk.push(("open 8 0".to_string(), format!("open {} 1", used)));
        talk.push(("read 1 20 1".to_string(), newest.clone()));
    }
    talk.push(("commit 1".to_string(), format!("commit {}", used + 1)));
    talk.push(("open 8 0".to_string(), format!("open {} 0", used + 1)));
    talk.push(("read 1 20 0".to_string(), newest));
    talk.push(("read 1 6 0".to_string(), "none".to_string()));
    talk.into_iter().map(|(line, answer)| (line.into_bytes(), answer)).unzip()
}

/// A text of points as lines; `~` becomes the byte 7F hex, which no text may have.
pub fn lines(text: &str) -> Vec<Vec<u8>> {
    let byte = |b: u8| if b == b'~' { 0x7F } else { b };
    text.split(" /").map(|line| line.strip_prefix(' ').unwrap_or(line).bytes().map(byte).collect()).collect()
}
