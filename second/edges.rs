// Scripts chosen by hand, one for each edge of docs/REHEARSAL.md: what is malformed, how numbers are written,
// how long a script may be, and one good script damaged at every byte.
use crate::rehearsal::rehearse;
use crate::{clocks, sheets, Seeded};
use std::fs;
use std::io::{Error, Result};
use std::path::Path;

// A script, the sheet it is played on, and what is tried with it.
pub struct Case {
    pub name: String,
    pub sheet: Vec<u8>,
    pub script: Vec<u8>,
}

pub fn case(name: String, sheet: &[u8], script: impl Into<Vec<u8>>) -> Case {
    Case { name, sheet: sheet.to_vec(), script: script.into() }
}

// Where a line is malformed.
#[derive(Clone, Copy, PartialEq)]
enum At {
    Any,
    First,
    Later,
}
use self::At::{Any, First, Later};

// What is wrong, the line without its byte 10, and where it is wrong.
const WRONG_LINES: &[(&str, &[u8], At)] = &[
    ("unknown letter", b"x 1", Any),
    ("unknown letter alone", b"x", Any),
    ("letter of a row", b"r 1", Any),
    ("a row for a line", b"? 1", Any),
    ("digit for a letter", b"1 1", Any),
    ("no opening but w", b"w 1", First),
    ("no opening but b", b"b 1", First),
    ("no opening but t", b"t 1", First),
    ("no opening but c", b"c 0 1 0 9 1", First),
    ("no opening but e", b"e 0", First),
    ("opening again", b"o 0 0", Later),
    ("opening again elsewhere", b"o -7 255", Later),
    ("upper-case O", b"O 0 0", Any),
    ("upper-case W", b"W 1", Any),
    ("upper-case B", b"B 1", Any),
    ("upper-case T", b"T 1", Any),
    ("upper-case C", b"C 0 1 0 9 1", Any),
    ("upper-case E", b"E 0", Any),
    ("letter twice", b"ww 1", Any),
    ("opening letter twice", b"oo 0 0", Any),
    ("a word", b"wake 1", Any),
    ("no space after o", b"o0 0", Any),
    ("no space after w", b"w1", Any),
    ("no space after b", b"b1", Any),
    ("no space after t", b"t1", Any),
    ("no space after c", b"c0 1 0 9 1", Any),
    ("no space after e", b"e0", Any),
    ("o alone", b"o", Any),
    ("w alone", b"w", Any),
    ("b alone", b"b", Any),
    ("t alone", b"t", Any),
    ("c alone", b"c", Any),
    ("e alone", b"e", Any),
    ("o and a space", b"o ", Any),
    ("w and a space", b"w ", Any),
    ("t and a space", b"t ", Any),
    ("c and a space", b"c ", Any),
    ("e and a space", b"e ", Any),
    ("empty line", b"", Any),
    ("space alone", b" ", Any),
    ("one field missing of o", b"o 0", Any),
    ("one field missing of c", b"c 0 1 0 9", Any),
    ("two fields missing of c", b"c 0 1 0", Any),
    ("four fields missing of c", b"c 0", Any),
    ("field missing, its space there", b"o 0 ", Any),
    ("extra field of o", b"o 0 0 0", Any),
    ("extra field of w", b"w 1 1", Any),
    ("extra field of b", b"b 1 1", Any),
    ("extra field of t", b"t 1 1", Any),
    ("extra field of c", b"c 0 1 0 9 1 1", Any),
    ("extra field of e", b"e 0 0", Any),
    ("two spaces after the letter", b"w  1", Any),
    ("two spaces in an opening", b"o 0  0", Any),
    ("two spaces in a constraint", b"c 0 1 0  9 1", Any),
    ("leading space", b" w 1", Any),
    ("leading space before an opening", b" o 0 0", Any),
    ("trailing space of o", b"o 0 0 ", Any),
    ("trailing space of w", b"w 1 ", Any),
    ("trailing space of t", b"t 1 ", Any),
    ("trailing space of c", b"c 0 1 0 9 1 ", Any),
    ("trailing space of e", b"e 0 ", Any),
    ("tab for a space", b"w\t1", Any),
    ("tab for a space of o", b"o 0\t0", Any),
    ("leading tab", b"\tw 1", Any),
    ("trailing tab", b"t 1\t", Any),
    ("byte 11 for a space", b"w\x0b1", Any),
    ("byte 12 for a space", b"w\x0c1", Any),
    ("carriage return after o", b"o 0 0\r", Any),
    ("carriage return after w", b"w 1\r", Any),
    ("carriage return after t", b"t 1\r", Any),
    ("carriage return alone", b"\r", Any),
    ("plus sign in CLOCK", b"o +1 0", Any),
    ("plus sign in R", b"o 0 +1", Any),
    ("plus sign in A", b"w +1", Any),
    ("plus sign in N", b"t +1", Any),
    ("plus sign in DEADLINE", b"c 0 1 0 +9 1", Any),
    ("leading zero in CLOCK", b"o 01 0", Any),
    ("leading zero in a negative CLOCK", b"o -01 0", Any),
    ("leading zero in R", b"o 0 00", Any),
    ("leading zero in A", b"w 01", Any),
    ("zero twice", b"w 00", Any),
    ("leading zero in N", b"t 01", Any),
    ("leading zero in START", b"c 0 1 00 9 1", Any),
    ("leading zero in E", b"c 0 1 0 9 01", Any),
    ("minus zero in CLOCK", b"o -0 0", Any),
    ("minus zero in R", b"o 0 -0", Any),
    ("minus zero in A", b"w -0", Any),
    ("minus zero in START", b"c 0 1 -0 9 1", Any),
    ("minus zero in DEADLINE", b"c 0 1 0 -0 1", Any),
    ("negative R", b"o 0 -1", Any),
    ("negative A of w", b"w -1", Any),
    ("negative A of b", b"b -1", Any),
    ("negative N", b"t -1", Any),
    ("negative SEAT of c", b"c -1 1 0 9 1", Any),
    ("negative A of c", b"c 0 -1 0 9 1", Any),
    ("negative E", b"c 0 1 0 9 -1", Any),
    ("negative SEAT of e", b"e -1", Any),
    ("lone minus in CLOCK", b"o - 0", Any),
    ("lone minus in A", b"w -", Any),
    ("lone minus in START", b"c 0 1 - 9 1", Any),
    ("two minuses", b"o --1 0", Any),
    ("minus behind", b"o 1- 0", Any),
    ("CLOCK too large", b"o 2147483648 0", Any),
    ("CLOCK too small", b"o -2147483649 0", Any),
    ("R too large", b"o 0 256", Any),
    ("A of w too large", b"w 65536", Any),
    ("A of b too large", b"b 65536", Any),
    ("N zero", b"t 0", Any),
    ("N too large", b"t 10000", Any),
    ("SEAT of c too large", b"c 65536 1 0 9 1", Any),
    ("A of c too large", b"c 0 65536 0 9 1", Any),
    ("START too large", b"c 0 1 2147483648 9 1", Any),
    ("START too small", b"c 0 1 -2147483649 9 1", Any),
    ("DEADLINE too large", b"c 0 1 0 2147483648 1", Any),
    ("DEADLINE too small", b"c 0 1 0 -2147483649 1", Any),
    ("E too large", b"c 0 1 0 9 65536", Any),
    ("SEAT of e too large", b"e 65536", Any),
    ("ten digits in A", b"w 1000000001", Any),
    ("eleven digits in CLOCK", b"o 10000000000 0", Any),
    ("2 to the 32 in A", b"w 4294967296", Any),
    ("2 to the 32 and 1 in N", b"t 4294967297", Any),
    ("2 to the 32 in CLOCK", b"o 4294967296 0", Any),
    ("minus 2 to the 32 in CLOCK", b"o -4294967296 0", Any),
    ("2 to the 64 in CLOCK", b"o 18446744073709551616 0", Any),
    ("2 to the 64 and 1 in N", b"t 18446744073709551617", Any),
    ("2 to the 64 and 1 in SEAT", b"e 18446744073709551617", Any),
    ("forty digits in A", b"w 1000000000000000000000000000000000000001", Any),
    ("forty zeros in R", b"o 0 0000000000000000000000000000000000000000", Any),
    ("the byte before the digits", b"w /", Any),
    ("the byte after the digits", b"w :", Any),
    ("letters for digits", b"w one", Any),
    ("sixteen-part digits", b"w 0x1", Any),
    ("a power", b"t 1e1", Any),
    ("a fraction", b"t 1.0", Any),
    ("a comma for a space", b"o 0,0", Any),
    ("a remark", b"# w 1", Any),
    ("a remark behind", b"w 1 # wake", Any),
    ("two commands on a line", b"w 1 t 1", Any),
    ("byte above 127 for a letter", b"\xf7 1", Any),
    ("byte above 127 for a space", b"o 0\xa00", Any),
    ("byte above 127 for a digit", b"w \xb1", Any),
    ("byte above 127 behind", b"w 1\xff", Any),
    ("byte above 127 alone", b"\x80", Any),
    ("a wide digit", "w \u{ff11}".as_bytes(), Any),
    ("byte 0 before", b"\0w 1", Any),
    ("byte 0 for a space", b"w\x001", Any),
    ("byte 0 behind", b"o 0 0\0", Any),
    ("byte 0 alone", b"\0", Any),
];

// What is wrong, the whole script, and the line that is malformed.
const WRONG_SCRIPTS: &[(&str, &[u8], usize)] = &[
    ("empty script", b"", 1),
    ("byte 10 alone", b"\n", 1),
    ("first line cut after its letter", b"o", 1),
    ("first line without byte 10", b"o 0 0", 1),
    ("second line without byte 10", b"o 0 0\nt 1", 2),
    ("fourth line without byte 10", b"o 0 0\nw 1\nt 2\nt 1", 4),
    ("a letter after the last line", b"o 0 0\nt 1\nx", 3),
    ("a space after the last line", b"o 0 0\nt 1\n ", 3),
    ("byte 0 after the last line", b"o 0 0\nt 1\n\0", 3),
    ("byte 10 after the last line", b"o 0 0\nt 1\n\n", 3),
    ("empty line before the opening", b"\no 0 0\nt 1\n", 1),
    ("empty line after the opening", b"o 0 0\n\nt 1\n", 2),
    ("carriage returns before every byte 10", b"o 0 0\r\nw 1\r\nt 1\r\n", 1),
    ("carriage returns for byte 10", b"o 0 0\rw 1\rt 1\r", 1),
    ("byte-order mark", b"\xef\xbb\xbfo 0 0\nt 1\n", 1),
    ("opening twice", b"o 0 0\no 0 0\nt 1\n", 2),
    ("opening after ticks", b"o 0 0\nw 1\nt 2\no 9 0\nt 1\n", 4),
    ("opening cut in two", b"o 0\n0\nt 1\n", 1),
    ("line cut in two", b"o 0 0\nt\n1\n", 2),
    ("number cut in two", b"o 0 0\nt 1\n2\n", 3),
    ("opening joined with the next line", b"o 0 0 w 1\nt 1\n", 1),
    ("two malformed lines", b"o 0 0\nt 1\nx\nt 1\nx\n", 3),
    ("malformed line after refusals", b"o 0 0\nw 16\ne 3\nt 0\nt 1\n", 4),
];

// Scripts of which every line is well written, though the level may refuse it.
const RIGHT_SCRIPTS: &[(&str, &[u8])] = &[
    ("opening alone", b"o 0 0\n"),
    ("least opening", b"o -2147483648 0\nt 1\n"),
    ("greatest opening", b"o 2147483647 255\nt 1\n"),
    ("greatest A", b"o 0 0\nw 65535\nb 65535\nt 1\n"),
    ("least and greatest N", b"o 0 0\nt 1\nt 9999\n"),
    ("greatest fields of c", b"o 0 0\nc 65535 65535 2147483647 2147483647 65535\n"),
    ("least fields of c", b"o 0 0\nc 0 0 -2147483648 -2147483648 0\n"),
    ("least and greatest SEAT of e", b"o 0 0\ne 0\ne 65535\n"),
];

const GOOD_LINES: &[u8] = b"o -2 1\nw 1\nw 5\nt 4\nc 0 1 2 20 3\nt 2\ne 9\n";
const GOOD_COUNT: usize = 7;

// A line that is wrong there, at each place, with good lines after it that must not be played.
fn placed(line: &[u8], at: At) -> Vec<(&'static str, Vec<u8>, usize)> {
    let mut scripts = Vec::new();
    if at != Later {
        scripts.push(("at line 1", [line, b"\nw 1\nt 3\n"].concat(), 1));
        scripts.push(("before an opening", [line, b"\no 0 0\nw 1\nt 3\n"].concat(), 1));
    }
    if at != First {
        let last = GOOD_COUNT + 1;
        scripts.push(("at line 2", [b"o 0 0\n", line, b"\nw 1\nt 3\n"].concat(), 2));
        scripts.push(("after good lines", [GOOD_LINES, line, b"\nw 2\nt 3\ne 0\n"].concat(), last));
        scripts.push(("at the end", [GOOD_LINES, line, b"\n"].concat(), last));
        // nothing after a byte 10 is no line
        if !line.is_empty() {
            scripts.push(("at the end without byte 10", [GOOD_LINES, line].concat(), last));
        }
    }
    scripts
}

// The second player's last row must be the one the tables foretell.
fn foretold(case: Case, line: Option<usize>) -> Result<Case> {
    let rows = rehearse(&case.sheet, &case.script);
    let right = match line {
        Some(line) => rows.ends_with(&format!("? {line}\n")),
        None => !rows.contains('?'),
    };
    if right { Ok(case) } else { Err(Error::other(format!("the table is wrong about: {}", case.name))) }
}

fn malformed() -> Result<Vec<Case>> {
    let sheet = sheets::example();
    let mut cases = Vec::new();
    for (what, line, at) in WRONG_LINES {
        for (place, script, number) in placed(line, *at) {
            cases.push(foretold(case(format!("{what} {place}"), &sheet, script), Some(number))?);
        }
    }
    for (what, script, line) in WRONG_SCRIPTS {
        cases.push(foretold(case(what.to_string(), &sheet, *script), Some(*line))?);
    }
    for (what, script) in RIGHT_SCRIPTS {
        cases.push(foretold(case(what.to_string(), &sheet, *script), None)?);
    }
    Ok(cases)
}

// Every line with one field left open.
const FIELDS: [&str; 11] = [
    "o # 0",
    "o 0 #",
    "w #",
    "b #",
    "t #",
    "c # 1 2 90 1",
    "c 1 # 2 90 1",
    "c 1 1 # 90 1",
    "c 1 1 2 # 1",
    "c 1 1 2 90 #",
    "e #",
];

// Numbers, good ones and bad ones; which they are depends on the field.
const NUMBERS: [&str; 62] = [
    "", "0", "1", "2", "9", "15", "16", "17", "255", "256", "257", "1024", "1025", "1026", "1027", "9999", "10000", "10001",
    "32767", "32768", "65535", "65536", "65537", "99999", "2147483646", "2147483647", "2147483648", "4294967295", "4294967296",
    "4294967297", "9999999999", "10000000000", "99999999999", "9223372036854775807", "9223372036854775808",
    "18446744073709551615", "18446744073709551616", "18446744073709551617", "99999999999999999999",
    "340282366920938463463374607431768211457", "1111111111111111111111111111111111111111", "-1", "-2", "-15", "-65535",
    "-2147483647", "-2147483648", "-2147483649", "-4294967295", "-4294967296", "-9223372036854775808", "-18446744073709551615",
    "-0", "-00", "-01", "00", "01", "015", "+1", "-", "--1", "1-1",
];

fn numbers() -> Vec<Case> {
    let sheet = sheets::example();
    let mut cases = Vec::new();
    for field in FIELDS {
        for number in NUMBERS {
            let line = field.replace('#', number);
            let before = if field.starts_with('o') { "" } else { "o 0 2\nw 1\nw 4\nt 2\nc 1 4 2 30 2\n" };
            cases.push(case(line.clone(), &sheet, format!("{before}{line}\nw 3\nt 3\n")));
        }
    }
    cases
}

const LONGEST: usize = 16384;

// Good lines between `head` and `tail`, so that the script has so many bytes.
fn filled(head: &str, tail: &str, size: usize) -> String {
    let wanted = size - head.len() - tail.len();
    let fives = wanted % 4;
    let fours = (wanted - 5 * fives) / 4;
    format!("{head}{}{}{tail}", "w 10\n".repeat(fives), "w 3\n".repeat(fours))
}

fn long() -> Vec<Case> {
    let sheet = sheets::example();
    let head = "o -5 1\nw 5\nt 4\n";
    let constraints = format!("{head}{}", "c 1 3 0 90 2\ne 1\n".repeat(700));
    let scripts = vec![
        ("one byte under the longest", filled(head, "t 9\n", LONGEST - 1).into_bytes()),
        ("the longest", filled(head, "t 9\n", LONGEST).into_bytes()),
        ("the longest of constraints", filled(&constraints, "t 9\n", LONGEST).into_bytes()),
        ("the longest with a malformed last line", filled(head, "t 9\nt 0\n", LONGEST).into_bytes()),
        ("the longest without its last byte 10", filled(head, "t 9\nt 7", LONGEST).into_bytes()),
        ("the longest with a malformed second line", filled("o 0 0\nx\n", "t 9\n", LONGEST).into_bytes()),
        ("one byte over", filled(head, "t 9\n", LONGEST + 1).into_bytes()),
        ("one byte 10 over", filled(head, "t 9\n\n", LONGEST + 1).into_bytes()),
        ("one byte over without byte 10", filled(head, "t 9\nt 7", LONGEST + 1).into_bytes()),
        ("one byte over with a malformed last line", filled(head, "t 9\nt 0\n", LONGEST + 1).into_bytes()),
        ("twice the longest", filled(head, "t 9\n", 2 * LONGEST).into_bytes()),
        ("a million bytes", filled(head, "t 9\n", 1_000_000).into_bytes()),
        ("bytes 10 alone", vec![b'\n'; LONGEST]),
        ("bytes 0 alone", vec![0; LONGEST]),
        ("spaces alone", vec![b' '; LONGEST]),
        ("one long number", format!("o 0 0\nt {}\n", "1".repeat(LONGEST - 9)).into_bytes()),
        ("one long opening", format!("o 0{}\n", " 0".repeat(8190)).into_bytes()),
        ("300,000 ticks", format!("o -9 2\nw 1\nw 4\nw 7\nw 15\n{}", "t 9999\n".repeat(30)).into_bytes()),
    ];
    scripts.into_iter().map(|(what, script)| case(what.to_string(), &sheet, script)).collect()
}

// A good script that uses every command.
const WHOLE: &[u8] = b"o -3 1\nw 1\nw 5\nt 4\nc 0 1 2 20 3\nc 15 5 1 900 12\nt 7\ne 0\nb 5\nt 6\nw 0\nc 2 0 14 60 9\nt 40\ne 15\ne 2\nb 16\nt 3\n";

const SCRIPT_BYTES: &[u8] = b"0123456789 -\nowbtce";

fn likely_byte(rng: &mut Seeded) -> u8 {
    SCRIPT_BYTES[rng.below(SCRIPT_BYTES.len() as u64) as usize]
}

// Every byte of the script left out, every end cut off, and at every place bytes replaced and put in.
fn damaged(rng: &mut Seeded) -> Vec<Case> {
    let sheet = sheets::example();
    let mut cases = vec![case("nothing damaged".into(), &sheet, WHOLE)];
    for at in 0..WHOLE.len() {
        let (before, after) = (&WHOLE[..at], &WHOLE[at + 1..]);
        let here = &WHOLE[at..=at];
        cases.push(case(format!("byte {at} left out"), &sheet, [before, after].concat()));
        cases.push(case(format!("cut off at byte {at}"), &sheet, before));
        for byte in [likely_byte(rng), likely_byte(rng), rng.below(256) as u8] {
            cases.push(case(format!("byte {at} now {byte}"), &sheet, [before, &[byte], after].concat()));
        }
        for byte in [likely_byte(rng), rng.below(256) as u8] {
            cases.push(case(format!("before byte {at} a {byte}"), &sheet, [before, &[byte], here, after].concat()));
        }
    }
    cases
}

// A name that can stand in a path.
fn plain(name: &str) -> String {
    name.chars().map(|c| if c.is_ascii_alphanumeric() { c } else { '-' }).take(60).collect()
}

// Writes every batch of scripts, each script in a folder with its sheet.
pub fn write(rng: &mut Seeded, folder: &str) -> Result<()> {
    let batches = [
        ("malformed", malformed()?),
        ("number", numbers()),
        ("clock", clocks::edges()),
        ("constraint", clocks::constraints()),
        ("hold", clocks::holds()),
        ("long", long()),
        ("damaged", damaged(rng)),
        ("sheet", sheets::cases()?),
    ];
    for (batch, cases) in batches {
        for (number, case) in cases.iter().enumerate() {
            let place = Path::new(folder).join(batch).join(format!("{number:05}-{}", plain(&case.name)));
            fs::create_dir_all(&place)?;
            fs::write(place.join("plan.bin"), &case.sheet)?;
            fs::write(place.join("script"), &case.script)?;
        }
    }
    Ok(())
}
