// Sheets for the scripts that are chosen by hand: of one, two and three blocks, and refused ones.
use crate::clocks::{downward, opened};
use crate::edges::{case, Case};
use crate::{examine, mend, written, Entry, Reservation};
use std::io::{Error, Result};

// Activity, depth, path, offset and length of each entry; activity, ticks and period of each reservation.
fn sheet(base: u64, depth: u64, entries: &[[u64; 5]], reserved: &[[u64; 3]]) -> Vec<u8> {
    let entries: Vec<Entry> = entries
        .iter()
        .map(|e| Entry { activity: e[0], depth: e[1], path: e[2], offset: e[3], length: e[4] })
        .collect();
    let list: Vec<Reservation> =
        reserved.iter().map(|r| Reservation { activity: r[0], ticks: r[1], period: r[2] }).collect();
    let mut bytes = written(base, depth, &entries, &list);
    mend(&mut bytes);
    bytes
}

const EXAMPLE: [[u64; 5]; 6] =
    [[1, 0, 0, 0, 3], [4, 0, 0, 3, 1], [0, 1, 0, 4, 4], [3, 1, 1, 4, 1], [2, 2, 1, 5, 2], [5, 2, 3, 5, 5]];
const GRANTED: [[u64; 3]; 3] = [[0, 4, 20], [1, 3, 10], [5, 5, 40]];

// The plan of examples/example.plan.
pub fn example() -> Vec<u8> {
    sheet(10, 2, &EXAMPLE, &GRANTED)
}

// A plan in which every tick is free.
pub fn free(base: u64, depth: u64) -> Vec<u8> {
    sheet(base, depth, &[], &[])
}

// So many entries of one tick, one after the other through the frames of the cycle.
fn single_ticks(base: u64, depth: u64, count: u64) -> Vec<[u64; 5]> {
    (0..count).map(|i| [i * 7 % 16, depth, i / base, i % base, 1]).collect()
}

// Entries of every depth, so many at most, which share each frame between them.
fn all_depths(count: u64) -> Vec<[u64; 5]> {
    let places = (0..6u64).flat_map(|depth| (0..1 << depth).map(move |path| (depth, path)));
    let twice = places.flat_map(|(depth, path)| [(depth, path, 9 * depth), (depth, path, 9 * depth + 5)]);
    twice.take(count as usize).map(|(d, p, o)| [(d + 3 * p) % 16, d, p, o, 3]).collect()
}

fn accepted() -> Vec<(&'static str, Vec<u8>)> {
    let each: Vec<[u64; 3]> = (0..16).map(|a| [a, 1, 16]).collect();
    vec![
        ("one block base 1 depth 0", free(1, 0)),
        ("one block base 1 depth 5", free(1, 5)),
        ("one block base 64 depth 0", free(64, 0)),
        ("one block base 64 depth 5", free(64, 5)),
        ("two blocks base 1 depth 0", sheet(1, 0, &[[15, 0, 0, 0, 1]], &[[15, 4096, 4096]])),
        ("two blocks base 1 depth 5", sheet(1, 5, &single_ticks(1, 5, 32), &[])),
        ("two blocks base 64 depth 0", sheet(64, 0, &single_ticks(64, 0, 60), &[])),
        ("two blocks base 64 depth 5", sheet(64, 5, &all_depths(60), &[[0, 3, 64]])),
        ("two blocks, sixteen reservations", sheet(16, 0, &single_ticks(16, 0, 16), &each)),
        ("two blocks, the example", example()),
        ("three blocks base 64 depth 0", sheet(64, 0, &single_ticks(64, 0, 61), &[])),
        ("three blocks base 64 depth 0, no free tick", sheet(64, 0, &single_ticks(64, 0, 64), &[])),
        ("three blocks base 4 depth 5", sheet(4, 5, &single_ticks(4, 5, 120), &[])),
        ("three blocks base 64 depth 5, 61 entries", sheet(64, 5, &all_depths(61), &[])),
        ("three blocks base 64 depth 5, 120 entries", sheet(64, 5, &all_depths(120), &[])),
    ]
}

fn of_size(size: usize) -> Vec<u8> {
    let mut bytes = example();
    bytes.resize(size, 0);
    bytes
}

// The example with one byte changed and its sums mended, or not.
fn turned(at: usize, value: u8, mended: bool) -> Vec<u8> {
    let mut bytes = example();
    bytes[at] = value;
    if mended {
        mend(&mut bytes);
    }
    bytes
}

fn refused() -> Vec<(&'static str, Vec<u8>)> {
    vec![
        ("no byte", of_size(0)),
        ("one byte", of_size(1)),
        ("a byte too few", of_size(1023)),
        ("a byte too many", of_size(1025)),
        ("a block too few", of_size(512)),
        ("a byte over three blocks", of_size(1537)),
        ("four blocks", of_size(2048)),
        ("70,000 bytes", of_size(70_000)),
        ("bytes 0 alone", vec![0; 1024]),
        ("wrong sum of block 0", turned(508, 1, false)),
        ("wrong sum of block 1", turned(600, 1, false)),
        ("wrong kind of the heading", turned(0, 2, true)),
        ("seven entries told", turned(6, 7, true)),
        ("wrong number of an entry block", turned(513, 2, true)),
        ("base 0", turned(2, 0, true)),
        ("base 65", turned(2, 65, true)),
        ("depth 6", turned(4, 6, true)),
        ("activity 16", turned(520, 16, true)),
        ("entries that clash", turned(532, 2, true)),
        ("reservation of 0 ticks", turned(10, 0, true)),
        ("reservation twice", turned(14, 0, true)),
        ("reservation not served", turned(10, 5, true)),
    ]
}

// Some of everything, over more than a cycle of any plan.
fn tour(clock: i64) -> String {
    let first = downward(0, 0, 30, 80);
    let second = downward(15, 15, 20, 120);
    let lines = format!("t 3; w 0; w 3; w 8; w 15; t 17; {first}; {second}; t 70; b 3; e 0; t 60; e 15; w 1; t 2200");
    opened(clock, 1, &lines)
}

fn bad_scripts() -> Vec<(&'static str, String)> {
    vec![
        ("empty script", String::new()),
        ("no opening", "t 1\n".to_string()),
        ("malformed later", "o 0 0\nw 1\nt 2\nt 0\nt 1\n".to_string()),
        ("no byte 10", "o 0 0\nt 2".to_string()),
        ("script too long", format!("o 0 0\n{}", "w 1\n".repeat(5000))),
    ]
}

// Good and bad scripts on every sheet, once the sheet is found to be what its table says.
pub fn cases() -> Result<Vec<Case>> {
    let mut cases = Vec::new();
    for (list, good) in [(accepted(), true), (refused(), false)] {
        for (what, sheet) in list {
            if examine(&sheet).is_ok() != good {
                return Err(Error::other(format!("the table is wrong about the sheet: {what}")));
            }
            for clock in [i32::MIN.into(), -2049, -1, 0, i64::from(i32::MAX) - 150] {
                cases.push(case(format!("{what}, tour at {clock}"), &sheet, tour(clock)));
            }
            for (fault, script) in bad_scripts() {
                cases.push(case(format!("{what}, {fault}"), &sheet, script));
            }
        }
    }
    Ok(cases)
}
