// Scripts at the edges of the clock, of constraints and of holds.
use crate::edges::{case, Case};
use crate::sheets;

const FIRST: i64 = i32::MIN as i64;
const LAST: i64 = i32::MAX as i64;

const OPENINGS: [i64; 15] =
    [FIRST, FIRST + 1, -2048, -1025, -1024, -1, 0, 1, 1023, LAST - 1025, LAST - 1024, LAST - 1023, LAST - 2, LAST - 1, LAST];

// What is tried and the lines after the opening, parted by "; "; `@+5` is five ticks after the opening.
const SHORT: &[(&str, &str)] = &[
    ("ticks run into the end", "w 1; w 4; t 1; t 2; t 1030; t 1; t 2; w 2; b 1; t 1"),
    ("nobody runs into the end", "t 1; t 1030; t 1; t 9999"),
    ("calls after the end", "w 1; t 1030; w 2; w 16; b 2; b 16; e 0; c 0 1 @ @+5 1; c 0 1 2147483647 2147483647 1; t 1; w 3; t 9"),
    ("constraint over the end", "w 1; w 3; c 0 1 @ 2147483647 1; c 1 3 2147483646 2147483647 1; t 1030; e 0; e 1; t 1"),
    ("last deadline", "c 0 1 -2147483648 2147483647 1; c 1 1 2147483646 2147483647 1; c 2 1 2147483647 2147483647 1; t 3"),
    ("deadline past 32 bits", "c 0 1 2147483646 2147483647 1; c 1 1 2147483647 2147483648 1; t 1"),
    ("start before 32 bits", "c 0 1 -2147483648 @+9 1; c 1 1 -2147483649 @+9 1; t 1"),
    ("deadline 1024 past the clock", "w 1; c 0 1 @ @+1024 1; c 1 1 @+1000 @+1024 3; t 1023; t 1; e 0; e 1"),
    ("deadline 1025 past the clock", "w 1; c 0 1 @ @+1025 1; t 1; c 0 1 @+1 @+1025 1; c 1 1 @+1 @+1026 1; t 30; e 0"),
    ("start 1023 and 1024 past the clock", "w 1; c 0 1 @+1023 @+1024 1; c 1 1 @+1024 @+1024 1; c 2 1 @+1024 @+1025 1; t 1025; e 0"),
    ("start at the clock", "w 1; w 3; c 0 1 @ @+9 1; c 1 3 @ @+9 1; t 9; e 0; e 1"),
    ("start before the clock", "w 1; c 0 1 @-1 @+9 1; t 1; c 0 1 @ @+9 1; c 0 1 @+1 @+9 1; t 9; e 0"),
    ("start long before the clock", "c 0 1 @-1025 @+9 1; c 0 1 @-9999 @-9000 1; t 2"),
    ("deadline at the start", "w 1; c 0 1 @ @ 1; c 0 1 @+5 @+5 1; c 0 1 @+5 @+4 1; c 0 1 @+5 @-1 1; c 0 1 @ @+1 1; t 6; e 0"),
    ("seats 15 and 16", "w 1; c 15 1 @ @+40 1; c 16 1 @ @+40 1; c 65535 1 @ @+40 1; t 9; e 15; e 16; e 65535"),
    ("activities 15 and 16", "w 15; w 16; w 65535; c 0 15 @ @+40 2; c 1 16 @ @+40 1; c 2 65535 @ @+40 1; t 15; b 16; b 65535; b 15; t 3; e 0"),
    ("estimate 0", "w 1; c 0 1 @ @+40 0; e 0; c 0 1 @ @+40 1; t 20; e 0"),
    ("estimate far too large", "w 1; c 0 1 @ @+40 65535; c 0 1 @ @+1024 1025; c 0 1 @ @+1024 1024; t 4; e 0"),
    ("seat in use", "w 1; c 3 1 @ @+40 1; c 3 1 @ @+40 1; t 40; c 3 1 @+40 @+80 1; e 3; c 3 1 @+40 @+80 1; t 9; e 3"),
    ("end of an unused seat", "e 0; e 15; c 0 1 @ @+40 2; e 1; e 0; t 2"),
    ("end twice", "w 1; c 0 1 @ @+40 2; t 2; e 0; e 0; t 3; e 0"),
    ("first fault of many", "c 16 16 @-1 @-2 0; c 16 1 @-1 @-2 0; c 16 1 @-1 @-2 1; c 16 1 @ @ 1; c 16 1 @ @+5 65535; c 0 1 @ @+5 65535; c 0 1 @ @+5 1; c 0 1 @ @+5 65535"),
    ("nobody ready for the marks", "c 0 1 @ @+40 12; t 40; e 0; t 1"),
    ("another ready for the marks", "w 5; c 0 1 @ @+40 12; t 40; e 0; t 1"),
    ("blocked among its marks", "w 1; w 3; c 0 1 @ @+40 12; t 11; b 1; t 10; w 1; t 20; e 0"),
    ("marks given back", "w 1; w 2; c 0 1 @ @+40 19; c 1 2 @ @+40 9; e 0; c 1 2 @ @+40 9; t 41; e 1"),
    ("marks of two seats of one activity", "w 1; c 0 1 @ @+40 5; c 1 1 @ @+40 5; t 20; e 0; t 20; e 1"),
    ("wake and block twice", "w 1; w 1; t 3; b 1; b 1; t 3; w 1; t 1"),
];

fn clamped(time: i64) -> i64 {
    time.clamp(FIRST, LAST)
}

fn field_at(clock: i64, field: &str) -> String {
    match field.strip_prefix('@') {
        Some(past) => clamped(clock + past.parse::<i64>().unwrap_or(0)).to_string(),
        None => field.to_string(),
    }
}

// The script that some lines in short stand for.
pub fn opened(clock: i64, hold: u64, short: &str) -> String {
    let mut script = format!("o {clock} {hold}\n");
    for line in short.split("; ") {
        let fields: Vec<String> = line.split(' ').map(|f| field_at(clock, f)).collect();
        script.push_str(&fields.join(" "));
        script.push('\n');
    }
    script
}

pub fn edges() -> Vec<Case> {
    let mut cases = Vec::new();
    for (kind, sheet) in [("example", sheets::example()), ("free", sheets::free(1, 0))] {
        for (number, (what, short)) in SHORT.iter().enumerate() {
            for clock in OPENINGS {
                let hold = [0, 1, 2, 255][number % 4];
                cases.push(case(format!("{what} at {clock} {kind}"), &sheet, opened(clock, hold, short)));
            }
        }
    }
    // more than a cycle of the example, from each tick of the cycle left of zero
    for clock in -41..2 {
        let script = opened(clock, 0, "w 0; w 1; w 2; w 3; w 4; w 5; t 50");
        cases.push(case(format!("lead-in from {clock}"), &sheets::example(), script));
    }
    cases
}

// Estimates from too many down to none: the first that is taken is the greatest that can be.
pub fn downward(seat: u64, activity: u64, start: u64, deadline: u64) -> String {
    let window = deadline - start;
    let lines: Vec<String> =
        (0..=window + 1).rev().map(|e| format!("c {seat} {activity} @+{start} @+{deadline} {e}")).collect();
    lines.join("; ")
}

pub fn constraints() -> Vec<Case> {
    let sheet = sheets::example();
    let mut cases = Vec::new();
    for ticks in 0..=42 {
        let run = if ticks == 0 { String::new() } else { format!("t {ticks}; ") };
        let short = format!("w 1; w 5; c 0 1 @ @+40 12; {run}e 0; t 9");
        cases.push(case(format!("ended after {ticks}"), &sheet, opened(-20, 1, &short)));
    }
    for activity in 0..16 {
        for (clock, start, deadline) in [(-20, 0, 40), (-1, 3, 4), (0, 7, 52), (LAST - 50, 0, 50)] {
            let first = downward(0, activity, start, deadline);
            let second = downward(1, (activity + 1) % 16, start, deadline);
            let short = format!("w {activity}; {first}; {second}; t 60; e 0; e 1");
            cases.push(case(format!("as many as available for {activity} at {clock}"), &sheet, opened(clock, 0, &short)));
        }
    }
    cases.push(case("every seat".into(), &sheet, opened(-9, 0, &every_seat())));
    cases
}

// A constraint at each seat, then one too many, all ended in another order.
fn every_seat() -> String {
    let begun = (0..17).map(|s| format!("w {}; c {s} {} @ @+1024 {}", s % 16, s % 16, 1 + s % 5));
    let ended = (0..17).map(|s| format!("t 7; e {}; e {}", (5 * s) % 17, (5 * s + 1) % 17));
    begun.chain(ended).collect::<Vec<_>>().join("; ")
}

pub fn holds() -> Vec<Case> {
    let mut cases = Vec::new();
    let short = [
        ("three ready", "w 0; w 7; w 15; t 800".to_string()),
        ("all ready", format!("{}; t 50; t 4200", (0..16).map(|a| format!("w {a}")).collect::<Vec<_>>().join("; "))),
        ("alone, then joined", "w 9; t 300; w 2; t 600; w 0; t 9".to_string()),
        ("held one blocked and woken between calls", "w 3; w 7; t 1; b 3; w 3; t 9".to_string()),
        ("nobody ready in the middle", "w 3; t 1; b 3; t 2; w 3; w 1; t 9; b 1; b 3; t 1; w 1; t 9".to_string()),
    ];
    for (kind, sheet) in [("example", sheets::example()), ("free", sheets::free(64, 5))] {
        for hold in [0, 1, 2, 3, 254, 255] {
            for (what, short) in &short {
                cases.push(case(format!("{what} hold {hold} {kind}"), &sheet, opened(-3, hold, short)));
            }
            for ticks in [1, 2, 3, 4, 5, 254, 255, 256, 257, 258] {
                let short = format!("w 3; w 7; w 12; t {ticks}; b 3; t 4; w 3; b 7; t 8; w 7; t 300");
                cases.push(case(format!("blocked after {ticks} hold {hold} {kind}"), &sheet, opened(0, hold, &short)));
            }
        }
    }
    cases
}
