// Counts the kinds of rows, so that a comparison in which one never came up does not pass for a whole one.

const KINDS: [&str; 20] = [
    "r", "c", "s", "i", "c ok", "c no 2", "c no 3", "c no 4", "c no 5", "c no 6", "c no 7", "e TAKEN", "e no 9", "w no 2",
    "b no 2", "t no 1", "? 0", "? 1", "? later", "none of these",
];
const STRAY: usize = KINDS.len() - 1;

fn kind(row: &str) -> String {
    let parts: Vec<&str> = row.split(' ').collect();
    match parts[..] {
        ["?", "0"] | ["?", "1"] | ["t", "no", _] => row.to_string(),
        ["?", _] => "? later".to_string(),
        ["c", _, "ok"] => "c ok".to_string(),
        [letter @ ("c" | "e" | "w" | "b"), _, "no", number] => format!("{letter} no {number}"),
        ["e", _, _] => "e TAKEN".to_string(),
        [_, _, letter] => letter.to_string(),
        _ => String::new(),
    }
}

// A table of how often each kind came up, and whether each did and nothing else.
pub fn table(rows: &str) -> (String, bool) {
    let mut counts = [0; KINDS.len()];
    for row in rows.lines() {
        let kind = kind(row);
        counts[KINDS.iter().position(|k| *k == kind).unwrap_or(STRAY)] += 1;
    }
    let lines: Vec<String> = KINDS.iter().zip(counts).map(|(k, n)| format!("{n:9} {k}\n")).collect();
    let whole = counts[STRAY] == 0 && counts[..STRAY].iter().all(|n| *n > 0);
    (lines.concat(), whole)
}
