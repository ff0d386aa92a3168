// A second player of rehearsal scripts, written from docs/ alone.
use crate::{owners_of, Seeded};
use std::collections::BTreeMap;
use std::fmt::Write;

struct Constraint {
    activity: usize,
    ran: u64,
    left: bool,
}

// A queue of the sixteen activities under a hold of `repeats`.
struct Rule {
    order: Vec<usize>,
    repeats: u64,
    last: Option<usize>,
    left: u64,
}

impl Rule {
    fn choose(&mut self, ready: &[bool; 16]) -> usize {
        if let Some(last) = self.last {
            if self.left > 0 && ready[last] {
                self.left -= 1;
                return last;
            }
        }
        let at = self.order.iter().position(|a| ready[*a]).unwrap();
        let named = self.order.remove(at);
        self.order.push(named);
        self.last = Some(named);
        self.left = self.repeats;
        named
    }
}

struct Level {
    owners: Vec<u64>,
    clock: i64,
    ready: [bool; 16],
    seats: BTreeMap<u64, Constraint>,
    marks: BTreeMap<i64, u64>,
    rule: Rule,
}

impl Level {
    fn owner(&self, t: i64) -> Option<usize> {
        let owner = self.owners[t.rem_euclid(self.owners.len() as i64) as usize];
        (owner < 16).then_some(owner as usize)
    }

    fn tick(&mut self) -> Option<String> {
        if self.clock == i64::from(i32::MAX) {
            return None;
        }
        let t = self.clock;
        let mark = self.marks.remove(&t);
        let due = match mark {
            Some(seat) => {
                let constraint = self.seats.get_mut(&seat).unwrap();
                let runs = self.ready[constraint.activity];
                constraint.ran += u64::from(runs);
                runs.then_some((constraint.activity, 'c'))
            }
            None => self.owner(t).filter(|a| self.ready[*a]).map(|a| (a, 'r')),
        };
        self.clock += 1;
        Some(match due {
            Some((a, letter)) => format!("{t} {a} {letter}"),
            None if self.ready.contains(&true) => format!("{t} {} s", self.rule.choose(&self.ready)),
            None => format!("{t} - i"),
        })
    }

    fn begin(&mut self, seat: u64, activity: u64, start: i64, deadline: i64, estimate: u64) -> Result<(), u32> {
        let wrong = [
            (activity > 15, 2),
            (estimate == 0, 3),
            (start < self.clock, 4),
            (deadline <= start || deadline > self.clock + 1024, 5),
            (seat > 15 || self.seats.contains_key(&seat), 6),
        ];
        if let Some((_, number)) = wrong.iter().find(|w| w.0) {
            return Err(*number);
        }
        let unmarked = || (start..deadline).filter(|t| !self.marks.contains_key(t));
        let own = unmarked().filter(|t| self.owner(*t) == Some(activity as usize));
        let free = unmarked().filter(|t| self.owner(*t).is_none());
        let chosen: Vec<i64> = own.chain(free).take(estimate as usize).collect();
        if (chosen.len() as u64) < estimate {
            return Err(7);
        }
        for t in chosen {
            self.marks.insert(t, seat);
        }
        self.seats.insert(seat, Constraint { activity: activity as usize, ran: 0, left: true });
        Ok(())
    }

    fn end(&mut self, seat: u64) -> Result<u64, u32> {
        if !self.seats.get(&seat).is_some_and(|c| c.left) {
            return Err(9);
        }
        self.marks.retain(|_, s| *s != seat);
        Ok(self.seats.remove(&seat).unwrap().ran)
    }
}

// A number without a leading zero, in a range; only some may be negative.
fn number(field: &str, least: i64, most: i64) -> Option<i64> {
    let digits = field.strip_prefix('-').unwrap_or(field);
    let plain = !digits.is_empty() && digits.bytes().all(|b| b.is_ascii_digit());
    if !plain || (digits.len() > 1 && digits.starts_with('0')) || field == "-0" || digits.len() > 10 {
        return None;
    }
    let n: i64 = field.parse().ok()?;
    (least <= n && n <= most).then_some(n)
}

const TIMES: (i64, i64) = (i32::MIN as i64, i32::MAX as i64);

fn fields(line: &str, ranges: &[(i64, i64)]) -> Option<Vec<i64>> {
    let parts: Vec<&str> = line.split(' ').skip(1).collect();
    if parts.len() != ranges.len() {
        return None;
    }
    parts.iter().zip(ranges).map(|(p, r)| number(p, r.0, r.1)).collect()
}

fn play_line(level: &mut Level, line: &str, out: &mut String) -> Option<()> {
    let small = (0, 65535);
    match line.split(' ').next()? {
        letter @ ("w" | "b") => {
            let f = fields(line, &[small])?;
            match level.ready.get_mut(f[0] as usize) {
                Some(ready) => *ready = letter == "w",
                None => writeln!(out, "{letter} {} no 2", f[0]).ok()?,
            }
        }
        "t" => {
            for _ in 0..fields(line, &[(1, 9999)])?[0] {
                match level.tick() {
                    Some(row) => writeln!(out, "{row}").ok()?,
                    None => {
                        out.push_str("t no 1\n");
                        break;
                    }
                }
            }
        }
        "c" => {
            let f = fields(line, &[small, small, TIMES, TIMES, small])?;
            match level.begin(f[0] as u64, f[1] as u64, f[2], f[3], f[4] as u64) {
                Ok(()) => writeln!(out, "c {} ok", f[0]).ok()?,
                Err(n) => writeln!(out, "c {} no {n}", f[0]).ok()?,
            }
        }
        "e" => {
            let f = fields(line, &[small])?;
            match level.end(f[0] as u64) {
                Ok(ran) => writeln!(out, "e {} {ran}", f[0]).ok()?,
                Err(n) => writeln!(out, "e {} no {n}", f[0]).ok()?,
            }
        }
        _ => return None,
    }
    Some(())
}

fn open(owners: Vec<u64>, line: &str) -> Option<Level> {
    if !line.starts_with("o ") {
        return None;
    }
    let f = fields(line, &[TIMES, (0, 255)])?;
    let rule = Rule { order: (0..16).collect(), repeats: f[1] as u64, last: None, left: 0 };
    Some(Level { owners, clock: f[0], ready: [false; 16], seats: BTreeMap::new(), marks: BTreeMap::new(), rule })
}

// The rows of a script on a sheet.
pub fn rehearse(sheet: &[u8], script: &[u8]) -> String {
    let Some(owners) = owners_of(sheet) else {
        return "? 0\n".into();
    };
    if script.len() > 16384 || script.is_empty() {
        return "? 1\n".into();
    }
    let mut out = String::new();
    let mut level = None;
    let ended = script.ends_with(b"\n");
    let lines: Vec<&[u8]> = script.strip_suffix(b"\n").unwrap_or(script).split(|b| *b == b'\n').collect();
    for (i, bytes) in lines.iter().enumerate() {
        let whole = ended || i + 1 < lines.len();
        let line = if whole { std::str::from_utf8(bytes).unwrap_or("?") } else { "?" };
        let played = match &mut level {
            None => open(owners.clone(), line).map(|l| level = Some(l)),
            Some(level) => play_line(level, line, &mut out),
        };
        if played.is_none() {
            writeln!(out, "? {}", i + 1).unwrap();
            break;
        }
    }
    out
}

fn time(rng: &mut Seeded, clock: i64) -> i64 {
    match rng.below(12) {
        0 => clock - 1 - rng.below(4) as i64,
        1 => clock + 1020 + rng.below(10) as i64,
        2 => [i32::MIN as i64, i32::MAX as i64, -1, 0, 1][rng.below(5) as usize],
        _ => clock + rng.below(200) as i64,
    }
    .clamp(TIMES.0, TIMES.1)
}

fn small(rng: &mut Seeded) -> u64 {
    if rng.one_in(15) { [16, 17, 255, 256, 65535][rng.below(5) as usize] } else { rng.below(16) }
}

// A script of so many lines at most, now and then with a line that is malformed.
pub fn random_script(rng: &mut Seeded) -> Vec<u8> {
    let mut clock = match rng.below(8) {
        0 => i64::from(i32::MAX) - rng.below(300) as i64,
        1 => i64::from(i32::MIN),
        2 => 0,
        _ => rng.below(4000) as i64 - 2000,
    };
    let mut script = format!("o {clock} {}\n", [0, 0, 1, 2, 7, 255][rng.below(6) as usize]);
    for _ in 0..rng.below(60) {
        let line = match rng.below(10) {
            0..=2 => format!("w {}", small(rng)),
            3 => format!("b {}", small(rng)),
            4..=6 => {
                let n = if rng.one_in(30) { 1500 } else { 1 + rng.below(40) };
                clock = (clock + n as i64).min(TIMES.1);
                format!("t {n}")
            }
            7..=8 => {
                let start = time(rng, clock);
                let deadline = if rng.one_in(6) { time(rng, clock) } else { (start + 1 + rng.below(120) as i64).min(TIMES.1) };
                format!("c {} {} {start} {deadline} {}", small(rng), small(rng), [0, 1, 2, 3, 5, 8, 13, 40, 65535][rng.below(9) as usize])
            }
            _ => format!("e {}", small(rng)),
        };
        script.push_str(&line);
        script.push('\n');
    }
    let mut bytes = script.into_bytes();
    if rng.one_in(3) {
        damage(rng, &mut bytes);
    }
    bytes
}

// One thing wrong with a script, or perhaps not.
fn damage(rng: &mut Seeded, bytes: &mut Vec<u8>) {
    let at = rng.below(bytes.len() as u64) as usize;
    match rng.below(7) {
        0 => bytes[at] = rng.below(256) as u8,
        1 => bytes.insert(at, b"0123456789 -\nowbtce"[rng.below(19) as usize]),
        2 => drop(bytes.remove(at)),
        3 => bytes.truncate(at),
        4 => bytes.extend_from_slice([&b"t 0\n"[..], b"t 10000\n", b"o 0 0\n", b"w -0\n", b"w 01\n", b"e 65536\n", b"\n", b"t 1"][rng.below(8) as usize]),
        5 => {
            let size = [16384, 16385][rng.below(2) as usize];
            while bytes.len() + 4 <= size {
                bytes.extend_from_slice(b"w 1\n");
            }
            while bytes.len() < size {
                bytes.insert(0, b'o');
            }
        }
        _ => bytes.splice(..0, *b"o 2147483648 0\n").for_each(drop),
    }
}
