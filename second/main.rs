// A second reader of plan sheets and player of rehearsal scripts, written from docs/ alone and sharing nothing with the crates.
//
//   second                            read plan.bin here and print the verdict on it
//   second verdicts FOLDER            print the verdict on FOLDER/*/plan.bin, a line for each, in order
//   second damage SHEET FOLDER VALUES write into FOLDER every byte of SHEET changed to VALUES other values,
//                                     each with its sum left as it was and with its sum mended
//   second random SEED COUNT FOLDER   write COUNT good and bad sheets into FOLDER
//
//   second rehearse                   play the script on standard input on plan.bin here, and print its rows
//   second scripts SEED COUNT FOLDER  write COUNT sheets with random scripts beside them into FOLDER
//   second edges SEED FOLDER          write the sheets and scripts chosen by hand into FOLDER, a folder for each batch
//   second rows FOLDER ROWS           play every script of FOLDER, and write its rows into ROWS under its name
//   second kinds                      count the kinds of the rows on standard input; status 1 where one never came up
//
// A verdict is `ok N` with N reservations, or `LAYER NUMBER PLACE`.
mod clocks;
mod edges;
mod kinds;
mod rehearsal;
mod sheets;

use std::fs;
use std::io::Read;
use std::path::Path;
use std::process::exit;

const BLOCK: usize = 512;
const SUMMED: usize = 508;

struct Entry {
    activity: u64,
    depth: u64,
    path: u64,
    offset: u64,
    length: u64,
}

struct Reservation {
    activity: u64,
    ticks: u64,
    period: u64,
}

fn two(bytes: &[u8], at: usize) -> u64 {
    u64::from(bytes[at]) + 256 * u64::from(bytes[at + 1])
}

fn sum_of(block: &[u8]) -> u32 {
    (0..SUMMED).map(|i| (i as u32 + 1) * u32::from(block[i])).sum()
}

fn refuse<T>(layer: &str, number: u32, place: usize) -> Result<T, String> {
    Err(format!("{layer} {number} {place}"))
}

fn heading_is_wrong(block: &[u8], blocks: usize) -> bool {
    let reserved = block[5] as usize;
    let entries = block[6] as usize;
    let fits = match blocks {
        1 => entries == 0,
        2 => (1..=60).contains(&entries),
        _ => (61..=120).contains(&entries),
    };
    if block[0] != 1 || block[1] != 0 || block[7] != 0 || reserved > 16 || !fits {
        return true;
    }
    (8..SUMMED).any(|i| {
        let in_list = i < 8 + 6 * reserved;
        let may_hold = in_list && (i - 8) % 6 != 1;
        !may_hold && block[i] != 0
    })
}

fn entry_block_is_wrong(block: &[u8], number: usize, count: usize) -> bool {
    block[0] != 2
        || block[1] as usize != number
        || block[2] as usize != count
        || block[3..8].iter().any(|b| *b != 0)
        || block[8 + 8 * count..SUMMED].iter().any(|b| *b != 0)
}

fn entry_place(index: usize) -> usize {
    if index < 60 {
        520 + 8 * index
    } else {
        1032 + 8 * (index - 60)
    }
}

fn clash(a: &Entry, b: &Entry) -> bool {
    let modulus = 1 << a.depth.min(b.depth);
    a.path % modulus == b.path % modulus
        && (a.offset..a.offset + a.length).any(|o| b.offset <= o && o < b.offset + b.length)
}

// The plan's tests, and who owns each tick of the cycle: 16 is nobody.
fn owners(base: u64, depth: u64, entries: &[Entry]) -> Result<Vec<u64>, String> {
    if base < 1 || base > 64 || depth > 5 {
        return refuse("plan", 21, 0);
    }
    for (i, e) in entries.iter().enumerate() {
        let good = e.activity < 16
            && e.depth <= depth
            && e.path < 1 << e.depth
            && e.length >= 1
            && e.offset + e.length <= base;
        if !good {
            return refuse("plan", 23, entry_place(i));
        }
    }
    for later in 0..entries.len() {
        for earlier in 0..later {
            if clash(&entries[earlier], &entries[later]) {
                return refuse("plan", 24, entry_place(later));
            }
        }
    }
    let mut table = vec![16; (base << depth) as usize];
    for (t, owner) in table.iter_mut().enumerate() {
        let (frame, offset) = (t as u64 / base, t as u64 % base);
        for e in entries {
            if frame % (1 << e.depth) == e.path && e.offset <= offset && offset < e.offset + e.length {
                *owner = e.activity;
            }
        }
    }
    Ok(table)
}

fn check(table: &[u64], list: &[Reservation]) -> Result<(), String> {
    for (i, r) in list.iter().enumerate() {
        if r.activity > 15 || r.ticks < 1 || r.ticks > r.period || r.period > 4096 {
            return refuse("check", 12, 8 + 6 * i);
        }
    }
    for i in 0..list.len() {
        if list[..i].iter().any(|r| r.activity == list[i].activity) {
            return refuse("check", 13, 8 + 6 * i);
        }
    }
    for (i, r) in list.iter().enumerate() {
        let cycle = table.len();
        // owned[t]: how many of the ticks before t the activity owns
        let mut owned = vec![0u64];
        for t in 0..cycle + r.period as usize {
            owned.push(owned[t] + u64::from(table[t % cycle] == r.activity));
        }
        if (0..cycle).any(|t| owned[t + r.period as usize] - owned[t] < r.ticks) {
            return refuse("check", 14, 8 + 6 * i);
        }
    }
    if list.iter().map(|r| 1_000_000 * r.ticks / r.period).sum::<u64>() > 1_000_000 {
        return refuse("check", 15, 0);
    }
    Ok(())
}

fn examine(sheet: &[u8]) -> Result<(usize, Vec<u64>), String> {
    if ![512, 1024, 1536].contains(&sheet.len()) {
        return refuse("sheet", 31, 0);
    }
    let blocks: Vec<&[u8]> = sheet.chunks(BLOCK).collect();
    for (n, block) in blocks.iter().enumerate() {
        let told = u32::from_le_bytes([block[508], block[509], block[510], block[511]]);
        if told != sum_of(block) {
            return refuse("sheet", 32, BLOCK * n);
        }
    }
    if heading_is_wrong(blocks[0], blocks.len()) {
        return refuse("sheet", 33, 0);
    }
    let count = blocks[0][6] as usize;
    for n in 1..blocks.len() {
        let here = if n == 1 { count.min(60) } else { count - 60 };
        if entry_block_is_wrong(blocks[n], n, here) {
            return refuse("sheet", 34, BLOCK * n);
        }
    }
    let entries: Vec<Entry> = (0..count)
        .map(entry_place)
        .map(|p| Entry {
            activity: sheet[p].into(),
            depth: sheet[p + 1].into(),
            path: two(sheet, p + 2),
            offset: two(sheet, p + 4),
            length: two(sheet, p + 6),
        })
        .collect();
    let list: Vec<Reservation> = (0..sheet[5] as usize)
        .map(|i| 8 + 6 * i)
        .map(|p| Reservation {
            activity: sheet[p].into(),
            ticks: two(sheet, p + 2),
            period: two(sheet, p + 4),
        })
        .collect();
    let table = owners(two(sheet, 2), sheet[4].into(), &entries)?;
    check(&table, &list)?;
    Ok((list.len(), table))
}

// The owners of a cycle of ticks from 0 on, where the sheet is accepted: 16 is nobody.
pub fn owners_of(sheet: &[u8]) -> Option<Vec<u64>> {
    examine(sheet).ok().map(|(_, table)| table)
}

fn verdict(sheet: &[u8]) -> String {
    match examine(sheet) {
        Ok((n, _)) => format!("ok {n}"),
        Err(refusal) => refusal,
    }
}

// Numbers that are the same for the same seed.
pub struct Seeded(u64);

impl Seeded {
    pub fn below(&mut self, n: u64) -> u64 {
        self.0 ^= self.0 << 13;
        self.0 ^= self.0 >> 7;
        self.0 ^= self.0 << 17;
        (self.0 >> 11) % n
    }

    pub fn one_in(&mut self, n: u64) -> bool {
        self.below(n) == 0
    }
}

fn mend(sheet: &mut [u8]) {
    for block in sheet.chunks_mut(BLOCK) {
        if block.len() == BLOCK {
            let sum = sum_of(block).to_le_bytes();
            block[SUMMED..].copy_from_slice(&sum);
        }
    }
}

fn put_two(sheet: &mut [u8], at: usize, n: u64) {
    sheet[at] = (n % 256) as u8;
    sheet[at + 1] = (n / 256 % 256) as u8;
}

fn random_entries(rng: &mut Seeded, base: u64, depth: u64, wanted: u64) -> Vec<Entry> {
    let mut entries: Vec<Entry> = Vec::new();
    for _ in 0..wanted * 4 {
        if entries.len() as u64 == wanted {
            break;
        }
        let d = depth - rng.below(depth + 1).min(rng.below(depth + 1));
        let offset = rng.below(base);
        let e = Entry {
            activity: rng.below(16),
            depth: d,
            path: rng.below(1 << d),
            offset,
            length: 1 + rng.below((base - offset).min(1 + base / 4)),
        };
        // a clash is let by now and then
        if rng.one_in(400) || !entries.iter().any(|f| clash(f, &e)) {
            entries.push(e);
        }
    }
    entries
}

// Mostly reservations that the plan serves, or just does not.
fn random_list(rng: &mut Seeded, table: &[u64], wanted: u64) -> Vec<Reservation> {
    let cycle = table.len();
    let first = rng.below(16);
    (0..wanted)
        .map(|i| {
            let activity = if rng.one_in(60) { rng.below(18) } else { (first + i) % 16 };
            let longest = if rng.one_in(3) { 4096 } else { 2 * cycle as u64 };
            let period = 1 + rng.below(longest);
            let mut least = period;
            for t in 0..cycle {
                let found = (t..t + period as usize).filter(|s| table[s % cycle] == activity).count();
                least = least.min(found as u64);
            }
            let ticks = if rng.one_in(8) { least + 1 } else { least.max(1) };
            Reservation { activity, ticks, period }
        })
        .collect()
}

fn written(base: u64, depth: u64, entries: &[Entry], list: &[Reservation]) -> Vec<u8> {
    let blocks = 1 + entries.len().div_ceil(60);
    let mut sheet = vec![0; BLOCK * blocks];
    sheet[0] = 1;
    put_two(&mut sheet, 2, base);
    sheet[4] = depth as u8;
    sheet[5] = list.len() as u8;
    sheet[6] = entries.len() as u8;
    for (i, r) in list.iter().enumerate() {
        sheet[8 + 6 * i] = r.activity as u8;
        put_two(&mut sheet, 10 + 6 * i, r.ticks);
        put_two(&mut sheet, 12 + 6 * i, r.period);
    }
    for n in 1..blocks {
        sheet[BLOCK * n] = 2;
        sheet[BLOCK * n + 1] = n as u8;
        sheet[BLOCK * n + 2] = (entries.len() - 60 * (n - 1)).min(60) as u8;
    }
    for (i, e) in entries.iter().enumerate() {
        let p = entry_place(i);
        sheet[p] = e.activity as u8;
        sheet[p + 1] = e.depth as u8;
        put_two(&mut sheet, p + 2, e.path);
        put_two(&mut sheet, p + 4, e.offset);
        put_two(&mut sheet, p + 6, e.length);
    }
    sheet
}

fn random_sheet(rng: &mut Seeded) -> Vec<u8> {
    let base = if rng.one_in(40) { rng.below(70) } else { 4 + rng.below(61) };
    let depth = if rng.one_in(40) { rng.below(8) } else { rng.below(6) };
    let most = [0, 1, 6, 30, 60, 61, 100, 120][rng.below(8) as usize];
    let entries = random_entries(rng, base.max(1), depth, most);
    let table = owners(base, depth, &entries).unwrap_or(vec![16]);
    let wanted = [0, 0, 1, 1, 2, 3, 16][rng.below(7) as usize];
    let list = random_list(rng, &table, wanted);
    let served: Vec<Reservation> = if rng.one_in(5) {
        list
    } else {
        list.into_iter().filter(|r| check(&table, std::slice::from_ref(r)).is_ok()).collect()
    };
    let mut sheet = written(base, depth, &entries, &served);
    // up to three bytes turned, most of them where something stands
    for _ in 0..[0, 0, 0, 1, 1, 2, 3][rng.below(7) as usize] {
        let at = if rng.one_in(2) { rng.below(16) } else { rng.below(sheet.len() as u64) } as usize;
        let here = if rng.one_in(2) { at } else { at % BLOCK + BLOCK * (sheet.len() / BLOCK - 1) };
        sheet[here] = if rng.one_in(2) { sheet[here] ^ (1 << rng.below(8)) } else { rng.below(256) as u8 };
    }
    if rng.one_in(30) {
        let size = rng.below(1700) as usize;
        sheet.resize(size, 0);
    }
    if !rng.one_in(20) {
        mend(&mut sheet);
    }
    sheet
}

fn save(folder: &str, number: usize, sheet: &[u8]) -> std::io::Result<()> {
    let place = Path::new(folder).join(format!("{number:06}"));
    fs::create_dir_all(&place)?;
    fs::write(place.join("plan.bin"), sheet)
}

fn damage(sheet: &[u8], folder: &str, values: u64) -> std::io::Result<usize> {
    let mut rng = Seeded(0x9e37_79b9_7f4a_7c15);
    let mut number = 0;
    for at in 0..sheet.len() {
        for _ in 0..values {
            let mut turned = sheet.to_vec();
            turned[at] = turned[at].wrapping_add(1 + rng.below(255) as u8);
            save(folder, number, &turned)?;
            mend(&mut turned);
            save(folder, number + 1, &turned)?;
            number += 2;
        }
    }
    Ok(number)
}

fn verdicts(folder: &str) -> std::io::Result<()> {
    let mut places: Vec<_> = fs::read_dir(folder)?.collect::<Result<Vec<_>, _>>()?;
    places.sort_by_key(|p| p.file_name());
    for place in places {
        let sheet = fs::read(place.path().join("plan.bin"))?;
        println!("{} {}", place.file_name().to_string_lossy(), verdict(&sheet));
    }
    Ok(())
}

fn write_scripts(rng: &mut Seeded, count: usize, folder: &str) -> std::io::Result<()> {
    for number in 0..count {
        let mut sheet = random_sheet(rng);
        // mostly sheets that are accepted
        for _ in 0..20 {
            if examine(&sheet).is_ok() || rng.one_in(20) {
                break;
            }
            sheet = random_sheet(rng);
        }
        save(folder, number, &sheet)?;
        let place = Path::new(folder).join(format!("{number:06}"));
        fs::write(place.join("script"), rehearsal::random_script(rng))?;
    }
    Ok(())
}

fn write_rows(folder: &str, rows: &str) -> std::io::Result<()> {
    fs::create_dir_all(rows)?;
    for place in fs::read_dir(folder)? {
        let place = place?;
        let path = place.path();
        let played = rehearsal::rehearse(&fs::read(path.join("plan.bin"))?, &fs::read(path.join("script"))?);
        fs::write(Path::new(rows).join(place.file_name()), played)?;
    }
    Ok(())
}

fn count_kinds() -> std::io::Result<()> {
    let (table, whole) = kinds::table(&std::io::read_to_string(std::io::stdin())?);
    print!("{table}");
    if !whole {
        exit(1);
    }
    Ok(())
}

fn seeded(seed: &str) -> Seeded {
    Seeded(seed.parse::<u64>().unwrap_or(1).wrapping_mul(2).wrapping_add(0x2545_f491_4f6c_dd1d))
}

fn run(args: &[&str]) -> std::io::Result<()> {
    match args {
        [] => println!("{}", verdict(&fs::read("plan.bin")?)),
        ["verdicts", folder] => verdicts(folder)?,
        ["damage", sheet, folder, values] => {
            println!("{}", damage(&fs::read(sheet)?, folder, values.parse().unwrap_or(1))?);
        }
        ["random", seed, count, folder] => {
            let mut rng = seeded(seed);
            for number in 0..count.parse().unwrap_or(100) {
                let sheet = random_sheet(&mut rng);
                save(folder, number, &sheet)?;
            }
        }
        ["rehearse"] => {
            let mut script = Vec::new();
            std::io::stdin().read_to_end(&mut script)?;
            print!("{}", rehearsal::rehearse(&fs::read("plan.bin")?, &script));
        }
        ["scripts", seed, count, folder] => write_scripts(&mut seeded(seed), count.parse().unwrap_or(100), folder)?,
        ["edges", seed, folder] => edges::write(&mut seeded(seed), folder)?,
        ["rows", folder, rows] => write_rows(folder, rows)?,
        ["kinds"] => count_kinds()?,
        _ => {
            eprintln!("see the head of second/main.rs");
            exit(2);
        }
    }
    Ok(())
}

fn main() {
    let args: Vec<String> = std::env::args().skip(1).collect();
    let args: Vec<&str> = args.iter().map(String::as_str).collect();
    if let Err(error) = run(&args) {
        eprintln!("{error}");
        exit(1);
    }
}
