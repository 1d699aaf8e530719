//! Frame files by chance: valid ones, long and short, damaged ones, and bytes of any kind.

/// A generator of numbers for the files (splitmix64), which has nothing to do with the one that draws samples.
pub struct Chance(u64);

impl Chance {
    pub fn new(seed: u64) -> Chance {
        Chance(seed)
    }

    fn next(&mut self) -> u64 {
        self.0 = self.0.wrapping_add(0x9e37_79b9_7f4a_7c15);
        let mut z = self.0;
        z = (z ^ (z >> 30)).wrapping_mul(0xbf58_476d_1ce4_e5b9);
        z = (z ^ (z >> 27)).wrapping_mul(0x94d0_49bb_1331_11eb);
        z ^ (z >> 31)
    }

    /// A number below `end`.
    pub fn below(&mut self, end: u64) -> u64 {
        self.next() % end
    }

    /// A number from `low` to `high`.
    pub fn from(&mut self, low: u64, high: u64) -> u64 {
        low + self.below(high - low + 1)
    }

    fn one_in(&mut self, count: u64) -> bool {
        self.below(count) == 0
    }

    fn pick<'a, T>(&mut self, items: &'a [T]) -> &'a T {
        &items[self.below(items.len() as u64) as usize]
    }
}

// Sizes whose shares mostly have small terms, so that the scale stays within its limit.
fn size(chance: &mut Chance, kind: u64) -> u64 {
    match kind {
        0 => 1,
        1 => chance.from(1, 2),
        2 => *chance.pick(&[1, 2, 3, 4, 6]),
        3 => chance.from(1, 40),
        _ => chance.from(1, 10_000),
    }
}

fn money(chance: &mut Chance) -> i64 {
    match chance.below(4) {
        0 => chance.from(0, 9) as i64 - 4,
        1 => chance.from(0, 2_000_000) as i64 - 1_000_000,
        2 => 0,
        _ => *chance.pick(&[1_000_000, -1_000_000, 1, -1]),
    }
}

/// A file in the written form, with about so many units. Most are accepted; the design refuses some.
pub fn whole(chance: &mut Chance, most: u64) -> Vec<u8> {
    let m = (*chance.pick(&[1, 1, 1, 2, 2, 3, 5])).min(most);
    let strata = chance.from(1, (1 + most / (8 * m)).min(64));
    let room = (most / (strata * (m + 2))).clamp(1, 150);
    let kind = chance.below(5).min(chance.below(5));
    let mut takes = Vec::new();
    let mut units = Vec::new();
    let mut stratum = chance.below(5);
    for _ in 0..strata {
        let clusters = chance.from(1, room);
        takes.push(chance.from(1, clusters.div_ceil(3)) * m);
        let mut cluster = chance.below(5);
        let rows = chance.from(m, m + 2);
        for _ in 0..clusters {
            let rows = if kind < 2 { rows } else { chance.from(m, m + 2) };
            for _ in 0..rows {
                let size = size(chance, kind);
                let money = money(chance);
                let cell = chance.below(6);
                units.push(format!("{stratum},{cluster},{size},{money},{cell}"));
            }
            cluster += chance.from(1, 9);
        }
        stratum += chance.from(1, 9);
    }
    units.truncate(1024);
    let n: u64 = takes.iter().sum();
    let n = if chance.one_in(40) { n + 1 } else { n };
    let seed = if chance.one_in(50) { 4_294_967_295 } else { chance.from(1, 4_294_967_295) };
    let takes: Vec<String> = takes.iter().map(u64::to_string).collect();
    format!("{n},{m},{seed}\n{}\n{}\n", takes.join(","), units.join("\n")).into_bytes()
}

// One change at some place of a file.
fn damage(chance: &mut Chance, file: &mut Vec<u8>) {
    let at = chance.below(file.len() as u64 + 1) as usize;
    const TEXTS: [&[u8]; 20] = [
        b"", b",", b"\n", b"-", b"0", b"00", b"7", b"\r", b" ", b"+1", b",,", b"\n\n", b"1e3", b"\xff", b"-0",
        b"18446744073709551617", b"99999999999999999999999999", b"65536", b"1000001", b"-1000001",
    ];
    let text = *chance.pick(&TEXTS);
    let end = (at + chance.below(3) as usize).min(file.len());
    file.splice(at..end, text.iter().copied());
}

// A line again, or left out, or in the place of another.
fn move_a_line(chance: &mut Chance, file: &[u8]) -> Vec<u8> {
    let mut lines: Vec<&[u8]> = file.split_inclusive(|byte| *byte == b'\n').collect();
    if lines.is_empty() {
        return Vec::new();
    }
    let at = chance.below(lines.len() as u64) as usize;
    let to = chance.below(lines.len() as u64) as usize;
    match chance.below(3) {
        0 => lines.insert(to, lines[at]),
        1 => {
            lines.remove(at);
        }
        _ => lines.swap(at, to),
    }
    lines.concat()
}

fn any_bytes(chance: &mut Chance) -> Vec<u8> {
    let bytes: &[u8] = if chance.one_in(2) { b"0123456789,,,\n\n-" } else { b"\x00\xff,\n1" };
    let count = chance.below(200);
    (0..count).map(|_| *chance.pick(bytes)).collect()
}

/// A file of any kind.
pub fn any(chance: &mut Chance) -> Vec<u8> {
    if chance.one_in(12) {
        return any_bytes(chance);
    }
    let most = *chance.pick(&[1, 2, 5, 20, 20, 100, 400, 1024]);
    let mut file = whole(chance, most);
    match chance.below(4) {
        0 => (),
        1 => {
            for _ in 0..chance.from(1, 3) {
                damage(chance, &mut file);
            }
        }
        2 => file = move_a_line(chance, &file),
        _ => file.truncate(chance.below(file.len() as u64 + 1) as usize),
    }
    if chance.one_in(200) {
        let line = file.clone();
        while file.len() <= 33_000 && !line.is_empty() {
            file.extend_from_slice(&line);
        }
    }
    file
}
