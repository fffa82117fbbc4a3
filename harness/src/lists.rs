//! Scaling lists against a plain writing of clause 7.3.4: read from streams that a small writer makes, from damaged ones, and from random bytes; written from lists of
//! which some are defaults or equal, and read back.
#[cfg(has_writer)]
use crate::archive::lists::write_scaling_lists;
use crate::archive::lists::{BitsAnswered, read_scaling_lists};
use crate::random::Random;
use crate::tally::Tally;

pub const FUNCTIONS: usize = if cfg!(has_writer) { 2 } else { 1 };

const LISTS: usize = 20;
const ENTRIES: usize = 64;

/// Row and column of each entry in coding order: clause 6.5.3.
fn up_right(width: i32) -> Vec<(usize, usize)> {
    let (mut order, mut x, mut y) = (Vec::new(), 0, 0);
    while order.len() < (width * width) as usize {
        while y >= 0 {
            if x < width && y < width {
                order.push((y as usize, x as usize));
            }
            y -= 1;
            x += 1;
        }
        (x, y) = (0, x);
    }
    order
}

fn matrices(size: usize) -> impl Iterator<Item = usize> {
    (0..6).step_by(if size == 3 { 3 } else { 1 })
}

/// How wide a list of that size is, as rows in its 64 entries.
fn width(size: usize) -> usize {
    if size == 0 { 4 } else { 8 }
}

// ---- the syntax, read

struct Reader<'a> {
    bytes: &'a [u8],
    at: usize,
}

enum Stop {
    Ended,
    TooLong,
}

impl Reader<'_> {
    fn bit(&mut self) -> Result<u64, Stop> {
        let byte = self.bytes.get(self.at / 8).ok_or(Stop::Ended)?;
        let bit = byte >> (7 - self.at % 8) & 1;
        self.at += 1;
        Ok(u64::from(bit))
    }

    fn unsigned(&mut self) -> Result<u64, Stop> {
        let mut zeros = 0;
        while self.bit()? == 0 {
            zeros += 1;
            if zeros > 32 {
                return Err(Stop::TooLong);
            }
        }
        let mut suffix = 0;
        for _ in 0..zeros {
            suffix = 2 * suffix + self.bit()?;
        }
        Ok((1 << zeros) - 1 + suffix)
    }

    fn signed(&mut self) -> Result<i64, Stop> {
        let k = self.unsigned()? as i64;
        Ok(if k % 2 == 1 { (k + 1) / 2 } else { -(k / 2) })
    }
}

#[derive(Clone)]
struct List {
    entries: Vec<u8>,
    dc: u8,
}

struct Defaults {
    four: Vec<u8>,
    intra: Vec<u8>,
    inter: Vec<u8>,
}

impl Defaults {
    fn of(&self, size: usize, matrix: usize) -> List {
        let entries = if size == 0 { &self.four } else if matrix < 3 { &self.intra } else { &self.inter };
        List { entries: entries.clone(), dc: 16 }
    }
}

/// The refusal of a code that begins at `at`, by the number of a value out of its range.
fn refusal(stop: Stop, number: u32, at: usize) -> (u32, usize) {
    match stop {
        Stop::Ended => (14, at),
        Stop::TooLong => (number, at),
    }
}

fn coded(reader: &mut Reader, size: usize) -> Result<List, (u32, usize)> {
    let mut list = List { entries: vec![0; ENTRIES], dc: 16 };
    let mut next = 8i64;
    if size > 1 {
        let at = reader.at;
        let dc = reader.signed().map_err(|s| refusal(s, 16, at))?;
        if !(-7..=247).contains(&dc) {
            return Err((16, at));
        }
        next = dc + 8;
        list.dc = next as u8;
    }
    for (row, column) in up_right(width(size) as i32) {
        let at = reader.at;
        let delta = reader.signed().map_err(|s| refusal(s, 16, at))?;
        if !(-128..=127).contains(&delta) {
            return Err((16, at));
        }
        next = (next + delta + 256) % 256;
        if next == 0 {
            return Err((16, at));
        }
        list.entries[row * width(size) + column] = next as u8;
    }
    Ok(list)
}

fn read(bytes: &[u8], defaults: &Defaults) -> Result<(Vec<List>, usize), (u32, usize)> {
    let mut reader = Reader { bytes, at: 0 };
    let mut all = Vec::new();
    for size in 0..4 {
        let mut read: Vec<Option<List>> = vec![None; 6];
        for matrix in matrices(size) {
            let at = reader.at;
            let flag = reader.bit().map_err(|_| (14, at))?;
            let list = if flag == 1 {
                coded(&mut reader, size)?
            } else {
                let at = reader.at;
                let delta = reader.unsigned().map_err(|s| refusal(s, 15, at))?;
                let back = delta.saturating_mul(if size == 3 { 3 } else { 1 });
                match (matrix as u64).checked_sub(back) {
                    None => return Err((15, at)),
                    Some(_) if delta == 0 => defaults.of(size, matrix),
                    Some(reference) => read[reference as usize].clone().expect("a list before"),
                }
            };
            all.push(list.clone());
            read[matrix] = Some(list);
        }
    }
    Ok((all, reader.at))
}

// ---- the syntax, written

#[derive(Default)]
struct Writer(Vec<bool>);

impl Writer {
    fn unsigned(&mut self, k: u64) {
        let digits = 64 - (k + 1).leading_zeros();
        self.0.extend((1..digits).map(|_| false));
        self.0.extend((0..digits).rev().map(|i| (k + 1) >> i & 1 == 1));
    }

    fn signed(&mut self, v: i64) {
        self.unsigned(if v > 0 { 2 * v as u64 - 1 } else { 2 * v.unsigned_abs() });
    }

    fn coded(&mut self, random: &mut Random, size: usize) {
        self.0.push(true);
        let mut before = 8;
        if size > 1 {
            before = entry(random);
            self.signed(before - 8);
        }
        let steps = random.pick(&[0, 3, 40, 127]);
        for _ in up_right(width(size) as i32) {
            let mut next = (before + random.between(-steps, steps)).rem_euclid(256);
            if next == 0 {
                next = (before + 1).rem_euclid(256).max(1);
            }
            self.signed((next - before + 128).rem_euclid(256) - 128);
            before = next;
        }
    }

    fn bytes(&self) -> Vec<u8> {
        self.0.chunks(8).map(|bits| bits.iter().enumerate().fold(0, |byte, (i, &b)| byte | u8::from(b) << (7 - i))).collect()
    }
}

fn entry(random: &mut Random) -> i64 {
    if random.one_in(4) { random.pick(&[1, 8, 16, 255]) } else { random.between(1, 255) }
}

fn valid(random: &mut Random) -> Writer {
    let mut writer = Writer::default();
    let often = random.pick(&[1, 2, 4]);
    for size in 0..4 {
        for (before, _) in matrices(size).enumerate() {
            if random.one_in(often) {
                writer.coded(random, size);
            } else {
                writer.0.push(false);
                writer.unsigned(random.below(before + 1) as u64);
            }
        }
    }
    writer
}

/// A stream that may be cut, have wrong bits or a code of its own, or be no stream at all.
fn stream(random: &mut Random) -> Vec<u8> {
    let mut writer = valid(random);
    let at = random.below(writer.0.len());
    match random.below(8) {
        0 => writer.0.truncate(at),
        1 => writer.0[at] ^= true,
        2 => {
            writer.0.truncate(at);
            writer.0.extend((0..random.pick(&[31, 32, 33, 40])).map(|_| false));
            writer.0.extend((0..random.below(80)).map(|_| true));
        }
        3 => {
            writer.0.truncate(at);
            let code = random.pick(&[-129, -128, -9, -8, 127, 128, 247, 248, 1 << 31]);
            writer.signed(code);
            writer.0.extend((0..random.below(400)).map(|_| true));
        }
        4 => return (0..random.below(300)).map(|_| random.next() as u8).collect(),
        _ => (),
    }
    let mut bytes = writer.bytes();
    bytes.extend((0..random.pick(&[0, 0, 1, 5])).map(|_| random.next() as u8));
    bytes
}

fn filled(random: &mut Random, len: usize) -> Vec<u8> {
    (0..len).map(|_| random.next() as u8).collect()
}

/// Lengths as they should be, one time in thirty another.
fn length(random: &mut Random, right: usize) -> usize {
    if random.one_in(30) { random.pick(&[0, right - 1, right + 1]) } else { right }
}

pub fn compare(tally: &mut Tally, seed: u64, cases: usize) {
    tally.begin("read_scaling_lists");
    let mut random = Random::of(seed, "read_scaling_lists");
    for _ in 0..cases / 8 {
        let bytes = stream(&mut random);
        let mut default = || {
            let len = length(&mut random, ENTRIES);
            filled(&mut random, len)
        };
        let defaults = Defaults { four: default(), intra: default(), inter: default() };
        let room = length(&mut random, LISTS * ENTRIES);
        let dcs_room = length(&mut random, LISTS);
        let mut lists = filled(&mut random, room);
        let mut dcs = filled(&mut random, dcs_room);
        let (mut expected, mut expected_dcs) = (lists.clone(), dcs.clone());
        let right = [&defaults.four, &defaults.intra, &defaults.inter].iter().all(|d| d.len() == ENTRIES);
        let answer = if !right {
            BitsAnswered { number: 5, ..BitsAnswered::default() }
        } else if room < LISTS * ENTRIES || dcs_room < LISTS {
            BitsAnswered { number: 7, ..BitsAnswered::default() }
        } else {
            match read(&bytes, &defaults) {
                Err((number, place)) => BitsAnswered { number, row: 0, column: 0, place, bits: 0 },
                Ok((all, bits)) => {
                    for (j, list) in all.iter().enumerate() {
                        expected[j * ENTRIES..][..ENTRIES].copy_from_slice(&list.entries);
                        expected_dcs[j] = list.dc;
                    }
                    BitsAnswered { number: 0, row: 0, column: 0, place: 0, bits }
                }
            }
        };
        let answered = read_scaling_lists(&bytes, &defaults.four, &defaults.intra, &defaults.inter, &mut lists, &mut dcs);
        let agrees = answered == answer && lists == expected && dcs == expected_dcs;
        tally.compared(answered.number, agrees, || format!("{bytes:02x?}: {answered:?}, expected {answer:?}"));
    }
    #[cfg(has_writer)]
    written::compare(tally, seed, cases);
}

#[cfg(has_writer)]
mod written {
    use super::*;

    fn used(size: usize) -> usize {
        width(size) * width(size)
    }

    fn same(size: usize, a: &List, b: &List) -> bool {
        a.entries[..used(size)] == b.entries[..used(size)] && (size < 2 || a.dc == b.dc)
    }

    /// The default, else the nearest equal list of its size, else in full.
    fn write(lists: &[List], defaults: &Defaults) -> Writer {
        let mut writer = Writer::default();
        for (j, list) in lists.iter().enumerate() {
            let (size, before) = (j / 6, j % 6);
            let matrix = if size == 3 { 3 * before } else { before };
            let reference = if same(size, list, &defaults.of(size, matrix)) { Some(0) } else { (1..=before).find(|d| same(size, list, &lists[j - d])) };
            if let Some(delta) = reference {
                writer.0.push(false);
                writer.unsigned(delta as u64);
                continue;
            }
            writer.0.push(true);
            let mut next = 8;
            if size > 1 {
                next = i64::from(list.dc);
                writer.signed(next - 8);
            }
            for (row, column) in up_right(width(size) as i32) {
                let entry = i64::from(list.entries[row * width(size) + column]);
                writer.signed((entry - next + 128).rem_euclid(256) - 128);
                next = entry;
            }
        }
        writer
    }

    fn list(random: &mut Random, j: usize, before: &[List], defaults: &Defaults) -> List {
        let (size, of_size) = (j / 6, j % 6);
        match random.below(4) {
            0 => {
                let mut list = defaults.of(size, if size == 3 { 3 * of_size } else { of_size });
                list.dc = random.pick(&[16, 16, 17]);
                list
            }
            1 if of_size > 0 => before[j - 1 - random.below(of_size)].clone(),
            _ => List { entries: (0..ENTRIES).map(|_| entry(random) as u8).collect(), dc: entry(random) as u8 },
        }
    }

    /// Lengths, values and room as they should be, now and then not.
    pub fn compare(tally: &mut Tally, seed: u64, cases: usize) {
        tally.begin("write_scaling_lists");
        let mut random = Random::of(seed, "write_scaling_lists");
        for _ in 0..cases / 40 {
            let mut default = || (0..length(&mut random, ENTRIES)).map(|_| entry(&mut random) as u8).collect::<Vec<u8>>();
            let defaults = Defaults { four: default(), intra: default(), inter: default() };
            let right = [&defaults.four, &defaults.intra, &defaults.inter].iter().all(|d| d.len() == ENTRIES);
            let mut all: Vec<List> = Vec::new();
            for j in 0..LISTS {
                let plain = Defaults { four: vec![16; ENTRIES], intra: vec![17; ENTRIES], inter: vec![18; ENTRIES] };
                let mut next = list(&mut random, j, &all, if right { &defaults } else { &plain });
                if random.one_in(400) {
                    next.entries[random.below(ENTRIES)] = 0;
                }
                if random.one_in(400) {
                    next.dc = 0;
                }
                all.push(next);
            }
            let mut entries: Vec<u8> = all.iter().flat_map(|l| l.entries.clone()).collect();
            let mut dcs: Vec<u8> = all.iter().map(|l| l.dc).collect();
            entries.resize(length(&mut random, LISTS * ENTRIES), 0);
            dcs.resize(length(&mut random, LISTS), 0);
            let zero = all.iter().enumerate().any(|(j, l)| l.entries[..used(j / 6)].contains(&0) || (j >= 12 && l.dc == 0));
            let fits = right && entries.len() >= LISTS * ENTRIES && dcs.len() >= LISTS;
            let bits = if fits && !zero { write(&all, &defaults) } else { Writer::default() };
            let bytes = bits.bytes();
            let room = if random.one_in(20) && !bytes.is_empty() { bytes.len() - 1 } else { bytes.len() + random.below(4) };
            let mut out: Vec<u8> = (0..room).map(|_| random.next() as u8).collect();
            let mut due = out.clone();
            let answer = if !fits {
                BitsAnswered { number: 5, ..BitsAnswered::default() }
            } else if zero {
                BitsAnswered { number: 16, ..BitsAnswered::default() }
            } else if room < bytes.len() {
                BitsAnswered { number: 7, ..BitsAnswered::default() }
            } else {
                due[..bytes.len()].copy_from_slice(&bytes);
                BitsAnswered { bits: bits.0.len(), ..BitsAnswered::default() }
            };
            let answered = write_scaling_lists(&entries, &dcs, &defaults.four, &defaults.intra, &defaults.inter, &mut out);
            let mut agrees = answered == answer && out == due;
            if answered.number == 0 {
                let back = read(&out, &defaults);
                agrees &= back.is_ok_and(|(read, end)| end == answered.bits && read.iter().zip(&all).enumerate().all(|(j, (a, b))| same(j / 6, a, b)));
            }
            tally.compared(answered.number, agrees, || format!("{answered:?}, expected {answer:?}"));
        }
    }
}
