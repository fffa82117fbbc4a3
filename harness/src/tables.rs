//! Comparison of the crate `list_table`, which was not ported: calls of both streams by turns against a model that keeps each stream's lists by themselves, and
//! blocks scaled by number against the functions with a list, which are compared with the Rust elsewhere.
use crate::archive::scaling::{self, Blocks};
use crate::archive::tables::{self, StoreAnswered};
use crate::archive::{Answered, CountAnswered, NumberAnswered};
use crate::blocks::Element;
use crate::random::Random;
use crate::reference;
use crate::tally::Tally;
use std::fmt::Debug;

pub const FUNCTIONS: usize = 7;
const TABLE: usize = 24 * 66;

/// The lists of one stream under their numbers.
type Stream = [Option<(Vec<u8>, u8)>; 12];

fn held<'a>(streams: &'a [Stream; 2], stream: usize, number: usize) -> Option<&'a (Vec<u8>, u8)> {
    streams.get(stream)?.get(number)?.as_ref()
}

/// The bytes of a table that holds these lists; what stands behind a free place's first byte is not told, so it is taken from `now`.
fn bytes(streams: &[Stream; 2], now: &[u8]) -> Vec<u8> {
    let mut table = now.to_vec();
    for (d, stream) in streams.iter().enumerate() {
        for (i, place) in stream.iter().enumerate() {
            let at = 66 * (12 * d + i);
            table[at] = u8::from(place.is_some());
            if let Some((list, dc)) = place {
                table[at + 1] = *dc;
                table[at + 2..at + 66].copy_from_slice(list);
            }
        }
    }
    table
}

fn any(random: &mut Random, usual: usize) -> usize {
    if random.one_in(20) { random.pick(&[usual, usual + 1, usize::MAX]) } else { random.below(usual) }
}

struct Run {
    streams: [Stream; 2],
    table: Vec<u8>,
}

/// Ten runs of calls a thousandth of the cases; the calls of one kind are told under its name.
pub fn compare(tally: &mut Tally, seed: u64, cases: usize) {
    for kind in ["store_list", "drop_list", "list_at"] {
        tally.begin(kind);
        runs(tally, seed, cases / 100, kind);
    }
    scaled(tally, seed, cases, "dequantize_by_number_i32", tables::dequantize_i32, &scaling::dequantize_scaled_into_scalar_i32);
    scaled(tally, seed, cases, "dequantize_by_number_i16", tables::dequantize_i16, &scaling::dequantize_scaled_into_scalar_i16);
    scaled(tally, seed, cases, "dequantize_transform_skip_by_number_i32", tables::dequantize_transform_skip_i32, &scaling::dequantize_transform_skip_scaled_into_scalar_i32);
    scaled(tally, seed, cases, "dequantize_transform_skip_by_number_i16", tables::dequantize_transform_skip_i16, &scaling::dequantize_transform_skip_scaled_into_scalar_i16);
}

fn begin(random: &mut Random) -> Run {
    let mut table: Vec<u8> = (0..TABLE + random.below(3)).map(|_| random.next() as u8).collect();
    for p in 0..24 {
        table[66 * p] = 0;
    }
    Run { streams: Default::default(), table }
}

/// Runs of 60 calls from an empty table; every call is made, and those of one kind are compared and told.
fn runs(tally: &mut Tally, seed: u64, count: usize, told: &str) {
    let mut random = Random::of(seed, told);
    for _ in 0..count {
        let mut run = begin(&mut random);
        for _ in 0..60 {
            let stream = any(&mut random, 2);
            match random.below(3) {
                0 => store(tally, &mut random, &mut run, stream, told == "store_list"),
                1 => drop_one(tally, &mut random, &mut run, stream, told == "drop_list"),
                _ => find(tally, &mut random, &run, stream, told == "list_at"),
            }
        }
    }
}

fn agree<A: PartialEq + Debug>(tally: &mut Tally, number: u32, found: A, expected: A, same: bool, told: bool) {
    let agrees = found == expected && same;
    if told || !agrees {
        tally.compared(number, agrees, || format!("{found:?}, expected {expected:?}, buffers as expected: {same}"));
    }
}

fn store(tally: &mut Tally, random: &mut Random, run: &mut Run, stream: usize, told: bool) {
    let len = if random.one_in(20) { random.pick(&[0, 63, 65]) } else { 64 };
    let list: Vec<u8> = (0..len).map(|_| random.next() as u8).collect();
    let dc = random.next() as u8;
    let mut short = run.table[..TABLE - 1].to_vec();
    let is_short = random.one_in(30);
    let refused = |number| StoreAnswered { number, ..StoreAnswered::default() };
    let expected = if len != 64 {
        refused(5)
    } else if is_short {
        refused(7)
    } else if stream > 1 {
        refused(18)
    } else {
        match run.streams[stream].iter().position(Option::is_none) {
            None => refused(17),
            Some(stored) => {
                run.streams[stream][stored] = Some((list.clone(), dc));
                StoreAnswered { stored, ..StoreAnswered::default() }
            }
        }
    };
    if is_short {
        let before = short.clone();
        let found = tables::store_list(&mut short, stream, &list, dc);
        agree(tally, found.number, found, expected, short == before, told);
    } else {
        let due = bytes(&run.streams, &run.table);
        let found = tables::store_list(&mut run.table, stream, &list, dc);
        agree(tally, found.number, found, expected, run.table == due, told);
    }
}

fn drop_one(tally: &mut Tally, random: &mut Random, run: &mut Run, stream: usize, told: bool) {
    let number = any(random, 12);
    let refused = held(&run.streams, stream, number).is_none();
    if !refused {
        run.streams[stream][number] = None;
    }
    let due = bytes(&run.streams, &run.table);
    let found = tables::drop_list(&mut run.table, stream, number);
    agree(tally, found.number, found, Answered { number: if refused { 18 } else { 0 }, ..Answered::default() }, run.table == due, told);
}

fn find(tally: &mut Tally, random: &mut Random, run: &Run, stream: usize, told: bool) {
    let number = any(random, 12);
    let mut out = vec![7u8; random.pick(&[64, 64, 65, 63])];
    let mut due = out.clone();
    let expected = if out.len() < 64 {
        NumberAnswered { number: 7, ..NumberAnswered::default() }
    } else if let Some((list, dc)) = held(&run.streams, stream, number) {
        due[..64].copy_from_slice(list);
        NumberAnswered { value: u32::from(*dc), ..NumberAnswered::default() }
    } else {
        NumberAnswered { number: 18, ..NumberAnswered::default() }
    };
    let found = tables::list_at(&run.table, stream, number, &mut out);
    agree(tally, found.number, found, expected, out == due, told);
}

type ByNumber<E> = fn(&[u8], usize, usize, &[i32], usize, i32, u8, bool, &mut [E]) -> CountAnswered;

fn scaled<E: Element + Debug + PartialEq>(tally: &mut Tally, seed: u64, cases: usize, name: &'static str, ours: ByNumber<E>, library: &Blocks<E>) {
    tally.begin(name);
    let mut random = Random::of(seed, name);
    for _ in 0..cases / 40 {
        let mut run = begin(&mut random);
        for stream in 0..2 {
            for number in 0..12 {
                let list: Vec<u8> = (0..64).map(|_| random.next() as u8).collect();
                run.streams[stream][number] = (!random.one_in(4)).then(|| (list, random.next() as u8));
            }
        }
        let table = bytes(&run.streams, &run.table);
        let (stream, number) = (any(&mut random, 2), any(&mut random, 12));
        let n = if random.one_in(30) { 12 } else { reference::SIZES[random.below(4)] };
        let bit_depth = random.between(7, 17) as u8;
        let extended_precision = random.one_in(3);
        let levels: Vec<i32> = (0..n * n - usize::from(random.one_in(30))).map(|_| random.next() as i32 >> random.below(32)).collect();
        let qp_prime = random.between(-9, 120) as i32;
        let mut out = vec![E::of(7); n * n + random.below(2) - usize::from(random.one_in(30))];
        let mut due: Vec<E> = out.clone();
        let place = held(&run.streams, stream, number);
        let blank = (vec![0u8; 64], 0u8);
        let (list, dc) = place.unwrap_or(&blank);
        let mut kept = due.clone();
        let mut expected = library.call(&levels, n, qp_prime, bit_depth, extended_precision, list, *dc, &mut kept);
        if expected.number == 0 && place.is_none() {
            expected = CountAnswered { number: 18, ..CountAnswered::default() };
        } else {
            due = kept;
        }
        let found = ours(&table, stream, number, &levels, n, qp_prime, bit_depth, extended_precision, &mut out);
        agree(tally, found.number, found, expected, out == due, true);
    }
}
