//! Comparison of the crates `picture` and `checksum`, which were not ported: with the rules written plainly, sums in 128 bits and one sample after the other.
use crate::archive::{self, Answered, NumberAnswered};
use crate::random::Random;
use crate::reference;
use crate::tally::Tally;

pub const FUNCTIONS: usize = 2;

pub fn compare(tally: &mut Tally, seed: u64, cases: usize) {
    blocks(tally, seed, cases);
    checksums(tally, seed, cases);
}

/// Row 13 of a plane, in numbers that hold every product.
fn plane_refused(width: usize, height: usize, stride: usize, len: usize) -> bool {
    !(1..=16_384).contains(&width) || !(1..=16_384).contains(&height) || stride < width || stride > 65_536 || (len as u128) < stride as u128 * height as u128
}

/// Annex D: the sum of all terms, then modulo 2^32.
pub fn checksum(width: usize, height: usize, stride: usize, bit_depth: u8, plane: &[u16]) -> u32 {
    let mut sum = 0u128;
    for y in 0..height {
        for x in 0..width {
            let mask = (x & 0xff) ^ (y & 0xff) ^ (x >> 8) ^ (y >> 8);
            let sample = usize::from(plane[y * stride + x]);
            sum += ((sample & 0xff) ^ mask) as u128;
            if bit_depth > 8 {
                sum += ((sample >> 8) ^ mask) as u128;
            }
        }
    }
    (sum % (1 << 32)) as u32
}

/// The same as a decoder would write it, for the timings.
pub fn plain_checksum(width: usize, height: usize, stride: usize, bit_depth: u8, plane: &[u16]) -> u32 {
    let mut sum = 0u32;
    for (y, row) in plane.chunks(stride).take(height).enumerate() {
        for (x, &sample) in row[..width].iter().enumerate() {
            let mask = ((x & 0xff) ^ (y & 0xff) ^ (x >> 8) ^ (y >> 8)) as u32;
            sum = sum.wrapping_add((u32::from(sample) & 0xff) ^ mask);
            if bit_depth > 8 {
                sum = sum.wrapping_add((u32::from(sample) >> 8) ^ mask);
            }
        }
    }
    sum
}

struct Call {
    n: usize,
    bit_depth: u8,
    residual: Vec<i32>,
    prediction: Vec<u16>,
    width: usize,
    height: usize,
    stride: usize,
    x: usize,
    y: usize,
    plane: Vec<u16>,
}

impl Call {
    fn refusal(&self) -> Answered {
        let n = self.n;
        let outside = |first: usize, side: usize| first as u128 + n as u128 > side as u128;
        let refused = |number| Answered { number, row: 0, column: 0, place: 0 };
        if !reference::SIZES.contains(&n) {
            return refused(1);
        }
        if !reference::is_depth(self.bit_depth) {
            return refused(2);
        }
        if self.residual.len() < n * n || self.prediction.len() < n * n {
            return refused(6);
        }
        if plane_refused(self.width, self.height, self.stride, self.plane.len()) || outside(self.x, self.width) || outside(self.y, self.height) {
            return refused(13);
        }
        match self.prediction[..n * n].iter().position(|&p| u32::from(p) >> self.bit_depth != 0) {
            Some(place) => Answered { number: 12, row: 0, column: 0, place },
            None => Answered::default(),
        }
    }

    /// What the call has to answer, and the plane afterwards.
    fn expected(&self) -> (Answered, Vec<u16>) {
        let (answer, mut plane) = (self.refusal(), self.plane.clone());
        if answer.number == 0 {
            for row in 0..self.n {
                for column in 0..self.n {
                    let i = row * self.n + column;
                    let sum = i128::from(self.prediction[i]) + i128::from(self.residual[i]);
                    plane[(self.y + row) * self.stride + self.x + column] = sum.clamp(0, (1 << self.bit_depth) - 1) as u16;
                }
            }
        }
        (answer, plane)
    }

    fn random(random: &mut Random) -> Call {
        let n = random.pick(&reference::SIZES);
        let bit_depth = random.between(8, 16) as u8;
        let (width, height) = (n + random.below(12), n + random.below(12));
        let stride = width + random.below(5);
        let (len, most) = (n * n + random.below(3), (1i64 << bit_depth) - 1);
        // residuals as pictures have them, of any size, or at the ends
        let shape = random.below(3);
        let residual = |random: &mut Random| match shape {
            0 => random.between(-most, most) as i32,
            1 => random.next() as i32,
            _ => random.pick(&[i32::MIN, i32::MIN + 1, -65_536, -1, 0, 1, 65_535, i32::MAX - 1, i32::MAX]),
        };
        let extra = random.below(4);
        Call {
            n,
            bit_depth,
            residual: (0..len).map(|_| residual(random)).collect(),
            prediction: (0..len).map(|_| if random.one_in(8) { random.pick(&[0, most]) as u16 } else { random.between(0, most) as u16 }).collect(),
            width,
            height,
            stride,
            x: random.below(width - n + 1),
            y: random.below(height - n + 1),
            plane: (0..stride * height + extra).map(|_| random.next() as u16).collect(),
        }
    }

    /// One argument at a border or anywhere.
    fn damage(&mut self, random: &mut Random) {
        let square = self.n * self.n;
        let any = random.next() as usize;
        match random.below(10) {
            0 => self.n = random.pick(&[0, 1, 3, 5, 12, 31, 33, 64, usize::MAX, any]),
            1 => self.bit_depth = random.pick(&[0, 7, 17, 255]),
            2 => self.residual.truncate(square - random.below(2)),
            3 => self.prediction.truncate(square - random.below(2)),
            4 => self.width = random.pick(&[0, self.x + self.n, (self.x + self.n).saturating_sub(1), self.stride, self.stride + 1, 16_385, usize::MAX, any]),
            5 => self.height = random.pick(&[0, self.y + self.n, (self.y + self.n).saturating_sub(1), self.height + 1, 16_385, usize::MAX, any]),
            6 => self.stride = random.pick(&[0, self.width, self.width - 1, 65_536, 65_537, usize::MAX, any]),
            7 => self.x = random.pick(&[self.width - self.n, self.width - self.n + 1, self.width, usize::MAX, usize::MAX - self.n + 1, any]),
            8 => self.y = random.pick(&[self.height - self.n, self.height - self.n + 1, self.height, usize::MAX, usize::MAX - self.n + 1, any]),
            _ => self.plane.truncate(self.stride * self.height - random.below(2)),
        }
    }

    /// Samples above the depth's limit, past the block too.
    fn raise(&mut self, random: &mut Random) {
        for _ in 0..=random.below(2) {
            let i = random.below(self.prediction.len());
            let any = random.next() as u16;
            self.prediction[i] = random.pick(&[u16::MAX, 1 << self.bit_depth.min(15), any]);
        }
    }
}

fn blocks(tally: &mut Tally, seed: u64, cases: usize) {
    tally.begin("picture_rebuild_block");
    let mut random = Random::of(seed, "picture_rebuild_block");
    for case in 0..cases {
        let mut call = Call::random(&mut random);
        if random.one_in(8) {
            call.raise(&mut random);
        }
        if random.one_in(3) {
            call.damage(&mut random);
        }
        let (answer, plane) = call.expected();
        let mut ours = call.plane.clone();
        let found = archive::picture::rebuild_block(call.n, call.bit_depth, &call.residual, &call.prediction, call.width, call.height, call.stride, call.x, call.y, &mut ours);
        tally.compared(found.number, found == answer && ours == plane, || {
            let at = ours.iter().zip(&plane).position(|(a, b)| a != b);
            format!(
                "case {case}: n {}, depth {}, picture {} × {} stride {}, block at {}, {}, {} places: {found:?}, expected {answer:?}, first element that differs {at:?}",
                call.n, call.bit_depth, call.width, call.height, call.stride, call.x, call.y, call.plane.len()
            )
        });
    }
}

fn checksums(tally: &mut Tally, seed: u64, cases: usize) {
    tally.begin("picture_checksum");
    let mut random = Random::of(seed, "picture_checksum");
    let mut one = |width: usize, height: usize, stride: usize, bit_depth: u8, plane: &[u16]| {
        let found = archive::picture::checksum(width, height, stride, bit_depth, plane);
        let expected = if !reference::is_depth(bit_depth) {
            NumberAnswered { number: 2, row: 0, column: 0, place: 0, value: 0 }
        } else if plane_refused(width, height, stride, plane.len()) {
            NumberAnswered { number: 13, row: 0, column: 0, place: 0, value: 0 }
        } else {
            NumberAnswered { number: 0, row: 0, column: 0, place: 0, value: checksum(width, height, stride, bit_depth, plane) }
        };
        tally.compared(found.number, found == expected, || format!("{width} × {height} stride {stride}, depth {bit_depth}, {} places: {found:?}, expected {expected:?}", plane.len()));
    };

    // every depth, and the largest sides and stride
    let long: Vec<u16> = (0..65_537).map(|_| random.next() as u16).collect();
    for bit_depth in 0..=255 {
        one(40, 9, 41, bit_depth, &long);
    }
    for (width, height, stride) in [(16_384, 1, 16_384), (16_385, 1, 16_385), (1, 16_384, 1), (1, 16_385, 1), (16_384, 4, 16_384), (1, 1, 65_536), (1, 1, 65_537), (300, 200, 327), (129, 500, 131)] {
        one(width, height, stride, 8, &long);
        one(width, height, stride, 10, &long);
    }

    // each term 510, the largest, until the sum passes 2^32
    let (width, height) = (16_384, 515);
    let full: Vec<u16> = (0..width * height).map(|i| 0x101 * (0xff ^ (i % width & 0xff) ^ (i / width & 0xff) ^ (i % width >> 8) ^ (i / width >> 8)) as u16).collect();
    one(width, height, width, 16, &full);

    for _ in 0..cases / 20 {
        let (columns, rows) = (random.pick(&[40, 40, 40, 600]), if random.one_in(20) { 600 } else { 12 });
        let (width, height) = (1 + random.below(columns), 1 + random.below(rows));
        let stride = width + random.below(9);
        let extra = random.below(3);
        let plane: Vec<u16> = (0..stride * height + extra).map(|_| random.next() as u16).collect();
        let bit_depth = random.between(8, 16) as u8;
        one(width, height, stride, bit_depth, &plane);
        let any = random.next() as usize;
        match random.below(12) {
            0 => one(random.pick(&[0, stride + 1, 16_385, usize::MAX, any]), height, stride, bit_depth, &plane),
            1 => one(width, random.pick(&[0, height + 1, 16_385, usize::MAX, any]), stride, bit_depth, &plane),
            2 => one(width, height, random.pick(&[0, width - 1, stride + 1, 65_537, usize::MAX, any]), bit_depth, &plane),
            3 => one(width, height, stride, bit_depth, &plane[..stride * height - 1]),
            4 => one(width, height, stride, random.next() as u8, &plane),
            _ => {}
        }
    }
}
