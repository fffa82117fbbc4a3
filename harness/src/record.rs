//! Writes the recorded cases of crates/oracle_cases: calls with what the oracle answered, and the stdout that the program must write.
//! The format stands at the head of crates/oracle_cases/src/main.rt. The list of cases is fixed: it depends on no argument.
use crate::blocks;
use crate::random::Random;
use crate::reference;
#[cfg(has_scaling)]
use crate::scaling;
#[cfg(has_transform)]
use crate::transform;
use std::path::Path;

/// What every place of an output holds before the call.
const MARK: i64 = 77;

const NAMES: [&str; 19] = [
    "max_log2_transform_dynamic_range",
    "dequant_params",
    "transform_skip_params",
    "scaling_coeff",
    "scale_level",
    "dequantize_into_scalar_i32",
    "dequantize_scaled_into_scalar_i32",
    "dequantize_transform_skip_into_scalar_i32",
    "dequantize_transform_skip_scaled_into_scalar_i32",
    "dequantize_into_scalar_i16",
    "dequantize_scaled_into_scalar_i16",
    "dequantize_transform_skip_into_scalar_i16",
    "dequantize_transform_skip_scaled_into_scalar_i16",
    "inv_transform_into_scalar",
    "inv_transform_into_scalar_extended",
    "inv_transform_dst_into_scalar",
    "inv_transform_dst_into_scalar_extended",
    "inv_transform_into_scalar16",
    "inv_transform_dst_into_scalar16",
];

/// What a head says: see `Case` of the program.
#[derive(Clone, Copy, Default)]
struct Head {
    bit_depth: u8,
    extended_precision: bool,
    byte: u8,
    n: u32,
    qp: i32,
    count: u32,
    level: i32,
}

/// `told` is what scaling limited, by a plain writing of the rule, since the Rust does not say.
#[derive(Default)]
struct Answer {
    number: u32,
    row: u8,
    column: u8,
    told: Vec<u16>,
    values: Vec<i64>,
}

struct Recorder {
    file: Vec<u8>,
    lines: String,
    cases: usize,
}

impl Recorder {
    /// `input_width` and `output_width` are the bytes of an element.
    fn case(&mut self, name: &str, head: Head, list: &[u8], input: &[i64], input_width: usize, answer: Answer, output_width: usize) {
        let function = NAMES.iter().position(|&n| n == name).expect("a function of the list") as u8;
        let text = format!(
            "{name} {} {} {} {} {} {} {}:",
            head.n,
            head.bit_depth,
            u8::from(head.extended_precision),
            head.byte,
            head.qp,
            head.count,
            head.level,
        );
        self.file.push(text.len() as u8);
        self.file.extend(text.as_bytes());
        self.file.extend([function, head.bit_depth, u8::from(head.extended_precision), head.byte]);
        self.file.extend((head.n as u16).to_le_bytes());
        self.file.extend((head.count as u16).to_le_bytes());
        self.file.extend(head.qp.to_le_bytes());
        self.file.extend(head.level.to_le_bytes());
        let lists = function == 3 || (5..13).contains(&function);
        let blocks = function > 4;
        let wide = (13..17).contains(&function);
        if lists || wide {
            self.file.extend((list.len() as u16).to_le_bytes());
        }
        if blocks {
            self.file.extend((input.len() as u16).to_le_bytes());
            self.file.extend((answer.values.len() as u16).to_le_bytes());
        }
        self.file.extend(list);
        for value in input {
            self.file.extend(&value.to_le_bytes()[..input_width]);
        }
        for value in &answer.values {
            self.file.extend(&value.to_le_bytes()[..output_width]);
        }
        let equal = " equal".repeat(if blocks { 1 } else { answer.values.len() });
        let told: String = answer.told.iter().map(|v| format!(" {v}")).collect();
        self.lines += &format!("{text} {} {} {}{told}{equal}\n", answer.number, answer.row, answer.column);
        self.cases += 1;
    }
}

const DEPTHS_AND_ONE_PAST: std::ops::RangeInclusive<u8> = 7..=17;
const BORDER_QPS: [i32; 12] = [0, 4, 5, 6, 51, 52, 57, 99, 100, -1, i32::MIN, i32::MAX];

fn refused(number: u32, count: usize) -> Answer {
    Answer { number, values: vec![0; count], ..Answer::default() }
}

fn small_refusal(n: usize, bit_depth: u8) -> u32 {
    if !reference::is_size(n) {
        1
    } else if !reference::is_depth(bit_depth) {
        2
    } else {
        0
    }
}

fn parameters(to: &mut Recorder) {
    for bit_depth in DEPTHS_AND_ONE_PAST {
        for extended_precision in [false, true] {
            let head = Head { bit_depth, extended_precision, ..Head::default() };
            let answer = if reference::is_depth(bit_depth) {
                let value = oracle::max_log2_transform_dynamic_range(bit_depth, extended_precision);
                Answer { number: 0, row: 0, column: 0, told: Vec::new(), values: vec![i64::from(value)] }
            } else {
                refused(2, 1)
            };
            to.case(NAMES[0], head, &[], &[], 4, answer, 4);
        }
    }
    let mut turn = 0;
    for n in [4, 8, 16, 32, 0, 12, 33] {
        for bit_depth in DEPTHS_AND_ONE_PAST {
            for extended_precision in [false, true] {
                let qp = BORDER_QPS[turn % BORDER_QPS.len()];
                turn += 1;
                if !reference::is_size(n) && turn % 11 != 0 {
                    continue;
                }
                let head = Head { bit_depth, extended_precision, n: n as u32, qp, ..Head::default() };
                let number = small_refusal(n, bit_depth);
                let (plain, skip) = if number == 0 {
                    let p = oracle::dequant_params(n, qp, bit_depth, extended_precision);
                    let s = oracle::transform_skip_params(n, qp, bit_depth, extended_precision);
                    let plain = vec![p.factor, p.add, i64::from(p.shift), p.clip_min, p.clip_max];
                    let mut skip = vec![s.factor, s.add, i64::from(s.shift), s.clip_min, s.clip_max];
                    skip.extend([i64::from(s.tr_add), i64::from(s.tr_shift)]);
                    (Answer { number, row: 0, column: 0, told: Vec::new(), values: plain }, Answer { number, row: 0, column: 0, told: Vec::new(), values: skip })
                } else {
                    (refused(number, 5), refused(number, 7))
                };
                to.case(NAMES[1], head, &[], &[], 4, plain, 4);
                to.case(NAMES[2], head, &[], &[], 4, skip, 4);
            }
        }
    }
}

#[cfg(has_scaling)]
fn factors(to: &mut Recorder) {
    let list: Vec<u8> = (0..64).map(|i| i * 3).collect();
    for n in [4usize, 8, 16, 32, 12] {
        for index in [0, 1, n - 1, n, n + 1, 17, n * n - 1, n * n] {
            for len in [64, 63] {
                if len == 63 && index != 1 {
                    continue;
                }
                let head = Head { byte: 250, n: n as u32, count: index as u32, ..Head::default() };
                let number = if !reference::is_size(n) {
                    1
                } else if len != 64 {
                    5
                } else if index >= n * n {
                    8
                } else {
                    0
                };
                let answer = if number == 0 {
                    let value = oracle::scaling_coeff(list[..].try_into().expect("64"), 250, n, index);
                    Answer { number, row: 0, column: 0, told: Vec::new(), values: vec![value] }
                } else {
                    refused(number, 1)
                };
                to.case("scaling_coeff", head, &list[..len], &[], 4, answer, 4);
            }
        }
    }
}

#[cfg(has_scaling)]
fn levels(to: &mut Recorder) {
    const LEVELS: [i32; 13] = [1, -1, 0, 40000, -40000, 32767, 32768, -32768, -32769, 4194304, -4194305, i32::MAX, i32::MIN];
    const FACTORS: [u8; 5] = [16, 1, 255, 17, 0];
    let mut turn = 0;
    for n in [4usize, 8, 16, 32, 12] {
        for bit_depth in DEPTHS_AND_ONE_PAST {
            for extended_precision in [false, true] {
                turn += 1;
                let (level, byte, qp) = (LEVELS[turn % 13], FACTORS[turn % 5], BORDER_QPS[turn % 12]);
                let head = Head { bit_depth, extended_precision, byte, n: n as u32, qp, level, ..Head::default() };
                let number = small_refusal(n, bit_depth);
                let answer = if number == 0 {
                    let mut out = vec![0; n * n];
                    oracle::dequantize_scaled_into_scalar_i32(&vec![level; n * n], n, qp, bit_depth, extended_precision, &[byte; 64], byte, &mut out);
                    let rule = reference::scaled(level, byte, n, qp, bit_depth, extended_precision);
                    let told = vec![u16::from(rule.level_limited), u16::from(rule.result_limited)];
                    Answer { number, told, values: vec![i64::from(out[0])], ..Answer::default() }
                } else {
                    Answer { told: vec![0, 0], ..refused(number, 1) }
                };
                to.case("scale_level", head, &[], &[], 4, answer, 4);
            }
        }
    }
}

#[cfg(has_scaling)]
fn scaled_block<E: blocks::Element>(to: &mut Recorder, scaler: &scaling::Scaler<E>, call: &scaling::Call) {
    let number = call.refusal(E::NARROW, scaler.listed);
    let mut out = vec![E::of(MARK); call.out_len];
    if number == 0 {
        let flat = [16; 64];
        let list = if scaler.listed { call.list[..].try_into().expect("64") } else { &flat };
        (scaler.oracle)(&call.levels, call.n, call.qp_prime, call.bit_depth, call.extended_precision, list, call.dc, &mut out);
    }
    let head = Head {
        bit_depth: call.bit_depth,
        extended_precision: call.extended_precision,
        byte: call.dc,
        n: call.n as u32,
        qp: call.qp_prime,
        ..Head::default()
    };
    let input: Vec<i64> = call.levels.iter().map(|&v| i64::from(v)).collect();
    let limited = if number == 0 {
        reference::limited(&call.levels, scaler.listed.then_some((&call.list[..], call.dc)), call.n, call.qp_prime, call.bit_depth, call.extended_precision)
    } else {
        0
    };
    let answer = Answer { number, told: vec![limited], values: out.iter().map(|v| v.long()).collect(), ..Answer::default() };
    to.case(scaler.name, head, &call.list, &input, 4, answer, size_of::<E>());
}

#[cfg(has_scaling)]
fn scaled_blocks<E: blocks::Element>(to: &mut Recorder, scaler: &scaling::Scaler<E>, random: &mut Random) {
    let settings: Vec<(u8, bool)> = if E::NARROW {
        vec![(8, false), (9, false)]
    } else {
        reference::DEPTHS.flat_map(|b| [(b, false), (b, true)]).collect()
    };
    let call = |random: &mut Random, n: usize, (bit_depth, extended_precision): (u8, bool), turn: usize| {
        let r = reference::range(bit_depth, extended_precision);
        let shape = blocks::SHAPES[turn % blocks::SHAPES.len()];
        let past = if turn % 3 == 0 { 3 } else { 0 };
        scaling::Call {
            levels: blocks::block(random, shape, n, n * n, -(1i64 << r) - past, (1i64 << r) - 1 + past),
            n,
            qp_prime: if turn % 4 == 3 { BORDER_QPS[turn % BORDER_QPS.len()] } else { random.between(0, 60) as i32 },
            bit_depth,
            extended_precision,
            list: if scaler.listed { blocks::list(random, 64) } else { Vec::new() },
            dc: random.below(256) as u8,
            out_len: n * n + if n < 32 { turn % 4 } else { 0 },
        }
    };
    let mut turn = random.below(12);
    for (n, every) in [(4, 1), (8, 2), (16, 4), (32, 8)] {
        let repeats = if E::NARROW { 3 } else { 1 };
        for at in (0..settings.len() * repeats).step_by(if E::NARROW { 1 } else { every }) {
            turn += 1;
            let made = call(random, n, settings[(at + turn) % settings.len()], turn);
            scaled_block(to, scaler, &made);
        }
    }
    // each row of the table of refusals, one condition at a time, at its border
    // none, one and all of a block limited
    for n in reference::SIZES {
        for (which, level) in [(0, 0), (1, 40000), (2, -40000)] {
            let mut made = call(random, n, settings[n % settings.len()], turn);
            let limit = |i: usize| if which == 2 || (which == 1 && i == n + 1) { level << 8 } else { 0 };
            made.levels = (0..n * n).map(limit).collect();
            scaled_block(to, scaler, &made);
        }
    }
    type Damage = fn(&mut scaling::Call);
    let damages: [Damage; 9] = [
        |c| c.n = 12,
        |c| c.n = 0,
        |c| c.bit_depth = 7,
        |c| c.bit_depth = 17,
        |c| c.bit_depth = 10,
        |c| c.extended_precision = true,
        |c| c.list.truncate(63),
        |c| c.levels.truncate(15),
        |c| c.out_len = 15,
    ];
    for (at, damage) in damages.iter().enumerate() {
        let mut made = call(random, 4, settings[0], at);
        made.out_len = 16;
        damage(&mut made);
        scaled_block(to, scaler, &made);
    }
}

#[cfg(has_transform)]
fn transformed_block<E: blocks::Element>(to: &mut Recorder, transform: &transform::Transform<E>, call: &transform::Call<E>) {
    let answered = call.answered(transform.dst, transform.extended);
    let mut out = vec![MARK; call.out_len];
    let input: Vec<i64> = call.coeff.iter().map(|v| v.long()).collect();
    if answered.number == 0 {
        let square = call.n * call.n;
        if reference::oracle_can_overflow(call.n, call.bit_depth, transform.extended) {
            let matrix = reference::matrix(call.n, transform.dst);
            let exact = reference::residual(&matrix, &input, call.n, call.bit_depth, reference::range(call.bit_depth, true), call.nx);
            out[..square].copy_from_slice(&exact.values);
        } else {
            let mut block = vec![E::of(0); square];
            (transform.oracle)(&call.coeff, call.n, call.bit_depth, call.nx, &mut block);
            for (to, from) in out.iter_mut().zip(&block) {
                *to = from.long();
            }
        }
    }
    let head = Head { bit_depth: call.bit_depth, n: call.n as u32, count: call.nx as u32, ..Head::default() };
    let answer = Answer { number: answered.number, row: answered.row, column: answered.column, told: Vec::new(), values: out };
    to.case(transform.name, head, &[], &input, size_of::<E>(), answer, size_of::<E>());
}

#[cfg(has_transform)]
fn transformed_blocks<E: blocks::Element>(to: &mut Recorder, transform: &transform::Transform<E>, random: &mut Random) {
    let deepest = if E::NARROW { 9 } else { 16 };
    let sizes: &[(usize, usize)] = if transform.dst { &[(4, 4)] } else { &[(4, 4), (8, 2), (16, 1), (32, 1)] };
    let call = |random: &mut Random, n: usize, bit_depth: u8, turn: usize| {
        let r = reference::range(bit_depth, transform.extended);
        let shape = blocks::SHAPES[turn % blocks::SHAPES.len()];
        transform::Call::<E> {
            coeff: blocks::block(random, shape, n, n * n, -(1i64 << r), (1i64 << r) - 1),
            n,
            bit_depth,
            nx: if transform.dst { 4 } else { [n, n, n - 1, 1, n + 1, n / 2, 0][turn % 7] },
            out_len: n * n + if n < 32 { turn % 6 } else { 0 },
        }
    };
    let mut turn = random.below(12);
    for &(n, repeats) in sizes {
        for bit_depth in 8..=deepest {
            for _ in 0..repeats * if E::NARROW { 3 } else { 1 } {
                turn += 1;
                transformed_block(to, transform, &call(random, n, bit_depth, turn));
            }
        }
    }
    if transform.extended && !transform.dst {
        // the smallest blocks that take the oracle's sums past 32 bits, and the largest that do not
        for (n, bit_depth, value) in [(32, 15, 79_284), (16, 16, 311_089), (32, 16, 79_283)] {
            transformed_block(to, transform, &transform::Call { coeff: vec![E::of(value); n * n], n, bit_depth, nx: n, out_len: n * n });
        }
    }
    type Damage<E> = fn(&mut transform::Call<E>);
    let damages: [Damage<E>; 9] = [
        |c| c.n = 12,
        |c| c.n = 0,
        |c| c.bit_depth = 7,
        |c| c.bit_depth = 17,
        |c| c.bit_depth = 10,
        |c| c.coeff.truncate(15),
        |c| c.out_len = 15,
        |c| c.coeff[6] = E::of(1 << 30),
        |c| {
            c.coeff[3] = E::of(1 << 30);
            c.nx = 3;
        },
    ];
    for (at, damage) in damages.iter().enumerate() {
        if transform.dst && at < 2 {
            continue;
        }
        let mut made = call(random, 4, 8, 0);
        made.nx = 4;
        made.out_len = 16;
        damage(&mut made);
        transformed_block(to, transform, &made);
    }
}

/// Writes stdin and stdout of the crate folder.
pub fn record(folder: &Path) -> std::io::Result<()> {
    let mut random = Random::of(1, "record");
    let mut recorder = Recorder { file: Vec::new(), lines: String::new(), cases: 0 };
    parameters(&mut recorder);
    #[cfg(has_scaling)]
    {
        factors(&mut recorder);
        levels(&mut recorder);
        for scaler in &scaling::WIDE {
            scaled_blocks(&mut recorder, scaler, &mut random);
        }
        for scaler in &scaling::NARROW {
            scaled_blocks(&mut recorder, scaler, &mut random);
        }
    }
    #[cfg(has_transform)]
    {
        for transform in &transform::WIDE {
            transformed_blocks(&mut recorder, transform, &mut random);
        }
        for transform in &transform::NARROW {
            transformed_blocks(&mut recorder, transform, &mut random);
        }
    }
    println!("recorded: {} cases, {} bytes", recorder.cases, recorder.file.len());
    std::fs::create_dir_all(folder)?;
    std::fs::write(folder.join("stdin"), &recorder.file)?;
    std::fs::write(folder.join("stdout"), &recorder.lines)
}
