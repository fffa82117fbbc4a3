//! Comparison of the crates of edited blocks: openings on coefficients and on levels, and lists of edits of both kinds, record and buffers passed on from call
//! to call. After each edit levels or coefficients are those of a list kept here, the coefficients of levels a fresh scaling by the oracle, the
//! intermediate a plain stage one over them, and the residual a fresh decode by the oracle, or by the plain sum where the oracle's sums can overflow.
//! Then the same list goes through one call. Apart from that, single edits get records and buffers that no call left: short, spoiled, of a refused size or depth.
use crate::archive::Answered;
use crate::archive::edits::{self, Block, BlockAnswered, Form, Held, LevelEditAnswered, List, ListAnswered};
use crate::blocks::{self, Element, Lent, SHAPES};
use crate::random::Random;
use crate::reference;
use crate::tally::Tally;

pub const FUNCTIONS: usize = 9;

/// Longest list of edits that is played.
const LIST: usize = 60;

/// How a block is opened.
#[derive(Clone, Copy, PartialEq, Debug)]
enum Way {
    Coefficients,
    Levels,
    ScaledLevels,
}

/// What an opening fixes.
#[derive(Clone, Debug)]
struct Opening {
    dst: bool,
    n: usize,
    bit_depth: u8,
    extended: bool,
    way: Way,
    qp_prime: i32,
    list: Vec<u8>,
    dc: u8,
}

impl Opening {
    fn random(random: &mut Random, way: Way) -> Opening {
        let dst = random.one_in(5);
        Opening {
            dst,
            n: if dst { 4 } else { random.pick(&reference::SIZES) },
            bit_depth: random.between(8, 16) as u8,
            extended: random.one_in(2),
            way,
            qp_prime: blocks::any_qp_prime(random),
            list: blocks::list(random, 64),
            dc: random.below(256) as u8,
        }
    }

    fn form(&self) -> Form {
        Form { dst: self.dst, n: self.n, bit_depth: self.bit_depth, extended: self.extended }
    }

    fn on_levels(&self) -> bool {
        self.way != Way::Coefficients
    }

    fn range(&self) -> u32 {
        reference::range(self.bit_depth, self.extended)
    }

    fn ends(&self) -> (i64, i64) {
        (-(1i64 << self.range()), (1i64 << self.range()) - 1)
    }

    /// Rows 1, 2, 4, 5, 6 and 7, by the length of a list and of the buffers.
    fn refusal(&self, list_len: usize, input_len: usize, output_len: usize) -> u32 {
        let block = |list_len| reference::Block { n: self.n, bit_depth: self.bit_depth, narrow: false, extended_precision: self.extended, list_len, input_len, output_len }.refusal();
        match block(list_len) {
            number @ (1 | 2) => number,
            _ if self.dst && self.n != 4 => 4,
            number => number,
        }
    }

    /// Those of an opening.
    fn opening_refusal(&self, b: &Buffers) -> u32 {
        let list_len = if self.way == Way::ScaledLevels { self.list.len() } else { 64 };
        let levels = if self.on_levels() { b.levels.seen().len() } else { usize::MAX };
        self.refusal(list_len, levels.min(b.coeff.seen().len()), b.inter.seen().len().min(b.residual.seen().len()))
    }

    /// Those of an edit, which looks at the levels of a block that was opened on levels if it is an edit of one.
    fn edit_refusal(&self, level: bool, b: &Buffers) -> u32 {
        let levels = if level && self.on_levels() { b.levels.seen().len() } else { usize::MAX };
        self.refusal(64, levels.min(b.coeff.seen().len()), b.inter.seen().len().min(b.residual.seen().len()))
    }

    /// The record, in which what an opening is not given is 0.
    fn block(&self, columns: usize) -> Block {
        let mut block = Block { dst: self.dst, size: self.n, depth: self.bit_depth, extended: self.extended, columns, ..Block::default() };
        if self.on_levels() {
            (block.levels, block.qp_prime) = (true, self.qp_prime);
        }
        if self.way == Way::ScaledLevels {
            (block.listed, block.dc) = (true, self.dc);
            block.entries.copy_from_slice(&self.list);
        }
        block
    }

    fn answered(&self, (number, row, column): Told, columns: usize) -> Edited {
        Edited { number, row, column, place: 0, block: self.block(columns), flags: (false, false) }
    }

    /// The coefficient of a level at an index before the last limit, by the numbers of the oracle, and whether the level was limited.
    fn unlimited(&self, level: i32, at: usize) -> (i64, bool) {
        let (lo, hi) = self.ends();
        let p = oracle::dequant_params(self.n, self.qp_prime, self.bit_depth, self.extended);
        let m = if self.way == Way::ScaledLevels { oracle::scaling_coeff(self.list.as_slice().try_into().expect("64"), self.dc, self.n, at) } else { 16 };
        let near = i64::from(level).clamp(lo, hi);
        ((near * (p.factor / 16) * m + p.add) >> p.shift, near != i64::from(level))
    }

    /// Whether a level was limited, and whether its result was.
    fn flags(&self, level: i32, at: usize) -> (bool, bool) {
        let (lo, hi) = self.ends();
        let (result, limited) = self.unlimited(level, at);
        (limited, !(lo..=hi).contains(&result))
    }

    /// How many coefficients of levels were limited.
    fn limited_count(&self, levels: &[i32]) -> u16 {
        (0..self.n * self.n).filter(|&i| self.flags(levels[i], i) != (false, false)).count() as u16
    }

    fn limited(&self, xs: &[i32]) -> Vec<i64> {
        let (lo, hi) = self.ends();
        xs[..self.n * self.n].iter().map(|&v| i64::from(v).clamp(lo, hi)).collect()
    }
}

/// What an edit of either kind answers.
#[derive(Clone, Copy, PartialEq, Debug)]
struct Edited {
    number: u32,
    row: u8,
    column: u8,
    place: usize,
    block: Block,
    flags: (bool, bool),
}

impl Edited {
    fn of_level(a: LevelEditAnswered) -> Edited {
        Edited { number: a.number, row: a.row, column: a.column, place: a.place, block: a.block, flags: (a.level_limited, a.result_limited) }
    }

    /// Of a coefficient, which limits nothing.
    fn of_coefficient(a: BlockAnswered) -> Edited {
        assert_eq!(a.limited, 0);
        Edited { number: a.number, row: a.row, column: a.column, place: a.place, block: a.block, flags: (false, false) }
    }
}

fn column_count(coeff: &[i32], n: usize) -> usize {
    (0..n).rev().find(|&c| (0..n).any(|k| coeff[k * n + c] != 0)).map_or(0, |c| c + 1)
}

/// Levels, coefficients, intermediate and residual.
struct Buffers {
    levels: Lent<i32>,
    coeff: Lent<i32>,
    inter: Lent<i32>,
    residual: Lent<i32>,
}

impl Buffers {
    fn copy(&self) -> Buffers {
        Buffers { levels: self.levels.copy(), coeff: self.coeff.copy(), inter: self.inter.copy(), residual: self.residual.copy() }
    }

    fn same(&self, other: &Buffers) -> bool {
        self.levels.first_difference(&other.levels).is_none()
            && self.coeff.first_difference(&other.coeff).is_none()
            && self.inter.first_difference(&other.inter).is_none()
            && self.residual.first_difference(&other.residual).is_none()
    }

    fn held(&mut self) -> Held<'_> {
        Held { levels: self.levels.lend(), coeff: self.coeff.lend(), inter: self.inter.lend(), residual: self.residual.lend() }
    }
}

#[derive(Clone, Copy, Debug)]
struct Edit {
    row: usize,
    column: usize,
    value: i32,
    level: bool,
}

/// One in twelve does not fit the way the block was opened.
fn random_edit(random: &mut Random, o: &Opening) -> Edit {
    let (lo, hi) = o.ends();
    let level = o.on_levels() != random.one_in(12);
    let mut place = || if random.one_in(20) { random.pick(&[o.n, o.n + 1, 2 * o.n, usize::MAX]) } else { random.below(o.n) };
    let (row, column) = (place(), place());
    let value = match random.below(8) {
        0 => random.pick(&[lo, hi, lo - 1, hi + 1, i64::from(i32::MIN), i64::from(i32::MAX)]),
        1 | 2 => 0,
        3 => random.between(-3, 3),
        _ => blocks::any_magnitude(random, lo, hi),
    };
    Edit { row, column, value: value as i32, level }
}

/// A number of the table, with the row and the column that it names.
type Told = (u32, u8, u8);

/// The answer to an edit of a block that is open: rows 10, 8, 9 and 19, or 0.
fn answer_to(o: &Opening, e: &Edit) -> Told {
    let (lo, hi) = o.ends();
    if e.level != o.on_levels() {
        (10, 0, 0)
    } else if e.row >= o.n || e.column >= o.n {
        (8, 0, 0)
    } else if !e.level && !(lo..=hi).contains(&i64::from(e.value)) {
        (reference::side(i64::from(e.value)), e.row as u8, e.column as u8)
    } else {
        (0, 0, 0)
    }
}

/// The first n² of a buffer, put in place.
fn put(to: &mut Lent<i32>, values: impl Iterator<Item = i64>) {
    for (to, from) in to.lend().iter_mut().zip(values) {
        *to = from as i32;
    }
}

/// The coefficients of levels, by the oracle.
fn scaled(o: &Opening, levels: &[i32]) -> Vec<i32> {
    let square = o.n * o.n;
    let mut out = vec![0i32; square];
    let (list, scale): (_, fn(&[i32], usize, i32, u8, bool, &[u8; 64], u8, &mut [i32])) = match o.way {
        Way::ScaledLevels => (o.list.as_slice().try_into().expect("64"), oracle::dequantize_scaled_into_scalar_i32),
        _ => (&[0u8; 64], oracle::dequantize_into_scalar_i32),
    };
    scale(&levels[..square], o.n, o.qp_prime, o.bit_depth, o.extended, list, o.dc, &mut out);
    out
}

/// All that follows from levels or coefficients: coefficients, intermediate and residual. The oracle decides the residual where its sums cannot overflow.
fn fresh(o: &Opening, matrix: &[i128], buffers: &mut Buffers) {
    let square = o.n * o.n;
    if o.on_levels() {
        let coeff = scaled(o, buffers.levels.seen());
        buffers.coeff.lend()[..square].copy_from_slice(&coeff);
    }
    let coeff = &buffers.coeff.seen()[..square];
    let long: Vec<i64> = coeff.iter().map(|&v| v.long()).collect();
    let exact = reference::residual(matrix, &long, o.n, o.bit_depth, o.range(), o.n);
    let residual = if reference::oracle_can_overflow(o.n, o.bit_depth, o.extended) {
        exact.values
    } else {
        let mut out = vec![0i32; square];
        let decode = match (o.dst, o.extended) {
            (false, false) => oracle::inv_transform_into_scalar,
            (false, true) => oracle::inv_transform_into_scalar_extended,
            (true, false) => oracle::inv_transform_dst_into_scalar,
            (true, true) => oracle::inv_transform_dst_into_scalar_extended,
        };
        decode(coeff, o.n, o.bit_depth, o.n, &mut out);
        out.iter().map(|&v| v.long()).collect()
    };
    put(&mut buffers.inter, exact.intermediate.into_iter());
    put(&mut buffers.residual, residual.into_iter());
}

fn open(o: &Opening, b: &mut Buffers) -> BlockAnswered {
    match o.way {
        Way::Coefficients => edits::open_block(o.form(), b.coeff.seen(), b.inter.lend(), b.residual.lend()),
        Way::Levels => edits::open_levels(o.form(), o.qp_prime, b.held()),
        Way::ScaledLevels => edits::open_levels_scaled(o.form(), o.qp_prime, &o.list, o.dc, b.held()),
    }
}

fn edit(block: Block, b: &mut Buffers, e: &Edit) -> Edited {
    if e.level {
        Edited::of_level(edits::edit_level(block, b.held(), e.row, e.column, e.value))
    } else {
        Edited::of_coefficient(edits::edit(block, b.coeff.lend(), b.inter.lend(), b.residual.lend(), e.row, e.column, e.value))
    }
}

fn lent(random: &mut Random, o: &Opening) -> Buffers {
    let square = o.n * o.n;
    let mut long = || square + random.pick(&[0, 0, 1, 7]);
    let (levels_len, coeff_len, inter_len, residual_len) = (long(), long(), long(), long());
    let mut buffers = Buffers {
        levels: Lent::filled(random, levels_len),
        coeff: Lent::filled(random, coeff_len),
        inter: Lent::filled(random, inter_len),
        residual: Lent::filled(random, residual_len),
    };
    let shape = random.pick(&SHAPES);
    if o.on_levels() {
        // levels far outside the range now and then
        let (lo, hi) = if random.one_in(8) { (i64::from(i32::MIN), i64::from(i32::MAX)) } else { o.ends() };
        buffers.levels.lend()[..square].copy_from_slice(&blocks::block::<i32>(random, shape, o.n, square, lo, hi));
    } else {
        let (lo, hi) = o.ends();
        buffers.coeff.lend()[..square].copy_from_slice(&blocks::block::<i32>(random, shape, o.n, square, lo, hi));
    }
    buffers
}

/// An opening with its buffers, one in four of them damaged.
fn perhaps_damaged(random: &mut Random, way: Way) -> (Opening, Buffers) {
    let mut o = Opening::random(random, way);
    let mut buffers = lent(random, &o);
    if random.one_in(4) {
        damage(random, &mut o, &mut buffers);
    }
    (o, buffers)
}

struct Matrices(Vec<(bool, usize, Vec<i128>)>);

impl Matrices {
    fn new() -> Matrices {
        let kinds = reference::SIZES.iter().map(|&n| (false, n)).chain([(true, 4)]);
        Matrices(kinds.map(|(dst, n)| (dst, n, reference::matrix(n, dst))).collect())
    }

    fn of(&self, o: &Opening) -> &[i128] {
        &self.0.iter().find(|(dst, n, _)| (*dst, *n) == (o.dst, o.n)).expect("a size").2
    }
}

pub fn compare(tally: &mut Tally, seed: u64, cases: usize) {
    let matrices = Matrices::new();
    openings(tally, &matrices, "open_block", Way::Coefficients, seed, cases / 8);
    openings(tally, &matrices, "open_levels", Way::Levels, seed, cases / 16);
    openings(tally, &matrices, "open_levels_scaled", Way::ScaledLevels, seed, cases / 16);
    let mut runs = single_edits(tally, &matrices, "edit", &[Way::Coefficients], seed, cases / 40);
    runs.extend(single_edits(tally, &matrices, "edit_level", &[Way::Levels, Way::ScaledLevels], seed, cases / 40));
    let mut random = Random::of(seed, "lists");
    for (name, way) in [("open_and_edit", Way::Coefficients), ("open_levels_and_edit", Way::Levels), ("open_levels_scaled_and_edit", Way::ScaledLevels)] {
        tally.begin(name);
        for run in runs.iter().filter(|run| run.opening.way == way) {
            one_call(tally, &mut random, run);
        }
    }
    refreshes(tally, &matrices, seed, cases / 8);
}

/// Stage two alone, over intermediates with values past the range as well.
fn refreshes(tally: &mut Tally, matrices: &Matrices, seed: u64, cases: usize) {
    tally.begin("refresh_residual");
    let mut random = Random::of(seed, "refresh_residual");
    for _ in 0..cases {
        let (o, mut ours) = perhaps_damaged(&mut random, Way::Coefficients);
        let mut expected = ours.copy();
        let number = o.refusal(64, usize::MAX, ours.inter.seen().len().min(ours.residual.seen().len()));
        if number == 0 {
            let values = reference::stage_two(matrices.of(&o), &o.limited(ours.inter.seen()), o.n, o.bit_depth, o.range());
            put(&mut expected.residual, values.into_iter());
        }
        let answered = edits::refresh_residual(o.dst, o.n, o.bit_depth, o.extended, ours.inter.seen(), ours.residual.lend());
        tally.compared(answered.number, answered == Answered { number, ..Answered::default() } && ours.same(&expected), || format!("{o:?}: {answered:?}, expected {number}"));
    }
}

fn openings(tally: &mut Tally, matrices: &Matrices, name: &'static str, way: Way, seed: u64, cases: usize) {
    tally.begin(name);
    let mut random = Random::of(seed, name);
    for _ in 0..cases {
        let (o, mut ours) = perhaps_damaged(&mut random, way);
        let mut expected = ours.copy();
        let number = o.opening_refusal(&ours);
        let outside = if number == 0 && !o.on_levels() {
            let long: Vec<i64> = ours.coeff.seen().iter().map(|&v| v.long()).collect();
            reference::outside(&long, o.n, o.n, o.range())
        } else {
            None
        };
        let answer = match (number, outside) {
            (0, None) => {
                fresh(&o, matrices.of(&o), &mut expected);
                let limited = if o.on_levels() { o.limited_count(ours.levels.seen()) } else { 0 };
                BlockAnswered { limited, block: o.block(column_count(expected.coeff.seen(), o.n)), ..BlockAnswered::default() }
            }
            (0, Some(at)) => {
                let value = i64::from(ours.coeff.seen()[at]);
                BlockAnswered { number: reference::side(value), row: (at / o.n) as u8, column: (at % o.n) as u8, ..BlockAnswered::default() }
            }
            _ => BlockAnswered { number, ..BlockAnswered::default() },
        };
        let answered = open(&o, &mut ours);
        tally.compared(answered.number, answered == answer && ours.same(&expected), || format!("{o:?}: {answered:?}, expected {answer:?}"));
    }
}

/// A size, depth, length or coefficient that is refused.
fn damage(random: &mut Random, o: &mut Opening, b: &mut Buffers) {
    let short = (o.n * o.n).wrapping_sub(1) % 2000;
    match random.below(9) {
        0 => o.n = blocks::odd_size(random),
        1 => o.bit_depth = blocks::odd_depth(random),
        2 => o.dst = !o.dst,
        3 => b.coeff.shorten(short),
        4 => b.inter.shorten(short),
        5 => b.residual.shorten(short),
        6 => b.levels.shorten(short),
        7 if o.way == Way::ScaledLevels => o.list = blocks::list(random, 63),
        _ => {
            let at = random.below(b.coeff.seen().len().max(1));
            let (lo, hi) = o.ends();
            if let Some(v) = b.coeff.lend().get_mut(at) {
                *v = random.pick(&[lo - 1, hi + 1, i64::from(i32::MIN), i64::from(i32::MAX)]) as i32;
            }
        }
    }
}

/// A list of edits, with the buffers before and after it.
struct Run {
    opening: Opening,
    given: Buffers,
    list: Vec<Edit>,
    expected: Buffers,
}

fn single_edits(tally: &mut Tally, matrices: &Matrices, name: &'static str, ways: &[Way], seed: u64, lists: usize) -> Vec<Run> {
    tally.begin(name);
    let mut random = Random::of(seed, name);
    let mut runs = Vec::new();
    for _ in 0..lists {
        let way = random.pick(ways);
        let o = Opening::random(&mut random, way);
        let given = lent(&mut random, &o);
        let mut ours = given.copy();
        let mut expected = given.copy();
        fresh(&o, matrices.of(&o), &mut expected);
        let mut block = open(&o, &mut ours).block;
        let list: Vec<Edit> = (0..random.below(LIST)).map(|_| random_edit(&mut random, &o)).collect();
        for e in &list {
            if random.one_in(10) {
                stray_edit(tally, matrices, &mut random, &o, &ours, block.columns, e);
            }
            let told = answer_to(&o, e);
            if told.0 == 0 {
                let to = if e.level { &mut expected.levels } else { &mut expected.coeff };
                to.lend()[e.row * o.n + e.column] = e.value;
                fresh(&o, matrices.of(&o), &mut expected);
            }
            let mut answer = o.answered(told, column_count(expected.coeff.seen(), o.n));
            if told.0 == 0 && e.level {
                answer.flags = o.flags(e.value, e.row * o.n + e.column);
            }
            let answered = edit(block, &mut ours, e);
            block = answered.block;
            tally.compared(answered.number, answered == answer && ours.same(&expected), || format!("{o:?}, {e:?}: {answered:?}, expected {answer:?}"));
        }
        runs.push(Run { opening: o, given, list, expected });
    }
    runs
}

/// One edit of a record and buffers that no call left; the chain of edits goes on from its own.
fn stray_edit(tally: &mut Tally, matrices: &Matrices, random: &mut Random, o: &Opening, now: &Buffers, columns: usize, e: &Edit) {
    let (mut o, mut ours) = (o.clone(), now.copy());
    match random.below(3) {
        0 => damage(random, &mut o, &mut ours),
        1 => {
            for spoiled in [&mut ours.levels, &mut ours.coeff, &mut ours.inter, &mut ours.residual] {
                for _ in 0..random.below(4) {
                    let at = random.below(spoiled.seen().len());
                    spoiled.lend()[at] = random.next() as i32;
                }
            }
        }
        _ => (),
    }
    // the record holds 64 entries, whatever was done to the list
    o.list.resize(64, 9);
    let columns = random.pick(&[columns, 0, 1, o.n, usize::MAX]);
    let mut expected = ours.copy();
    let mut answer = o.answered((o.edit_refusal(e.level, &ours), 0, 0), columns);
    if answer.number == 0 {
        let told = answer_to(&o, e);
        answer = o.answered(told, columns);
        if told.0 == 0 {
            let at = e.row * o.n + e.column;
            let value = if e.level {
                expected.levels.lend()[at] = e.value;
                answer.flags = o.flags(e.value, at);
                scaled(&o, expected.levels.seen())[at]
            } else {
                e.value
            };
            expected.coeff.lend()[at] = value;
            answer.block.columns = column_count(expected.coeff.seen(), o.n);
            let column = reference::residual(matrices.of(&o), &o.limited(expected.coeff.seen()), o.n, o.bit_depth, o.range(), o.n).intermediate;
            for m in 0..o.n {
                let at = m * o.n + e.column;
                expected.inter.lend()[at] = column[at] as i32;
            }
            let residual = reference::stage_two(matrices.of(&o), &o.limited(expected.inter.seen()), o.n, o.bit_depth, o.range());
            put(&mut expected.residual, residual.into_iter());
        }
    }
    let answered = edit(o.block(columns), &mut ours, e);
    tally.compared(answered.number, answered == answer && ours.same(&expected), || format!("on its own, {o:?}, {e:?}: {answered:?}, expected {answer:?}"));
}

/// The whole list through one call, over slices of which some may be longer than the list.
fn one_call(tally: &mut Tally, random: &mut Random, run: &Run) {
    let (o, list) = (&run.opening, &run.list);
    let mut ours = run.given.copy();
    let mut rows: Vec<usize> = list.iter().map(|e| e.row).collect();
    let columns: Vec<usize> = list.iter().map(|e| e.column).collect();
    let mut values: Vec<i32> = list.iter().map(|e| e.value).collect();
    let mut ways: Vec<bool> = list.iter().map(|e| e.level).collect();
    rows.resize(list.len() + random.below(3), 0);
    values.resize(list.len() + random.below(3), 1);
    ways.resize(list.len() + random.below(3), true);
    let mut numbers = vec![200u8; list.len() + random.below(3)];
    let mut named = vec![200u8; list.len() + random.below(3)];
    let mut across = vec![200u8; list.len() + random.below(3)];
    let mut limits = vec![200u8; list.len() + random.below(3)];
    let (mut expected_numbers, mut expected_named, mut expected_across, mut expected_limits) = (numbers.clone(), named.clone(), across.clone(), limits.clone());
    for (i, e) in list.iter().enumerate() {
        let (number, row, column) = answer_to(o, e);
        expected_numbers[i] = number as u8;
        expected_named[i] = row;
        expected_across[i] = column;
        let (level, result) = if number == 0 && e.level { o.flags(e.value, e.row * o.n + e.column) } else { (false, false) };
        expected_limits[i] = u8::from(level) + 2 * u8::from(result);
    }
    let slices = List { rows: &rows, columns: &columns, values: &values, ways: &ways, numbers: &mut numbers, named: &mut named, across: &mut across, limits: &mut limits };
    let answered = match o.way {
        Way::Coefficients => edits::open_and_edit(o.form(), ours.held(), slices),
        Way::Levels => edits::open_levels_and_edit(o.form(), o.qp_prime, ours.held(), slices),
        Way::ScaledLevels => edits::open_levels_scaled_and_edit(o.form(), o.qp_prime, &o.list, o.dc, ours.held(), slices),
    };
    let limited = if o.on_levels() { o.limited_count(run.given.levels.seen()) } else { 0 };
    let answer = ListAnswered { limited, block: o.block(column_count(run.expected.coeff.seen(), o.n)), edits: list.len(), ..ListAnswered::default() };
    let told = numbers == expected_numbers && named == expected_named && across == expected_across && limits == expected_limits;
    let agrees = answered == answer && ours.same(&run.expected) && told;
    tally.compared(answered.number, agrees, || format!("{o:?}, {} edits: {answered:?}, expected {answer:?}", list.len()));
}
