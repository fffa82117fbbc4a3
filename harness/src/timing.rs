//! Times both sides on the same blocks, the least of many runs, and counts instructions of one call by callgrind where valgrind is at hand.
//! `qp_bd_offset` and `qp_prime` have no source on the other side, and `scale_level` no counterpart: these three are left out.
//! Prints a line for each function, size and shape: nanoseconds and instructions of ours and of the Rust, and the ratios ours / Rust.
use crate::archive;
use crate::blocks::{self, Element, Shape};
#[cfg(has_picture)]
use crate::picture;
use crate::random::Random;
use crate::reference;
#[cfg(has_scaling)]
use crate::scaling;
#[cfg(has_transform)]
use crate::transform;
use std::collections::HashMap;
use std::hint::black_box;
use std::process::Command;
use std::time::Instant;

/// One line of the table: the same work on both sides.
struct Work {
    label: String,
    ours: Box<dyn FnMut()>,
    rust: Box<dyn FnMut()>,
}

/// A shape, and how large its coefficients are: of the size that a picture gives, or any in the range of extended precision.
const SHAPES: [(&str, Shape, bool); 4] = [("dense", Shape::Full, false), ("quarter", Shape::Quarter, false), ("dc", Shape::Dc, false), ("dense, full range", Shape::Full, true)];

fn numbers(list: &mut Vec<Work>) {
    let mut add = |label: &str, ours: Box<dyn FnMut()>, rust: Box<dyn FnMut()>| list.push(Work { label: label.to_string(), ours, rust });
    add(
        "max_log2_transform_dynamic_range",
        Box::new(|| {
            black_box(archive::max_log2_transform_dynamic_range(black_box(12), black_box(true)));
        }),
        Box::new(|| {
            black_box(oracle::max_log2_transform_dynamic_range(black_box(12), black_box(true)));
        }),
    );
    add(
        "dequant_params",
        Box::new(|| {
            black_box(archive::dequant_params(black_box(16), black_box(37), black_box(12), black_box(true)));
        }),
        Box::new(|| {
            black_box(oracle::dequant_params(black_box(16), black_box(37), black_box(12), black_box(true)));
        }),
    );
    add(
        "transform_skip_params",
        Box::new(|| {
            black_box(archive::transform_skip_params(black_box(16), black_box(37), black_box(12), black_box(true)));
        }),
        Box::new(|| {
            black_box(oracle::transform_skip_params(black_box(16), black_box(37), black_box(12), black_box(true)));
        }),
    );
}

#[cfg(has_scaling)]
fn factors(list: &mut Vec<Work>) {
    let entries: [u8; 64] = std::array::from_fn(|i| i as u8);
    for n in reference::SIZES {
        let index = n * n - 2;
        list.push(Work {
            label: format!("scaling_coeff {n}"),
            ours: Box::new(move || {
                black_box(archive::scaling::scaling_coeff(black_box(&entries), black_box(16), black_box(n), black_box(index)));
            }),
            rust: Box::new(move || {
                black_box(oracle::scaling_coeff(black_box(&entries), black_box(16), black_box(n), black_box(index)));
            }),
        });
    }
}

#[cfg(has_scaling)]
fn scalers<E: Element>(list: &mut Vec<Work>, scaler: &'static scaling::Scaler<E>) {
    // one bit depth with the 15-bit range, and one past it where the output is wide
    let settings: &[(u8, bool)] = if E::NARROW { &[(8, false)] } else { &[(8, false), (12, true)] };
    for &(bit_depth, extended_precision) in settings {
        for n in reference::SIZES {
            let mut random = Random::of(1, scaler.name);
            let levels: Vec<i32> = blocks::block(&mut random, Shape::Full, n, n * n, -2000, 2000);
            let factors: [u8; 64] = std::array::from_fn(|_| random.between(1, 255) as u8);
            let label = format!("{} {n} depth {bit_depth}{}", scaler.name, if extended_precision { " extended" } else { "" });
            let (mine, theirs) = (levels.clone(), levels);
            let (mut out, mut kept) = (vec![E::of(0); n * n], vec![E::of(0); n * n]);
            list.push(Work {
                label,
                ours: Box::new(move || {
                    black_box(scaler.ours.call(black_box(&mine), n, 30, bit_depth, extended_precision, &factors, 16, black_box(&mut out)));
                }),
                rust: Box::new(move || {
                    (scaler.oracle)(black_box(&theirs), n, 30, bit_depth, extended_precision, &factors, 16, black_box(&mut kept));
                }),
            });
        }
    }
}

/// The same with a share of the levels past every range, in random order over so many blocks that no branch is learnt.
#[cfg(has_scaling)]
fn limited_scalers<E: Element>(list: &mut Vec<Work>, scaler: &'static scaling::Scaler<E>) {
    const LEVELS: usize = 131_072;
    let settings: &[(u8, bool)] = if E::NARROW { &[(8, false)] } else { &[(8, false), (12, true)] };
    for &(bit_depth, extended_precision) in settings {
        for n in reference::SIZES {
            for (share_name, share) in [("none", 0), ("few", 5), ("half", 50), ("all", 100)] {
                let mut random = Random::of(1, scaler.name);
                let factors: [u8; 64] = std::array::from_fn(|_| random.between(1, 255) as u8);
                let mut level = || {
                    let size = if random.below(100) < share { random.between(4_200_000, 6_200_000) } else { random.between(0, 30) };
                    (if random.one_in(2) { -size } else { size }) as i32
                };
                let mine: Vec<i32> = (0..LEVELS).map(|_| level()).collect();
                let theirs = mine.clone();
                let (mut out, mut kept) = (vec![E::of(0); n * n], vec![E::of(0); n * n]);
                let (mut at, mut then) = (0, 0);
                let next = move |at: &mut usize| {
                    *at = (*at + n * n) % LEVELS;
                    *at..*at + n * n
                };
                let range = if extended_precision { " extended" } else { "" };
                list.push(Work {
                    label: format!("{} {n} depth {bit_depth}{range}, {share_name} limited", scaler.name),
                    ours: Box::new(move || {
                        black_box(scaler.ours.call(black_box(&mine[next(&mut at)]), n, 4, bit_depth, extended_precision, &factors, 16, black_box(&mut out)));
                    }),
                    rust: Box::new(move || {
                        (scaler.oracle)(black_box(&theirs[next(&mut then)]), n, 4, bit_depth, extended_precision, &factors, 16, black_box(&mut kept));
                    }),
                });
            }
        }
    }
}

#[cfg(has_scaling)]
fn limited_work() -> Vec<Work> {
    let mut list = Vec::new();
    for scaler in &scaling::WIDE {
        limited_scalers(&mut list, scaler);
    }
    for scaler in &scaling::NARROW {
        limited_scalers(&mut list, scaler);
    }
    list
}

#[cfg(not(has_scaling))]
fn limited_work() -> Vec<Work> {
    Vec::new()
}

#[cfg(has_transform)]
fn transforms<E: Element>(list: &mut Vec<Work>, transform: &'static transform::Transform<E>) {
    let sizes: &[usize] = if transform.dst { &[4] } else { &reference::SIZES };
    let bit_depth = if transform.extended { 12 } else { 8 };
    for &n in sizes {
        for (shape_name, shape, full) in SHAPES {
            if full && !transform.extended {
                continue;
            }
            let mut random = Random::of(1, transform.name);
            let most = if full { (1i64 << reference::range(bit_depth, transform.extended)) - 1 } else { 2000 };
            let coeff: Vec<E> = blocks::block(&mut random, shape, n, n * n, -most, most);
            // the caller's column count, as a decoder knows it
            let nx = match shape {
                Shape::Full => n,
                Shape::Quarter => (n / 4).max(1),
                _ => 1,
            };
            let label = format!("{} {n} {shape_name}", transform.name);
            let (mine, theirs) = (coeff.clone(), coeff);
            let (mut out, mut kept) = (vec![E::of(0); n * n], vec![E::of(0); n * n]);
            list.push(Work {
                label,
                ours: Box::new(move || {
                    black_box(transform.ours.call(black_box(&mine), n, bit_depth, nx, black_box(&mut out)));
                }),
                rust: Box::new(move || {
                    (transform.oracle)(black_box(&theirs), n, bit_depth, nx, black_box(&mut kept));
                }),
            });
        }
    }
}

fn all_work() -> Vec<Work> {
    let mut list = Vec::new();
    numbers(&mut list);
    #[cfg(has_scaling)]
    {
        factors(&mut list);
        for scaler in &scaling::WIDE {
            scalers(&mut list, scaler);
        }
        for scaler in &scaling::NARROW {
            scalers(&mut list, scaler);
        }
    }
    #[cfg(has_transform)]
    {
        for transform in &transform::WIDE {
            transforms(&mut list, transform);
        }
        for transform in &transform::NARROW {
            transforms(&mut list, transform);
        }
    }
    list
}

/// An edit beside stage two of the same block, both ours: kind, size, and the two ranges.
#[cfg(has_edits)]
fn edit_work() -> Vec<Work> {
    let mut list = Vec::new();
    for (dst, n) in [(true, 4), (false, 4), (false, 8), (false, 16), (false, 32)] {
        for (bit_depth, extended_precision) in [(8, false), (12, true)] {
            for (shape_name, shape) in [("dense", Shape::Full), ("quarter", Shape::Quarter), ("dc", Shape::Dc)] {
                let mut random = Random::of(1, "edit");
                let mut coeff: Vec<i32> = blocks::block(&mut random, shape, n, n * n, -2000, 2000);
                let (mut inter, mut residual, mut again) = (vec![0i32; n * n], vec![0i32; n * n], vec![0i32; n * n]);
                let form = archive::edits::Form { dst, n, bit_depth, extended: extended_precision };
                let block = archive::edits::open_block(form, &coeff, &mut inter, &mut residual).block;
                let held = inter.clone();
                let kind = if dst { "DST" } else { "DCT" };
                let range = if extended_precision { " extended" } else { "" };
                let mut value = 1;
                list.push(Work {
                    label: format!("edit beside stage two, {kind} {n} depth {bit_depth}{range} {shape_name}"),
                    // the value at index 0 goes to and fro, so that the block keeps its shape
                    ours: Box::new(move || {
                        value = 2000 - value;
                        black_box(archive::edits::edit(block, &mut coeff, &mut inter, black_box(&mut residual), 0, 0, black_box(value)));
                    }),
                    rust: Box::new(move || {
                        black_box(archive::edits::refresh_residual(dst, n, bit_depth, extended_precision, black_box(&held), black_box(&mut again)));
                    }),
                });
            }
        }
    }
    list
}

/// A level edit beside a coefficient edit of the same block, both ours: kind, size, without a list and with one.
#[cfg(has_edits)]
fn level_edit_work() -> Vec<Work> {
    use archive::edits::{self, Form, Held};
    let mut list = Vec::new();
    for (dst, n) in [(true, 4), (false, 4), (false, 8), (false, 16), (false, 32)] {
        for (bit_depth, extended) in [(8, false), (12, true)] {
            for (shape_name, shape) in [("dense", Shape::Full), ("quarter", Shape::Quarter), ("dc", Shape::Dc)] {
                let form = Form { dst, n, bit_depth, extended };
                let mut random = Random::of(1, "edit");
                // QP' 28 with m = 16 leaves levels of this size in the range
                let mut levels: Vec<i32> = blocks::block(&mut random, shape, n, n * n, -60, 60);
                let (mut coeff, mut inter, mut residual) = (vec![0i32; n * n], vec![0i32; n * n], vec![0i32; n * n]);
                let entries = [16u8; 64];
                let held = Held { levels: &mut levels, coeff: &mut coeff, inter: &mut inter, residual: &mut residual };
                let block = edits::open_levels_scaled(form, 28, &entries, 16, held).block;
                let (mut own, mut own_inter, mut own_residual) = (coeff.clone(), inter.clone(), residual.clone());
                let plain = edits::open_block(form, &own, &mut own_inter, &mut own_residual).block;
                let kind = if dst { "DST" } else { "DCT" };
                let range = if extended { " extended" } else { "" };
                let (mut level, mut value) = (1, 1);
                list.push(Work {
                    label: format!("level edit beside coefficient edit, {kind} {n} depth {bit_depth}{range} {shape_name}"),
                    ours: Box::new(move || {
                        level = 60 - level;
                        let held = Held { levels: &mut levels, coeff: &mut coeff, inter: &mut inter, residual: black_box(&mut residual) };
                        black_box(edits::edit_level(block, held, 0, 0, black_box(level)));
                    }),
                    rust: Box::new(move || {
                        value = 2000 - value;
                        black_box(edits::edit(plain, &mut own, &mut own_inter, black_box(&mut own_residual), 0, 0, black_box(value)));
                    }),
                });
            }
        }
    }
    list
}

#[cfg(not(has_edits))]
fn level_edit_work() -> Vec<Work> {
    Vec::new()
}

#[cfg(not(has_edits))]
fn edit_work() -> Vec<Work> {
    Vec::new()
}

/// A checksum of a whole picture of 1920 × 1080 beside the plain loop of the harness, which is no part of the ported Rust.
#[cfg(has_picture)]
fn picture_work() -> Vec<Work> {
    let mut list = Vec::new();
    let (width, height) = (1920, 1080);
    for bit_depth in [8, 10] {
        let mut random = Random::of(1, "picture_checksum");
        let mine: Vec<u16> = (0..width * height).map(|_| (random.next() & ((1 << bit_depth) - 1)) as u16).collect();
        let theirs = mine.clone();
        list.push(Work {
            label: format!("picture_checksum {width} × {height} depth {bit_depth}"),
            ours: Box::new(move || {
                black_box(archive::picture::checksum(width, height, width, bit_depth, black_box(&mine)));
            }),
            rust: Box::new(move || {
                black_box(picture::plain_checksum(width, height, width, bit_depth, black_box(&theirs)));
            }),
        });
    }
    list
}

#[cfg(not(has_picture))]
fn picture_work() -> Vec<Work> {
    Vec::new()
}

/// Nanoseconds of `repeats` calls.
fn batch(work: &mut dyn FnMut(), repeats: u32) -> f64 {
    let start = Instant::now();
    for _ in 0..repeats {
        work();
    }
    start.elapsed().as_nanos() as f64 / f64::from(repeats)
}

/// How many calls take about 20 microseconds, so that the clock's own time does not count.
fn repeats(work: &mut dyn FnMut()) -> u32 {
    let once = batch(work, 3).min(batch(work, 3)).max(1.0);
    ((20_000.0 / once) as u32).clamp(1, 2000)
}

/// The least of `runs` batches on each side, taken in turns.
fn least(work: &mut Work, runs: u32) -> (f64, f64) {
    let (ours_repeats, rust_repeats) = (repeats(&mut work.ours), repeats(&mut work.rust));
    let (mut ours, mut rust) = (f64::MAX, f64::MAX);
    for _ in 0..runs {
        ours = ours.min(batch(&mut work.ours, ours_repeats));
        rust = rust.min(batch(&mut work.rust, rust_repeats));
    }
    (ours, rust)
}

/// A client request to callgrind; without valgrind it does nothing.
#[cfg(target_arch = "x86_64")]
fn callgrind(request: u64, argument: u64) {
    const BASE: u64 = ((b'C' as u64) << 24) | ((b'T' as u64) << 16);
    let words = [BASE + request, argument, 0, 0, 0, 0];
    // the sequence of instructions by which valgrind knows a request: it leaves every register but rdx as it was
    unsafe {
        std::arch::asm!(
            "rol rdi, 3",
            "rol rdi, 13",
            "rol rdi, 61",
            "rol rdi, 51",
            "xchg rbx, rbx",
            in("rax") words.as_ptr(),
            inout("rdx") 0u64 => _,
            out("rdi") _,
        );
    }
}

const DUMP_AT: u64 = 3;
const ZERO: u64 = 1;

fn counted(label: &str, work: &mut dyn FnMut()) {
    let name = format!("{label}\0");
    // the first call pays for what is set up once
    work();
    callgrind(ZERO, 0);
    work();
    callgrind(DUMP_AT, name.as_ptr() as u64);
}

/// Runs each work once on each side between two requests to callgrind.
pub fn count_instructions() {
    counted("nothing", &mut || {});
    for mut work in all_work().into_iter().chain(limited_work()).chain(edit_work()).chain(level_edit_work()).chain(picture_work()) {
        counted(&format!("ours {}", work.label), &mut work.ours);
        counted(&format!("rust {}", work.label), &mut work.rust);
    }
}

/// Instructions by label, from a run of this program under callgrind; nothing where valgrind is not at hand.
fn instructions() -> HashMap<String, u64> {
    let mut found = HashMap::new();
    let Ok(program) = std::env::current_exe() else { return found };
    let file = program.with_extension("callgrind");
    let run = Command::new("valgrind")
        .arg("--tool=callgrind")
        .arg("--combine-dumps=yes")
        .arg(format!("--callgrind-out-file={}", file.display()))
        .arg(&program)
        .arg("count-instructions")
        .output();
    if !run.is_ok_and(|o| o.status.success()) {
        eprintln!("timing: valgrind is not at hand, so no instructions are counted");
        return found;
    }
    let mut label = None;
    for line in std::fs::read_to_string(&file).unwrap_or_default().lines() {
        if let Some(name) = line.strip_prefix("desc: Trigger: Client Request: ") {
            label = Some(name.to_string());
        }
        if let Some(total) = line.strip_prefix("totals: ").or(line.strip_prefix("summary: ")) {
            if let (Some(name), Ok(count)) = (label.take(), total.trim().parse()) {
                found.insert(name, count);
            }
        }
    }
    found
}

pub fn time(runs: u32) {
    let counts = instructions();
    let nothing = counts.get("nothing").copied().unwrap_or(0);
    let count = |side: &str, label: &str| counts.get(&format!("{side} {label}")).map(|c| c.saturating_sub(nothing));
    let table = |works: Vec<Work>, other: &str| {
        let (time, instructions) = (format!("{other} ns"), format!("{other} ins"));
        println!("{:<86} {:>9} {time:>12} {:>6} {:>9} {instructions:>13} {:>6}", "function, size, block", "ours ns", "ratio", "ours ins", "ratio");
        for mut work in works {
            let (ours, rust) = least(&mut work, runs);
            print!("{:<86} {ours:>9.1} {rust:>12.1} {:>6.2}", work.label, ours / rust);
            match (count("ours", &work.label), count("rust", &work.label)) {
                (Some(ours), Some(rust)) => println!(" {ours:>9} {rust:>13} {:>6.2}", ours as f64 / rust as f64),
                _ => println!(),
            }
        }
    };
    table(all_work(), "Rust");
    table(limited_work(), "Rust");
    table(edit_work(), "stage two");
    table(level_edit_work(), "coefficient edit");
    table(picture_work(), "plain loop");
}
