//! Every function of the crate once, edits against fresh transforms, and refused calls that leave their buffers as lent.
use foxentu::*;

const SCALING: Scaling<'static> = Scaling { n: 4, qp_prime: 4, depth: 8, extended: false, list: None };
const LIST: List<'static> = List { entries: &[20; 64], dc: 30 };

fn level_2() -> [i32; 16] {
    let mut levels = [0; 16];
    levels[0] = 2;
    levels
}

#[test]
fn quantities() {
    assert_eq!(coefficient_range(10, true), Ok(16));
    assert_eq!(qp_bd_offset(10), Ok(12));
    assert_eq!(qp_prime(-13, 10), Ok(0));
    let params = dequant_params(4, 4, 8, false).unwrap();
    assert_eq!(params, DequantParams { factor: 1024, add: 16, shift: 5, clip_min: -32768, clip_max: 32767 });
    assert_eq!(transform_skip_params(32, 4, 16, false).unwrap().tr_shift, -6);
    assert_eq!(rounding_bound(Kind::Dst, 4, 8, false), Ok(277632));
    assert_eq!(rounding_bound(Kind::Dst, 8, 8, false), Err(Refusal::DstSizeInvalid));
}

#[test]
fn scaling_at_both_widths() {
    let listed = Scaling { list: Some(LIST), ..SCALING };
    let (mut wide, mut narrow) = ([7i32; 17], [7i16; 17]);
    SCALING.scale(&level_2(), &mut wide).unwrap();
    SCALING.scale(&level_2(), &mut narrow).unwrap();
    assert_eq!((wide[0], narrow[0], wide[1], narrow[1], wide[16], narrow[16]), (64, 64, 0, 0, 7, 7));
    listed.scale(&level_2(), &mut wide).unwrap();
    listed.scale(&level_2(), &mut narrow).unwrap();
    assert_eq!((wide[0], narrow[0]), (80, 80));
    SCALING.transform_skip(&level_2(), &mut wide).unwrap();
    listed.transform_skip(&level_2(), &mut narrow).unwrap();
    assert_eq!((wide[0], narrow[0]), (2, 3));
    assert_eq!(SCALING.scale_level(-1, 16), Ok(ScaledLevel { coefficient: -32, level_limited: false, result_limited: false }));
    assert_eq!(SCALING.scale_level(-1025, 16).unwrap(), ScaledLevel { coefficient: -32768, level_limited: false, result_limited: true });
    assert_eq!(SCALING.scale_level(40000, 0).unwrap(), ScaledLevel { coefficient: 0, level_limited: true, result_limited: false });
    assert_eq!(SCALING.scale(&[40000; 16], &mut [0i32; 16]), Ok(16));
    assert_eq!(Scaling { depth: 10, ..SCALING }.scale(&level_2(), &mut narrow), Err(Refusal::WidthTooNarrow));
    assert_eq!(SCALING.scale(&[0; 15], &mut wide), Err(Refusal::InputTooShort));
    assert_eq!(SCALING.scale(&level_2(), &mut wide[..15]), Err(Refusal::OutputTooShort));
    assert_eq!(Scaling { list: Some(List { entries: &[1; 63], dc: 1 }), ..SCALING }.scale(&level_2(), &mut wide), Err(Refusal::ListLengthInvalid));
    assert_eq!((wide[0], narrow[0]), (2, 3));
}

#[test]
fn block_tools() {
    let mut out = [0; 16];
    SCALING.transform_skip_with(true, Accumulate::None, &level_2(), &mut out).unwrap();
    assert_eq!((out[0], out[15]), (0, 2));
    Scaling { list: Some(LIST), ..SCALING }.transform_skip_with(false, Accumulate::AlongRows, &level_2(), &mut out).unwrap();
    assert_eq!(out[..5], [3, 3, 3, 3, 0]);
    bypass(4, 8, false, false, Accumulate::DownColumns, &level_2(), &mut out).unwrap();
    assert_eq!((out[0], out[4], out[12], out[1]), (2, 2, 2, 0));
    let mut far = [0; 64];
    assert_eq!(bypass(8, 8, false, true, Accumulate::None, &[0; 64], &mut far), Err(Refusal::RotationSizeInvalid));
    far[9] = -40000;
    let mut room = [5; 64];
    assert_eq!(bypass(8, 8, false, false, Accumulate::None, &far, &mut room), Err(Refusal::CoefficientBelow { row: 1, column: 1 }));
    assert_eq!(room, [5; 64]);
}

#[test]
fn transforms() {
    let mut coefficients = [0; 16];
    coefficients[0] = 63;
    let mut out = [0; 16];
    inverse_transform(Kind::Dct, 4, 8, true, 9, &coefficients, &mut out).unwrap();
    assert_eq!(out, [1; 16]);
    inverse_transform(Kind::Dct, 4, 8, false, 0, &coefficients, &mut out).unwrap();
    assert_eq!(out, [0; 16]);
    coefficients[0] = 64;
    let sines = [0, 0, 0, 0, 0, 0, 1, 1, 0, 0, 1, 1, 0, 1, 1, 1];
    for extended in [false, true] {
        inverse_transform(Kind::Dst, 4, 8, extended, 4, &coefficients, &mut out).unwrap();
        assert_eq!(out, sines);
    }
    let (narrow, mut out16) = (coefficients.map(|v| v as i16), [0; 16]);
    inverse_transform_16(Kind::Dst, 4, 8, 4, &narrow, &mut out16).unwrap();
    assert_eq!(out16.map(i32::from), sines);
    inverse_transform_16(Kind::Dct, 4, 8, 4, &narrow, &mut out16).unwrap();
    assert_eq!(out16, [1; 16]);
    assert_eq!(inverse_transform_16(Kind::Dct, 4, 10, 4, &narrow, &mut out16), Err(Refusal::WidthTooNarrow));
    assert_eq!(inverse_transform(Kind::Dst, 8, 8, false, 4, &[0; 64], &mut [0; 64]), Err(Refusal::DstSizeInvalid));
}

#[test]
fn contributions_of_a_sample() {
    let mut coefficients = [0; 17];
    coefficients[6] = i32::MIN;
    let mut out = [5; 17];
    contributions(Kind::Dst, 4, 1, 3, &coefficients, &mut out).unwrap();
    assert_eq!((out[6], out[5], out[16]), (74 * 55 * i64::from(i32::MIN), 0, 5));
    let lent = out;
    assert_eq!(contributions(Kind::Dst, 8, 8, 0, &[], &mut []), Err(Refusal::DstSizeInvalid));
    assert_eq!(contributions(Kind::Dct, 4, 4, 0, &coefficients[..15], &mut out), Err(Refusal::InputTooShort));
    assert_eq!(contributions(Kind::Dct, 4, 4, 0, &coefficients, &mut out[..15]), Err(Refusal::OutputTooShort));
    assert_eq!(contributions(Kind::Dct, 4, 0, 4, &coefficients, &mut out), Err(Refusal::PlaceOutside));
    assert_eq!(out, lent);
}

#[test]
fn edits_are_fresh_transforms() {
    let mut seed = 265u64;
    let mut below = |n: u64| {
        seed = seed.wrapping_mul(6364136223846793005).wrapping_add(1442695040888963407);
        (seed >> 33) % n
    };
    for (kind, n) in [(Kind::Dst, 4), (Kind::Dct, 4), (Kind::Dct, 8), (Kind::Dct, 16), (Kind::Dct, 32)] {
        for (depth, extended) in [(8, false), (12, true)] {
            let mut block = EditedBlock::open(kind, n, depth, extended, &vec![0; n * n]).unwrap();
            for step in 0..200 {
                match below(8) {
                    0 => drop(block.undo()),
                    1 => drop(block.redo()),
                    2 => assert!(block.edit(n, 0, 0).is_err()),
                    _ => block.edit(below(n as u64) as usize, below(n as u64) as usize, below(60000) as i32 - 30000).unwrap(),
                }
                let mut fresh = vec![0; n * n];
                inverse_transform(kind, n, depth, extended, n, block.coefficients(), &mut fresh).unwrap();
                assert_eq!(block.residual(), fresh, "step {step}");
                refresh_residual(kind, n, depth, extended, block.intermediate(), &mut fresh).unwrap();
                assert_eq!(block.residual(), fresh);
                let columns = (0..n).filter(|c| (0..n).any(|r| block.coefficients()[r * n + c] != 0)).max().map_or(0, |c| c + 1);
                assert_eq!(block.columns(), columns);
            }
            while block.undo() {}
            assert!(block.coefficients().iter().all(|v| *v == 0) && block.edits().next().is_none());
        }
    }
    level_edits_are_fresh_openings();
    assert_eq!(EditedBlock::open_levels(Kind::Dct, &SCALING, &[40000; 16]).unwrap().limited(), 16);
    assert_eq!(EditedBlock::open(Kind::Dct, 12, 8, false, &[0; 144]).unwrap_err(), Refusal::SizeInvalid);
    assert_eq!(EditedBlock::open(Kind::Dct, 1 << 40, 8, false, &[]).unwrap_err(), Refusal::SizeInvalid);
    assert_eq!(EditedBlock::open(Kind::Dct, 8, 8, false, &[0; 63]).unwrap_err(), Refusal::InputTooShort);
}

fn level_edits_are_fresh_openings() {
    for (kind, n, list) in [(Kind::Dst, 4, None), (Kind::Dct, 8, Some(LIST)), (Kind::Dct, 32, Some(LIST)), (Kind::Dct, 16, None)] {
        let scaling = Scaling { n, qp_prime: 20, list, ..SCALING };
        let mut block = EditedBlock::open_levels(kind, &scaling, &vec![0; n * n]).unwrap();
        for step in 0..100i32 {
            match step % 7 {
                3 => drop(block.undo()),
                5 => drop(block.redo()),
                6 => assert_eq!(block.edit(0, 0, 1), Err(Refusal::WayMismatched)),
                _ => drop(block.edit_level(step as usize * 5 % n, step as usize * 3 % n, step * 977 % 401 - 200).unwrap()),
            }
            let fresh = EditedBlock::open_levels(kind, &scaling, block.levels()).unwrap();
            assert_eq!((block.coefficients(), block.intermediate(), block.residual(), block.columns()), (fresh.coefficients(), fresh.intermediate(), fresh.residual(), fresh.columns()));
        }
        assert_eq!(block.edit_level(0, 0, i32::MAX).unwrap().level, true);
        while block.undo() {}
        assert!(block.levels().iter().chain(block.residual()).all(|v| *v == 0));
    }
    let mut block = EditedBlock::open(Kind::Dct, 4, 8, false, &[0; 16]).unwrap();
    assert_eq!(block.edit_level(0, 0, 1), Err(Refusal::WayMismatched));
    assert_eq!(EditedBlock::open_levels(Kind::Dct, &SCALING, &[0; 15]).unwrap_err(), Refusal::InputTooShort);
}

#[test]
fn lists_and_tables() {
    assert_eq!(read_scaling_lists(&[], DEFAULTS).unwrap_err(), Refusal::BitsEnded { at: 0 });
    let mut table = ListTable::new();
    for number in 0..12 {
        assert_eq!(table.store(0, LIST), Ok(number));
    }
    assert_eq!(table.store(0, LIST), Err(Refusal::StreamFull));
    table.drop_list(0, 5).unwrap();
    assert_eq!(table.get(0, 5), Err(Refusal::ListMissing));
    assert_eq!(table.store(0, LIST), Ok(5));
    let (mut wide, mut narrow) = ([0i32; 16], [0i16; 16]);
    table.scale(0, 5, &SCALING, &level_2(), &mut wide).unwrap();
    table.transform_skip(0, 5, &SCALING, &level_2(), &mut narrow).unwrap();
    assert_eq!((wide[0], narrow[0]), (80, 3));
    table.scale(0, 5, &SCALING, &level_2(), &mut narrow).unwrap();
    table.transform_skip(0, 5, &SCALING, &level_2(), &mut wide).unwrap();
    assert_eq!((wide[0], narrow[0]), (3, 80));
}

#[test]
fn pictures() {
    let picture = Picture { width: 5, height: 4, stride: 6, depth: 8 };
    let mut plane = [999; 24];
    let mut residual = [0; 16];
    (residual[0], residual[1], residual[15]) = (i32::MAX, i32::MIN, -1);
    picture.rebuild(Block { n: 4, x: 1, y: 0 }, &residual, &[100; 16], &mut plane).unwrap();
    assert_eq!((plane[0], plane[1], plane[2], plane[3], plane[22], plane[23]), (999, 255, 0, 100, 99, 999));
    assert_eq!(picture.rebuild(Block { n: 4, x: 2, y: 0 }, &residual, &[100; 16], &mut plane), Err(Refusal::PictureInvalid));
    let mut prediction = [0; 16];
    prediction[7] = 256;
    assert_eq!(picture.rebuild(Block { n: 4, x: 1, y: 0 }, &residual, &prediction, &mut plane), Err(Refusal::SampleOutside { at: 7 }));
}

#[test]
fn feeds_as_the_programs() {
    // what the two programs read, and what they print of it
    let (feed, text) = (include_bytes!("../../../crates/feed_main/stdin"), include_str!("../../../crates/feed_main/stdout"));
    let (listed, listing) = (include_bytes!("../../../crates/scale_trace_main/stdin"), include_str!("../../../crates/scale_trace_main/stdout"));
    assert_eq!(feed_text(feed), text);
    assert_eq!(listing_text(listed), listing);
    assert_eq!((feed_text(&[]).as_str(), listing_text(&[]).as_str()), ("blocks 0\n", ""));
    // a feed that is cut within a record has the lines before it, and that of a refusal, in the text as in the listing
    let cut = &listed[..listed.len() - 2];
    let told = listing_text(cut);
    let (lines, refusal) = told[..told.len() - 1].rsplit_once('\n').unwrap();
    assert!(listing.starts_with(lines) && refusal.starts_with("refused 21 "));
    assert_eq!(feed_text(cut).lines().last(), Some(refusal));
}

#[test]
fn threads() {
    let sums: Vec<i32> = std::thread::scope(|scope| {
        let threads: Vec<_> = (0..8)
            .map(|t| {
                scope.spawn(move || {
                    let mut block = EditedBlock::open(Kind::Dct, 32, 8, false, &[0; 1024]).unwrap();
                    for i in 0..200 {
                        block.edit(i % 32, i * 7 % 32, 100 + t).unwrap();
                    }
                    while block.undo() {}
                    block.residual().iter().sum()
                })
            })
            .collect();
        threads.into_iter().map(|t| t.join().unwrap()).collect()
    });
    assert_eq!(sums, [0; 8]);
}
