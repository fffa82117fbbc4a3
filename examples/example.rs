//! A decode, edits and a checksum from Rust. examples/example.c and examples/example.py do the same and print the same.
//!
//!     cargo run --offline --manifest-path bindings/rust/Cargo.toml --example example
use foxentu::{Block, EditedBlock, Kind, Picture, Refusal, Scaling};

const N: usize = 4;
const DEPTH: u8 = 8;

fn print_block(what: &str, block: &[i32]) {
    println!("{what}");
    for row in block.chunks(N) {
        println!("{}", row.iter().map(i32::to_string).collect::<Vec<_>>().join(" "));
    }
}

fn main() -> Result<(), Refusal> {
    println!("foxentu {}", foxentu::VERSION);

    // levels to coefficients, at QP 30
    let mut levels = [0; N * N];
    levels[..6].copy_from_slice(&[9, -3, 0, 0, -4, 1]);
    let scaling = Scaling { n: N, qp_prime: foxentu::qp_prime(30, DEPTH)?, depth: DEPTH, extended: false, list: None };
    let mut coefficients = [0i32; N * N];
    scaling.scale(&levels, &mut coefficients)?;
    print_block("coefficients", &coefficients);

    // coefficients to residual, in a block that can be edited
    let mut block = EditedBlock::open(Kind::Dst, N, DEPTH, false, &coefficients)?;
    print_block("residual", block.residual());

    // one coefficient is changed, a second edit is refused, and the first is taken back
    block.edit(0, 1, 40)?;
    println!("columns {}", block.columns());
    print_block("residual after the edit", block.residual());
    if let Err(why) = block.edit(2, 3, 40_000) {
        println!("second edit: refused {}: {}", why.number(), why.text());
        if let Some((row, column)) = why.cell() {
            println!("row {row}, column {column}");
        }
    }
    block.undo();
    print_block("residual after undo", block.residual());

    // prediction plus residual in a picture, and its checksum
    let picture = Picture { width: 8, height: 6, stride: 8, depth: DEPTH };
    let mut plane = [128; 48];
    let prediction: Vec<u16> = (100..100 + (N * N) as u16).collect();
    picture.rebuild(Block { n: N, x: 2, y: 1 }, block.residual(), &prediction, &mut plane)?;
    println!("checksum {:08x}", picture.checksum(&plane)?);
    Ok(())
}
