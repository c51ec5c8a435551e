//! The scene of examples/program.txt, converted and judged from Rust, through the crate in rust/durbizhan. At the
//! repository's top, on x86-64 (on another processor `tests/native` builds the archive, as target/native/libexport.a):
//!
//! ```sh
//! tests/native
//! cargo run --offline --manifest-path rust/durbizhan/Cargo.toml --target-dir target/rust --example clear
//! ```
//!
//! It prints
//!
//! ```text
//! axes 2 bits 2
//! leaves 4 raw 13 room 31
//! hit first 1 last 2 voxels 2
//! ```
//!
//! and of a scene file, named behind it, the lines of that one: examples/program.scene has these.

use durbizhan::{halfspace, Refusal, Universe, Verdict, Window, INTERSECTION};
use std::process::ExitCode;

// Two stand-ins of two halfspaces each: one that moves a voxel a frame, and one that stands from 2 to 3.
const ROWS: [i64; 20] = [
    0, 1, -1, 0, 0, //
    1, -1, 1, 0, 0, //
    -2, 1, 0, 0, 0, //
    3, -1, 0, 0, 0,
];
const NO_BALLS: [i64; 0] = [];
const FIRST: [u16; 3] = [halfspace(0), halfspace(1), INTERSECTION];
const SECOND: [u16; 3] = [halfspace(2), halfspace(3), INTERSECTION];

fn judged() -> Result<String, Refusal> {
    let universe = Universe { axes: 2, bits: 2, frame_bits: 2 };
    let window = Window { first: 0, last: 3 };
    let leaves = durbizhan::leaves(&FIRST) + durbizhan::leaves(&SECOND);
    let balls = durbizhan::balls(&FIRST) + durbizhan::balls(&SECOND);
    let room = durbizhan::room(universe, leaves, balls)?;
    let mut out = vec![0; room as usize];
    let found = durbizhan::verdict(universe, &ROWS, &NO_BALLS, &FIRST, &SECOND, window, &mut out)?;
    // asked for its numbers, the expression that was written has the same verdict
    let numbers = durbizhan::numbers(universe, &out[..found.length], window)?;
    assert_eq!(numbers.verdict, found.verdict);
    let last = match found.verdict {
        Verdict::Clear => "clear".to_string(),
        Verdict::Hit { first, last, voxels } => format!("hit first {first} last {last} voxels {voxels}"),
    };
    let (axes, bits, raw) = (universe.axes, universe.bits, found.length);
    Ok(format!("axes {axes} bits {bits}\nleaves {leaves} raw {raw} room {room}\n{last}"))
}

fn main() -> std::io::Result<ExitCode> {
    if let Some(name) = std::env::args_os().nth(1) {
        print!("{}", durbizhan::lines(&std::fs::read(name)?));
        return Ok(ExitCode::SUCCESS);
    }
    match judged() {
        Ok(lines) => {
            println!("{lines}");
            return Ok(ExitCode::SUCCESS);
        }
        Err(refusal @ Refusal::NoRoom { needed }) => println!("refused {} needed {needed}", refusal.number()),
        Err(refusal) => println!("refused {}", refusal.number()),
    }
    Ok(ExitCode::FAILURE)
}
