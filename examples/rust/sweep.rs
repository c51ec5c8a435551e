//! The space that a mover sweeps, for whoever builds a set: tree 1 of a scene file, converted, swept along the frame
//! axis and written as a shape file, through the crate in rust/durbizhan. At the repository's top, on x86-64 (on
//! another processor `tests/native` builds the archive, as target/native/libexport.a):
//!
//! ```sh
//! tests/native
//! cargo run --offline --manifest-path rust/durbizhan/Cargo.toml --target-dir target/rust --example sweep \
//!     examples/sleeve.scene target/sleeve.shape
//! ```
//!
//! The space has one axis fewer, and its last axis stands as its frame axis. It prints
//!
//! ```text
//! axes 3 bits 4 frame 4
//! symbols 31 volume 256
//! ```

use durbizhan::{Refusal, Universe, Window, SHAPE_HEADER_LENGTH};
use std::process::ExitCode;

/// Tree 1 of a scene, converted. The first call lends no room, and is told how much it takes.
fn converted(scene: &durbizhan::Scene) -> Result<Vec<u8>, Refusal> {
    let convert = |out: &mut [u8]| durbizhan::merged_one(scene.universe, &scene.rows, &scene.balls, &scene.first, out);
    let length = match convert(&mut []) {
        Err(Refusal::NoRoom { needed }) => needed as usize,
        other => other?,
    };
    let mut mover = vec![0; length];
    convert(&mut mover)?;
    Ok(mover)
}

/// The space of a scene's mover, and its universe. Room as long as the mover is always suffices.
fn space_of(scene: &[u8]) -> Result<(Universe, Vec<u8>), Refusal> {
    let scene = durbizhan::scene(scene)?;
    let mover = converted(&scene)?;
    let mut space = vec![0; mover.len()];
    let swept = durbizhan::sweep(scene.universe, &mover, scene.universe.axes, &mut space)?;
    space.truncate(swept.length);
    Ok((swept.universe, space))
}

/// What is printed of a scene, and the shape file of its mover's space.
fn told(scene: &[u8]) -> Result<(String, Vec<u8>), Refusal> {
    let (universe, space) = space_of(scene)?;
    let Universe { axes, bits, frame_bits } = universe;
    let window = Window { first: 0, last: (1 << frame_bits) - 1 };
    let volume = durbizhan::numbers(universe, &space, window)?.volume;
    let mut file = vec![0; space.len() + SHAPE_HEADER_LENGTH];
    durbizhan::shape_write(universe, &space, &mut file)?;
    let symbols = space.len();
    Ok((format!("axes {axes} bits {bits} frame {frame_bits}\nsymbols {symbols} volume {volume}"), file))
}

fn main() -> std::io::Result<ExitCode> {
    let names: Vec<_> = std::env::args_os().skip(1).collect();
    let [scene, shape] = &names[..] else {
        eprintln!("usage: sweep SCENE SHAPE");
        return Ok(ExitCode::from(2));
    };
    match told(&std::fs::read(scene)?) {
        Ok((lines, file)) => {
            std::fs::write(shape, file)?;
            println!("{lines}");
            Ok(ExitCode::SUCCESS)
        }
        Err(refusal) => {
            println!("refused {}", refusal.number());
            Ok(ExitCode::FAILURE)
        }
    }
}
