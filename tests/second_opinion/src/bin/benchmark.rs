//! benchmark: how long the library takes against the plain fast converter, on generated polyhedra and balls. Both are
//! compiled for this machine, both check what they are given, both answers are compared before anything is timed.
//! The table is in Markdown; times are the best of several runs, in nanoseconds per block examined and word of
//! the trees (for the numbers: per symbol).

#[allow(dead_code)]
#[path = "../face.rs"]
mod face;

use second_opinion::fast::{plain_merged_fast, plain_numbers_fast, plain_raw_fast, plain_verdict_fast, Run};
use second_opinion::fast::{plain_octree_fast, plain_sweep_fast, plain_unoctree_fast};
use second_opinion::generate::Random;
use second_opinion::scenes::{ball_at, clusters, convex, crowd, icosahedron, wall, Bits, Scene};
use std::hint::black_box;
use std::time::Instant;

/// Two heads that overlap; a crowd of 32 balls about a head; and a head less a moving wall.
fn with_balls(cases: &mut Vec<Scene>, case: Bits) {
    let (axes, bits, frame_bits) = case;
    let mut push = |name: &str, rows: Vec<i64>, balls: Vec<i64>, first, second| {
        cases.push(Scene { name: name.to_string(), axes, bits, frame_bits, rows, balls, first, second });
    };
    let (head, other) = (ball_at([0.4, 0.5, 0.5], 0.35, case), ball_at([0.7, 0.55, 0.5], 0.25, case));
    push("two balls", vec![], [head, other].concat(), vec![512], vec![513]);
    let mut balls = head.to_vec();
    let crowd = crowd(&mut balls, 32, case);
    push("a ball and 32", vec![], balls, vec![512], crowd);
    push("a ball less a wall", wall(case).to_vec(), head.to_vec(), vec![512, 256, 4], vec![1]);
}

fn cases() -> Vec<Scene> {
    let mut random = Random::new(2024);
    let mut cases = Vec::new();
    let sizes: [(&str, usize, usize); 5] =
        [("two planes", 1, 1), ("convex and convex", 4, 4), ("convex and union", 10, 10), ("convex and union", 32, 32), ("union and convex", 60, 66)];
    // rooms as long as wide, then long shots
    let universes: [Bits; 9] =
        [(2, 6, 6), (2, 10, 10), (3, 4, 4), (3, 6, 6), (4, 3, 3), (4, 4, 4), (2, 6, 11), (3, 4, 8), (4, 3, 6)];
    for case in universes {
        let (axes, bits, frame_bits) = case;
        for (name, one, two) in sizes {
            let mut rows = Vec::new();
            let (first, second) = match name {
                "convex and union" => (
                    convex(&mut random, &mut rows, one, 0.5, case),
                    clusters(&mut random, &mut rows, two, case),
                ),
                "union and convex" => (
                    clusters(&mut random, &mut rows, one, case),
                    convex(&mut random, &mut rows, two, 0.5, case),
                ),
                _ => (
                    convex(&mut random, &mut rows, one, 0.45, case),
                    convex(&mut random, &mut rows, two, 0.55, case),
                ),
            };
            cases.push(Scene { name: name.to_string(), axes, bits, frame_bits, rows, balls: vec![], first, second });
        }
        if axes == 3 && frame_bits == bits {
            let mut rows = Vec::new();
            let first = icosahedron(&mut rows, [0.5; 3], [0.5; 3], 0.4, case);
            let one = Scene {
                name: "icosahedron".into(),
                axes,
                bits,
                frame_bits,
                rows: rows.clone(),
                balls: vec![],
                first: first.clone(),
                second: vec![1],
            };
            cases.push(one);
            let centre = [0.6, 0.55, 0.5];
            let second = icosahedron(&mut rows, centre, centre, 0.3, case);
            let (name, balls) = ("two icosahedra".into(), vec![]);
            cases.push(Scene { name, axes, bits, frame_bits, rows, balls, first, second });
        }
        with_balls(&mut cases, case);
    }
    cases
}

/// The best times of one call to each of two, run in turn so that both meet the same disturbances.
fn best(mut library: impl FnMut(), mut plain: impl FnMut()) -> (f64, f64) {
    fn timed(calls: u32, call: &mut impl FnMut()) -> f64 {
        let began = Instant::now();
        for _ in 0..calls {
            call();
        }
        began.elapsed().as_secs_f64() / calls as f64
    }
    let once = timed(1, &mut library).max(timed(1, &mut plain)).max(1e-8);
    let calls = (0.001 / once).clamp(1.0, 100_000.0) as u32;
    // many short runs: the least of them meets no disturbance
    let runs = (0.1 / (once * calls as f64)).clamp(5.0, 30.0) as u32;
    let (mut by_library, mut by_plain) = (f64::INFINITY, f64::INFINITY);
    for _ in 0..runs {
        by_library = by_library.min(timed(calls, &mut library));
        by_plain = by_plain.min(timed(calls, &mut plain));
    }
    (by_library, by_plain)
}

struct Table {
    ratios: Vec<f64>,
}

impl Table {
    fn new(title: &str) -> Table {
        println!("\n## {title}\n");
        println!("| case | blocks examined | words | library ns | plain ns | ratio |");
        println!("|---|---:|---:|---:|---:|---:|");
        Table { ratios: Vec::new() }
    }

    fn row(&mut self, case: &Scene, blocks: usize, words: usize, (library, plain): (f64, f64)) {
        let unit = 1e9 / (blocks as f64 * words as f64);
        println!(
            "| {} | {blocks} | {words} | {:.2} | {:.2} | {:.2} |",
            case.text(), library * unit, plain * unit, library / plain,
        );
        self.ratios.push(library / plain);
    }

    fn end(self) {
        let mean = (self.ratios.iter().map(|ratio| ratio.ln()).sum::<f64>() / self.ratios.len() as f64).exp();
        let worst = self.ratios.iter().copied().fold(0.0, f64::max);
        println!("\nGeometric mean of the ratios {mean:.2}, greatest {worst:.2}.");
    }
}

/// The plain side begins where the library does: with the checks.
fn checked(case: &Scene) -> Run {
    let trees: [&[u16]; 2] = [&case.first, &case.second];
    Run::checked(case.axes, case.bits, case.frame_bits, &case.rows, &case.balls, &trees).expect("in order")
}

fn raw(cases: &[Scene], raws: &[Vec<u8>], title: &str, exact: bool) {
    let mut table = Table::new(title);
    for (case, raw) in cases.iter().zip(raws) {
        let lent = if exact { raw.len() } else { checked(case).room() as usize };
        let (mut out, mut plain_out) = (vec![0; lent], vec![0; lent]);
        let times = best(
            || {
                let mut length = [0];
                let number = face::raw_two(
                    case.axes, case.bits, case.frame_bits, &case.rows, &case.balls, &case.first, &case.second, &mut out,
                    &mut length,
                );
                assert_eq!((number, length[0] as usize), (0, raw.len()));
                black_box(&out);
            },
            || {
                assert_eq!(plain_raw_fast(&checked(case), &mut plain_out), Ok(raw.len()));
                black_box(&plain_out);
            },
        );
        assert!(out == plain_out, "the expressions differ");
        table.row(case, raw.len(), case.words(), times);
    }
    table.end();
}

fn merged(cases: &[Scene], raws: &[Vec<u8>], merged: &[Vec<u8>], title: &str, exact: bool) {
    let mut table = Table::new(title);
    for ((case, raw), merged) in cases.iter().zip(raws).zip(merged) {
        let lent = if exact { merged.len() } else { checked(case).room() as usize };
        let (mut out, mut plain_out) = (vec![0; lent], vec![0; lent]);
        let times = best(
            || {
                let mut length = [0];
                let number = face::merged_two(
                    case.axes, case.bits, case.frame_bits, &case.rows, &case.balls, &case.first, &case.second, &mut out,
                    &mut length,
                );
                assert_eq!((number, length[0] as usize), (0, merged.len()));
                black_box(&out);
            },
            || {
                assert_eq!(plain_merged_fast(&checked(case), &mut plain_out), Ok(merged.len()));
                black_box(&plain_out);
            },
        );
        assert!(out == plain_out, "the expressions differ");
        table.row(case, raw.len(), case.words(), times);
    }
    table.end();
}

/// The middle half of the frames.
fn window(case: &Scene) -> (u64, u64) {
    let frames = 1u64 << case.frame_bits;
    (frames / 4, 3 * frames / 4)
}

fn numbers(cases: &[Scene], expressions: &[Vec<u8>], title: &str) {
    let mut table = Table::new(title);
    for (case, symbols) in cases.iter().zip(expressions) {
        if symbols.len() < 200 {
            continue;
        }
        let (from, to) = window(case);
        let (axes, bits, frame_bits) = (case.axes, case.bits, case.frame_bits);
        let fields = plain_numbers_fast(axes, bits, frame_bits, symbols, from, to).expect("well-formed");
        let times = best(
            || {
                let mut answer = [0; 5];
                let number = face::numbers(axes, bits, frame_bits, black_box(symbols), from, to, &mut answer);
                assert_eq!((number, answer), (0, fields));
            },
            || assert_eq!(plain_numbers_fast(axes, bits, frame_bits, black_box(symbols), from, to), Some(fields)),
        );
        table.row(case, symbols.len(), 1, times);
    }
    table.end();
}

/// A report over the middle half of the frames beside the numbers of its expressions: of one long expression, and of as
/// many copies of a short one as a list may have, each asked for its numbers alone.
fn reports(cases: &[Scene], expressions: &[Vec<u8>], title: &str, copies: usize, symbols: std::ops::Range<usize>) {
    println!("\n## {title}\n");
    println!("| case | symbols | report ns | numbers ns | ratio |");
    println!("|---|---:|---:|---:|---:|");
    for (case, expression) in cases.iter().zip(expressions) {
        if !symbols.contains(&expression.len()) {
            continue;
        }
        let (from, to) = window(case);
        let (axes, bits, frame_bits) = (case.axes, case.bits, case.frame_bits);
        let list = expression.repeat(copies);
        let mut counts = vec![0; (to - from + 1) as usize];
        let mut fields = [0; 5];
        assert_eq!(face::numbers(axes, bits, frame_bits, expression, from, to, &mut fields), 0);
        let (report, numbers) = best(
            || {
                let mut answer = [0; 2];
                let list = black_box(&list);
                let number = face::report(axes, bits, frame_bits, list, from, to, &mut counts, &mut answer);
                assert_eq!((number, answer), (0, [to - from + 1, copies as u64 * fields[4]]));
            },
            || {
                for expression in black_box(&list).chunks(expression.len()) {
                    let mut answer = [0; 5];
                    let number = face::numbers(axes, bits, frame_bits, expression, from, to, &mut answer);
                    assert_eq!((number, answer), (0, fields));
                }
            },
        );
        let unit = 1e9 / list.len() as f64;
        println!(
            "| {} | {} | {:.2} | {:.2} | {:.2} |",
            case.text(), list.len(), report * unit, numbers * unit, report / numbers,
        );
    }
}

/// Expressions swept along the frame axis, into room as long as they are.
fn sweeps(cases: &[Scene], expressions: &[Vec<u8>], title: &str) {
    let mut table = Table::new(title);
    for (case, symbols) in cases.iter().zip(expressions) {
        if symbols.len() < 200 {
            continue;
        }
        let (axes, bits, frame_bits) = (case.axes, case.bits, case.frame_bits);
        let (mut out, mut plain_out) = (vec![0; symbols.len()], vec![0; symbols.len()]);
        let length = plain_sweep_fast(axes, bits, frame_bits, axes, symbols, &mut plain_out).expect("well-formed");
        let times = best(
            || {
                let mut answer = [0; 4];
                let number = face::sweep(axes, bits, frame_bits, axes, black_box(symbols), &mut out, &mut answer);
                assert_eq!((number, answer[3] as usize), (0, length));
                black_box(&out);
            },
            || {
                let symbols = black_box(symbols);
                assert_eq!(plain_sweep_fast(axes, bits, frame_bits, axes, symbols, &mut plain_out), Some(length));
                black_box(&plain_out);
            },
        );
        assert!(out == plain_out, "the sweeps differ");
        table.row(case, symbols.len(), 1, times);
    }
    table.end();
}

/// Expressions of three axes with equal bits to octrees and back, into room that always suffices.
fn octrees(cases: &[Scene], expressions: &[Vec<u8>]) {
    let cubes: Vec<_> = cases.iter().zip(expressions).filter(|(case, symbols)| {
        case.axes == 3 && case.bits == case.frame_bits && symbols.len() >= 200
    }).collect();
    let mut back = Vec::new();
    let mut table = Table::new("The expression exported as an octree (per symbol)");
    for (case, symbols) in &cubes {
        let bits = case.bits;
        let (mut out, mut plain_out) = (vec![0; 4 * symbols.len()], vec![0; 4 * symbols.len()]);
        let length = plain_octree_fast(bits, symbols, &mut plain_out).expect("well-formed");
        let times = best(
            || {
                let mut answer = [0; 1];
                let number = face::octree_export(3, bits, bits, black_box(symbols), &mut out, &mut answer);
                assert_eq!((number, answer[0] as usize), (0, length));
                black_box(&out);
            },
            || {
                assert_eq!(plain_octree_fast(bits, black_box(symbols), &mut plain_out), Some(length));
                black_box(&plain_out);
            },
        );
        assert!(out == plain_out, "the octrees differ");
        table.row(case, symbols.len(), 1, times);
        back.push(out[..length].to_vec());
    }
    table.end();
    let mut table = Table::new("The octree imported as an expression (per symbol)");
    for ((case, _), octree) in cubes.iter().zip(&back) {
        let bits = case.bits;
        let (mut out, mut plain_out) = (vec![0; 2 * octree.len()], vec![0; 2 * octree.len()]);
        let length = plain_unoctree_fast(bits, octree, &mut plain_out).expect("an octree");
        let times = best(
            || {
                let mut answer = [0; 1];
                let number = face::octree_import(3, bits, bits, black_box(octree), &mut out, &mut answer);
                assert_eq!((number, answer[0] as usize), (0, length));
                black_box(&out);
            },
            || {
                assert_eq!(plain_unoctree_fast(bits, black_box(octree), &mut plain_out), Some(length));
                black_box(&plain_out);
            },
        );
        assert!(out == plain_out, "the expressions differ");
        table.row(case, octree.len(), 1, times);
    }
    table.end();
}

fn verdict(cases: &[Scene], raws: &[Vec<u8>], title: &str, exact: bool) {
    let mut table = Table::new(title);
    for (case, raw) in cases.iter().zip(raws) {
        let (from, to) = window(case);
        let lent = if exact { raw.len() } else { checked(case).room() as usize };
        let (mut out, mut plain_out) = (vec![0; lent], vec![0; lent]);
        let fields = plain_verdict_fast(&checked(case), from, to, &mut plain_out).expect("it fits");
        let times = best(
            || {
                let mut answer = [0; 5];
                let number = face::verdict(
                    case.axes, case.bits, case.frame_bits, &case.rows, &case.balls, &case.first, &case.second, from, to,
                    &mut out, &mut answer,
                );
                assert_eq!((number, answer), (0, fields));
                black_box(&out);
            },
            || {
                assert_eq!(plain_verdict_fast(&checked(case), from, to, &mut plain_out), Ok(fields));
                black_box(&plain_out);
            },
        );
        assert!(out == plain_out, "the expressions differ");
        table.row(case, raw.len(), case.words(), times);
    }
    table.end();
}

/// Sure and possible contact beside the library's own verdict, over the same window: the middle count is the verdict's.
/// The times are per block of the raw expression, though contact looks at those in the window alone.
fn contacts(cases: &[Scene], raws: &[Vec<u8>], title: &str) {
    let mut table = Table::new(title);
    for (case, raw) in cases.iter().zip(raws) {
        let (from, to) = window(case);
        let mut out = vec![0; checked(case).room() as usize];
        let fields = plain_verdict_fast(&checked(case), from, to, &mut out).expect("it fits");
        let times = best(
            || {
                let mut answer = [0; 3];
                let number = face::contacts(
                    case.axes, case.bits, case.frame_bits, &case.rows, &case.balls, &case.first, &case.second, from, to,
                    &mut answer,
                );
                assert_eq!((number, answer[1]), (0, fields[3]));
                assert!(answer[0] <= answer[1] && answer[1] <= answer[2]);
            },
            || {
                let mut answer = [0; 5];
                let number = face::verdict(
                    case.axes, case.bits, case.frame_bits, &case.rows, &case.balls, &case.first, &case.second, from, to,
                    &mut out, &mut answer,
                );
                assert_eq!((number, answer), (0, fields));
                black_box(&out);
            },
        );
        table.row(case, raw.len(), case.words(), times);
    }
    table.end();
}

fn main() {
    let cases = cases();
    println!("# Library against plain Rust");
    println!("\nTimes are nanoseconds per block examined and word of the trees, the best of several runs; ratio is library / plain.");
    println!("Two trees are intersected. Plain Rust evaluates the full tree in every block, once: where the room lent may not");
    println!("suffice it gathers the symbols in memory of its own and copies them, and the library has no memory of its own.");
    let raws: Vec<Vec<u8>> = cases
        .iter()
        .map(|case| {
            let run = checked(case);
            let mut out = vec![0; run.room() as usize];
            let length = plain_raw_fast(&run, &mut out).expect("the formula's room suffices");
            out.truncate(length);
            out
        })
        .collect();
    let short: Vec<Vec<u8>> = cases
        .iter()
        .zip(&raws)
        .map(|(case, raw)| {
            let mut out = vec![0; raw.len()];
            let length = plain_merged_fast(&checked(case), &mut out).expect("no longer than raw");
            out.truncate(length);
            out
        })
        .collect();
    raw(&cases, &raws, "Raw, room lent at the formula's size", false);
    raw(&cases, &raws, "Raw, room lent for exactly the symbols", true);
    merged(&cases, &raws, &short, "Merged, room lent at the formula's size", false);
    merged(&cases, &raws, &short, "Merged, room lent for exactly the symbols", true);
    numbers(&cases, &raws, "Numbers of the raw expression over the middle half of the frames (per symbol)");
    numbers(&cases, &short, "Numbers of the merged expression over the middle half of the frames (per symbol)");
    let (long, few) = (10_000..usize::MAX, 1..200);
    reports(&cases, &raws, "A report on one long raw expression beside its numbers (per symbol)", 1, long);
    reports(&cases, &short, "A report on 256 short merged expressions beside their numbers (per symbol)", 256, few);
    sweeps(&cases, &raws, "The raw expression swept along the frame axis (per symbol)");
    sweeps(&cases, &short, "The merged expression swept along the frame axis (per symbol)");
    octrees(&cases, &raws);
    verdict(&cases, &raws, "Verdict on the middle half of the frames, room lent at the formula's size", false);
    verdict(&cases, &raws, "Verdict on the middle half of the frames, room lent for exactly the symbols", true);
    contacts(&cases, &raws, "Sure and possible contact in the middle half of the frames beside the library's verdict");
}
