//! second_opinion [seed] [rounds] [entry point]: the library and the plain implementation on generated cases,
//! entry point by entry point. Refusal numbers, answers and buffers must be the same, byte for byte; buffers are
//! lent with a pattern in them and with guards on both sides, and compared whole. The first difference is printed
//! with its whole case, and the exit status is 1.
//!   second_opinion --program COMMAND [seed] [rounds]: the program `clearance`, started as COMMAND, on generated
//! scenes.

#[allow(dead_code)]
mod face;

use second_opinion::fast::Run;
use second_opinion::generate::{self, Random};
use second_opinion::plain::{self, ACCEPTED};
use second_opinion::plain::{
    BAD_EXPRESSION, BAD_FILE, BAD_KEYS, BAD_PROXY, BAD_ROWS, BAD_STEP, BAD_TREE, BAD_UNIVERSE, NOT_MERGED, NO_ROOM,
    OUTSIDE, OVERFULL_TREE,
};
use std::collections::BTreeMap;
use std::fmt::Write;

/// Conversions of more blocks than this are compared among the long ones alone.
const MOST_BLOCKS: u64 = 8_400;

/// The long ones have more blocks than the first, and at most the last; every other has more than the middle one. The
/// library's scratch room is as large as the first two. d 4, k 10, f 12 can have 2^43 − 1 blocks: those are left out.
const LONG_BLOCKS: [u64; 3] = [4_096, 65_536, 140_000];

const GUARD: usize = 24;

/// A buffer to lend: a pattern, guards included.
struct Lent<T> {
    all: Vec<T>,
}

impl<T: Copy> Lent<T> {
    fn new(length: usize, pattern: impl Fn(usize) -> T) -> Lent<T> {
        Lent { all: (0..length + 2 * GUARD).map(pattern).collect() }
    }

    fn lent(&mut self) -> &mut [T] {
        let end = self.all.len() - GUARD;
        &mut self.all[GUARD..end]
    }

    fn array<const N: usize>(&mut self) -> &mut [T; N] {
        self.lent().try_into().expect("lent with this length")
    }
}

/// No symbol, no small number, and no two neighbours alike.
fn bytes(length: usize) -> Lent<u8> {
    Lent::new(length, |place| 0x80 | (place as u8).wrapping_mul(37))
}

fn longs(length: usize) -> Lent<u64> {
    Lent::new(length, |place| 0xa5a5_0000_0000_0000 + place as u64)
}

fn rows_lent(length: usize) -> Lent<i64> {
    Lent::new(length, |place| -0x5a5a_0000_0000_0000 - place as i64)
}

fn words_lent(length: usize) -> Lent<u16> {
    Lent::new(length, |place| 0xb000 | place as u16)
}

/// All that a call gave.
#[derive(PartialEq)]
struct Outcome {
    number: u64,
    /// name and contents, guards included, of the answer and the lent buffers
    contents: Vec<(&'static str, Contents)>,
}

#[derive(PartialEq)]
enum Contents {
    Count(u64),
    Text(Vec<u8>),
    Bytes(Vec<u8>),
    Words(Vec<u16>),
    Rows(Vec<i64>),
    Longs(Vec<u64>),
}

impl From<Lent<u8>> for Contents {
    fn from(lent: Lent<u8>) -> Contents {
        Contents::Bytes(lent.all)
    }
}

impl From<Lent<u16>> for Contents {
    fn from(lent: Lent<u16>) -> Contents {
        Contents::Words(lent.all)
    }
}

impl From<Lent<i64>> for Contents {
    fn from(lent: Lent<i64>) -> Contents {
        Contents::Rows(lent.all)
    }
}

impl From<Lent<u64>> for Contents {
    fn from(lent: Lent<u64>) -> Contents {
        Contents::Longs(lent.all)
    }
}

impl Contents {
    /// The contents without the guards and the tail that is as it was lent, and what became of those.
    fn told(&self) -> String {
        fn told<T: Copy + PartialEq + std::fmt::Debug>(all: &[T], fresh: &[T]) -> (Vec<T>, String) {
            let end = all.len() - GUARD;
            let (inner, same) = (&all[GUARD..end], &fresh[GUARD..end]);
            let last = (0..inner.len()).rev().find(|&place| inner[place] != same[place]);
            let changed = last.map_or(0, |place| place + 1);
            let mut note = format!(", then {} as they were lent", inner.len() - changed);
            if all[..GUARD] != fresh[..GUARD] || all[end..] != fresh[end..] {
                let _ = write!(note, "; WRITTEN OUTSIDE: before it {:?}, after it {:?}", &all[..GUARD], &all[end..]);
            }
            (inner[..changed].to_vec(), note)
        }
        match self {
            Contents::Count(count) => count.to_string(),
            Contents::Text(text) => format!("\"{}\"", text.escape_ascii()),
            Contents::Bytes(all) => {
                let (inner, note) = told(all, &bytes(all.len() - 2 * GUARD).all);
                format!("\"{}\"{note}", inner.escape_ascii())
            }
            Contents::Words(all) => {
                let (inner, note) = told(all, &words_lent(all.len() - 2 * GUARD).all);
                format!("{inner:?}{note}")
            }
            Contents::Rows(all) => {
                let (inner, note) = told(all, &rows_lent(all.len() - 2 * GUARD).all);
                format!("{inner:?}{note}")
            }
            Contents::Longs(all) => {
                let (inner, note) = told(all, &longs(all.len() - 2 * GUARD).all);
                format!("{inner:?}{note}")
            }
        }
    }
}

/// After so many cases every one of those numbers has come.
const MANY_CASES: u64 = 3_000;

/// One entry point's comparison.
struct Line {
    name: &'static str,
    /// the numbers that the rules let it refuse with
    refusals: &'static [u64],
    seed: u64,
    cases: u64,
    /// how many of each number, by the plain implementation
    counts: BTreeMap<u64, u64>,
}

impl Line {
    fn new(name: &'static str, refusals: &'static [u64], seed: u64) -> Line {
        Line { name, refusals, seed, cases: 0, counts: BTreeMap::new() }
    }

    fn compare(&mut self, plain: Outcome, library: Outcome, case: impl Fn() -> String) {
        self.cases += 1;
        *self.counts.entry(plain.number).or_default() += 1;
        let why = if plain != library {
            "the library and the plain implementation differ"
        } else if plain.number != ACCEPTED && !self.refusals.contains(&plain.number) {
            "this is no number for it to refuse with"
        } else {
            return;
        };
        println!("{}: {why}", self.name);
        println!("seed {}, case {}", self.seed, self.cases);
        println!("{}", case());
        for (side, outcome) in [("plain", &plain), ("library", &library)] {
            println!("{side}: returned {}", outcome.number);
            for (name, contents) in &outcome.contents {
                println!("{side}: {name} = {}", contents.told());
            }
        }
        std::process::exit(1);
    }

    fn finish(&self) {
        let mut text = format!("{}: {} cases;", self.name, self.cases);
        for (&number, count) in &self.counts {
            let _ = match number {
                ACCEPTED => write!(text, " accepted {count}"),
                _ => write!(text, ", {number}: {count}"),
            };
        }
        println!("{text}");
        let unmet = self.refusals.iter().find(|number| !self.counts.contains_key(number));
        if let (Some(number), MANY_CASES..) = (unmet, self.cases) {
            println!("{}: no case was refused {number}", self.name);
            std::process::exit(1);
        }
    }
}

fn text_of(expression: &[u8]) -> String {
    format!("b\"{}\"", expression.escape_ascii())
}

/// How many symbols a conversion needs, and the formula's room; nothing where it is too long to be compared.
fn needed(case: &generate::RunCase, trees: &[&[u16]]) -> Option<(u64, u64)> {
    match Run::checked(case.axes, case.bits, case.frame_bits, &case.rows, &case.balls, trees) {
        Ok(run) => run.blocks_within(MOST_BLOCKS).map(|blocks| (blocks, run.room())),
        Err(_) => Some((5, 5)),
    }
}

/// The room to lend: around what is needed, at times around the formula's.
fn lent_for(random: &mut Random, needed: u64, formula: u64) -> usize {
    if formula < 1 << 16 && random.chance(12) {
        formula as usize + random.pick(&[0, 0, 1]) - random.pick(&[0, 0, 1])
    } else {
        generate::room(random, needed)
    }
}

fn universe_text([axes, bits, frame_bits]: [u64; 3]) -> String {
    format!("axes = {axes}\nbits = {bits}\nframe_bits = {frame_bits}")
}

fn run_text(case: &generate::RunCase, trees: usize, lent: usize) -> String {
    let mut text = universe_text([case.axes, case.bits, case.frame_bits]);
    let _ = write!(text, "\nrows = {:?}\nballs = {:?}", case.rows, case.balls);
    let _ = write!(text, "\nfirst = {:?}", case.first);
    if trees == 2 {
        let _ = write!(text, "\nsecond = {:?}", case.second);
    }
    let _ = write!(text, "\nout: {lent} bytes lent");
    text
}

type Room = fn(u64, u64, u64, u64, u64, &mut [u64; 1]) -> u64;
type RawOne = fn(u64, u64, u64, &[i64], &[i64], &[u16], &mut [u8], &mut [u64; 1]) -> u64;
type RawTwo = fn(u64, u64, u64, &[i64], &[i64], &[u16], &[u16], &mut [u8], &mut [u64; 1]) -> u64;
type Verdict = fn(u64, u64, u64, &[i64], &[i64], &[u16], &[u16], u64, u64, &mut [u8], &mut [u64; 5]) -> u64;
type Numbers = fn(u64, u64, u64, &[u8], u64, u64, &mut [u64; 5]) -> u64;
type Report = fn(u64, u64, u64, &[u8], u64, u64, &mut [u64], &mut [u64; 2]) -> u64;
type Sweep = fn(u64, u64, u64, u64, &[u8], &mut [u8], &mut [u64; 4]) -> u64;
type Colour = fn(u64, u64, u64, &[u8], u64, u64, u64, u64, &mut [u64; 1]) -> u64;
type Part = fn(u64, u64, u64, &[u8], &[u8], &mut [u64; 2]) -> u64;
type Rewrite<const N: usize> = fn(u64, u64, u64, &[u8], &mut [u8], &mut [u64; N]) -> u64;
type SceneRead =
    fn(&[u8], &mut [i64; 1280], &mut [i64; 256], &mut [u16; 255], &mut [u16; 255], &mut [u64; 10]) -> u64;
type ShapeRead = fn(&[u8], &mut [u8], &mut [u64; 4]) -> u64;
type MoverVerdict = fn(
    u64, u64, u64, [[f64; 3]; 3], &[u64], &[f64], &[i64], &[i64], &[u16], &mut [u8], &mut [u64; 5],
) -> u64;
type BoxRows = fn([f64; 3], [f64; 3], [f64; 3], &mut [i64; 30]) -> u64;
type CutRow = fn([f64; 3], f64, [f64; 3], &mut [i64; 5]) -> u64;

fn rooms(line: &mut Line, random: &mut Random) {
    let [axes, bits, frame_bits] = if random.chance(60) {
        let any = [plain::MOST_AXES + 1, plain::MOST_BITS + 1, plain::MOST_FRAME_BITS + 1].map(|end| random.below(end));
        generate::in_range(any)
    } else {
        generate::universe(random, 50)
    };
    let (leaves, balls) = (generate::leaf_count(random), generate::ball_count(random));
    let [plain, library] = [plain::room as Room, face::room].map(|room| {
        let mut answer = longs(1);
        let number = room(axes, bits, frame_bits, leaves, balls, answer.array());
        Outcome { number, contents: vec![("answer", answer.into())] }
    });
    line.compare(plain, library, || {
        format!("{}\nleaves = {leaves}\nballs = {balls}", universe_text([axes, bits, frame_bits]))
    });
}

/// How many words are of a kind.
fn counts(line: &mut Line, random: &mut Random, plain: fn(&[u16]) -> u64, library: fn(&[u16]) -> u64) {
    let words = generate::any_words(random);
    let [plain, library] = [plain, library].map(|count| {
        Outcome { number: ACCEPTED, contents: vec![("count", Contents::Count(count(&words)))] }
    });
    line.compare(plain, library, || format!("words = {words:?}"));
}

fn one_tree(line: &mut Line, random: &mut Random, plain: RawOne, library: RawOne, merged: bool) {
    let case = generate::run(random);
    let Some((blocks, formula)) = needed(&case, &[&case.first]) else { return };
    let mut need = [blocks];
    if merged && blocks > 1 {
        // the room is chosen around the merged length
        plain(case.axes, case.bits, case.frame_bits, &case.rows, &case.balls, &case.first, &mut [], &mut need);
    }
    let lent = lent_for(random, need[0], formula);
    let [plain, library] = [plain, library].map(|convert| {
        let (mut out, mut answer) = (bytes(lent), longs(1));
        let (rows, balls, words) = (&case.rows, &case.balls, &case.first);
        let number =
            convert(case.axes, case.bits, case.frame_bits, rows, balls, words, out.lent(), answer.array());
        Outcome { number, contents: vec![("answer", answer.into()), ("out", out.into())] }
    });
    line.compare(plain, library, || run_text(&case, 1, lent));
}

fn two_trees(line: &mut Line, random: &mut Random, plain: RawTwo, library: RawTwo, merged: bool) {
    let case = generate::run(random);
    let Some((blocks, formula)) = needed(&case, &[&case.first, &case.second]) else { return };
    let mut need = [blocks];
    if merged && blocks > 1 {
        need[0] = length_of(plain, &case);
    }
    let lent = lent_for(random, need[0], formula);
    compare_two_trees(line, &case, lent, plain, library);
}

/// How many symbols a conversion of two trees needs.
fn length_of(convert: RawTwo, case: &generate::RunCase) -> u64 {
    let (rows, balls, mut need) = (&case.rows, &case.balls, [0]);
    convert(case.axes, case.bits, case.frame_bits, rows, balls, &case.first, &case.second, &mut [], &mut need);
    need[0]
}

fn compare_two_trees(line: &mut Line, case: &generate::RunCase, lent: usize, plain: RawTwo, library: RawTwo) {
    let [plain, library] = [plain, library].map(|convert| {
        let (mut out, mut answer) = (bytes(lent), longs(1));
        let number = convert(
            case.axes, case.bits, case.frame_bits, &case.rows, &case.balls, &case.first, &case.second, out.lent(),
            answer.array(),
        );
        Outcome { number, contents: vec![("answer", answer.into()), ("out", out.into())] }
    });
    line.compare(plain, library, || run_text(case, 2, lent));
}

type Pruned = fn(u64, u64, u64, &[i64], &[i64], &[&[u16]], &mut [i64], &mut [u8], &mut [u64; 3], bool) -> u64;

/// The pruned conversions. What the work room holds is compared where it is to be as it was lent (rule 16.4).
fn pruned(line: &mut Line, random: &mut Random, count: usize, merged: bool) {
    let case = generate::run(random);
    let both: [&[u16]; 2] = [&case.first, &case.second];
    let trees = &both[..count];
    let Some((blocks, formula)) = needed(&case, trees) else { return };
    let call = |convert: Pruned, nodes: usize, lent: usize| {
        let (mut work, mut out, mut answer) = (rows_lent(3 * nodes + 2), bytes(lent), longs(3));
        let number = convert(
            case.axes, case.bits, case.frame_bits, &case.rows, &case.balls, trees, work.lent(), out.lent(),
            answer.array(), merged,
        );
        let scratch = number == ACCEPTED || (number == NO_ROOM && answer.lent()[0] == 0);
        let told: [u64; 3] = *answer.array();
        let mut contents = vec![("answer", answer.into()), ("out", out.into())];
        if !scratch {
            contents.push(("work", work.into()));
        }
        (Outcome { number, contents }, told)
    };
    let (_, [lacks, nodes, _]) = call(plain::pruned, 0, 0);
    let nodes = if lacks == 1 { nodes as usize } else { 3 };
    let (_, [_, need, _]) = call(plain::pruned, nodes, 0);
    let lent = lent_for(random, if merged { need } else { blocks }, formula);
    let nodes = nodes + random.pick(&[0, 0, 0, 1]) - random.pick(&[0, 0, 0, 1]);
    let [plain, library] = [plain::pruned as Pruned, face::pruned as Pruned].map(|convert| call(convert, nodes, lent).0);
    line.compare(plain, library, || format!("{}, work: {nodes} nodes lent", run_text(&case, count, lent)));
}

fn verdicts(line: &mut Line, random: &mut Random) {
    let case = generate::run(random);
    let Some((blocks, formula)) = needed(&case, &[&case.first, &case.second]) else { return };
    let lent = lent_for(random, blocks, formula);
    compare_verdicts(line, &case, lent);
}

fn compare_verdicts(line: &mut Line, case: &generate::RunCase, lent: usize) {
    let [plain, library] = [plain::verdict as Verdict, face::verdict].map(|judge| {
        let (mut out, mut answer) = (bytes(lent), longs(5));
        let number = judge(
            case.axes, case.bits, case.frame_bits, &case.rows, &case.balls, &case.first, &case.second,
            case.first_frame, case.last_frame, out.lent(), answer.array(),
        );
        Outcome { number, contents: vec![("answer", answer.into()), ("out", out.into())] }
    });
    line.compare(plain, library, || {
        format!("{}\nfirst_frame = {}\nlast_frame = {}", run_text(case, 2, lent), case.first_frame, case.last_frame)
    });
}

/// A question over two trees and a window with no room lent, and its answer of so many numbers.
type AtOnce<const N: usize> =
    fn(u64, u64, u64, &[i64], &[i64], &[u16], &[u16], u64, u64, &mut [u64; N]) -> u64;

fn at_once<const N: usize>(line: &mut Line, random: &mut Random, plain: AtOnce<N>, library: AtOnce<N>) {
    let case = generate::run(random);
    if needed(&case, &[&case.first, &case.second]).is_some() {
        compare_at_once(line, &case, plain, library);
    }
}

fn compare_at_once<const N: usize>(line: &mut Line, case: &generate::RunCase, plain: AtOnce<N>, library: AtOnce<N>) {
    let [plain, library] = [plain, library].map(|ask| {
        let mut answer = longs(N);
        let number = ask(
            case.axes, case.bits, case.frame_bits, &case.rows, &case.balls, &case.first, &case.second,
            case.first_frame, case.last_frame, answer.array(),
        );
        Outcome { number, contents: vec![("answer", answer.into())] }
    });
    line.compare(plain, library, || {
        format!("{}\nfirst_frame = {}\nlast_frame = {}", run_text(case, 2, 0), case.first_frame, case.last_frame)
    });
}

/// A conversion of many blocks, and the room to lend: around what is needed, around the scratch room, around the
/// formula's.
fn long_run(
    line: &Line, random: &mut Random, need: impl Fn(&generate::RunCase, u64) -> u64,
) -> (generate::RunCase, usize) {
    let least = LONG_BLOCKS[line.cases as usize % 2];
    loop {
        let case = generate::run(random);
        let trees: [&[u16]; 2] = [&case.first, &case.second];
        let run = Run::checked(case.axes, case.bits, case.frame_bits, &case.rows, &case.balls, &trees);
        let Ok(run) = run else { continue };
        match run.blocks_within(LONG_BLOCKS[2]) {
            Some(blocks) if least < blocks => {
                let around = match random.below(4) {
                    0 => random.pick(&LONG_BLOCKS[..2]),
                    1 if run.room() < 1 << 24 => run.room(),
                    _ => need(&case, blocks),
                };
                return (case, (around + random.pick(&[0, 0, 1]) - random.pick(&[0, 0, 1])) as usize);
            }
            _ => {}
        }
    }
}

fn long_two_trees(line: &mut Line, random: &mut Random, plain: RawTwo, library: RawTwo) {
    let (case, lent) = long_run(line, random, |case, _| length_of(plain, case));
    compare_two_trees(line, &case, lent, plain, library);
}

fn long_verdicts(line: &mut Line, random: &mut Random) {
    let (case, lent) = long_run(line, random, |_, blocks| blocks);
    compare_verdicts(line, &case, lent);
}

fn long_at_once<const N: usize>(line: &mut Line, random: &mut Random, plain: AtOnce<N>, library: AtOnce<N>) {
    let (case, _) = long_run(line, random, |_, blocks| blocks);
    compare_at_once(line, &case, plain, library);
}

fn reading_text(case: &generate::ReadingCase) -> String {
    let universe = universe_text([case.axes, case.bits, case.frame_bits]);
    format!("{universe}\nexpression = {}", text_of(&case.expression))
}

fn well_formed(line: &mut Line, random: &mut Random) {
    let case = generate::reading(random);
    let [plain, library] = [plain::well_formed as fn(u64, u64, u64, &[u8]) -> u64, face::well_formed].map(|ask| {
        Outcome { number: ask(case.axes, case.bits, case.frame_bits, &case.expression), contents: vec![] }
    });
    line.compare(plain, library, || reading_text(&case));
}

fn numbers(line: &mut Line, random: &mut Random) {
    let case = generate::reading(random);
    let [.., frame_bits] = generate::in_range([case.axes, case.bits, case.frame_bits]);
    let (first, last) = generate::window(random, frame_bits);
    let [plain, library] = [plain::numbers as Numbers, face::numbers].map(|ask| {
        let mut answer = longs(5);
        let number = ask(case.axes, case.bits, case.frame_bits, &case.expression, first, last, answer.array());
        Outcome { number, contents: vec![("answer", answer.into())] }
    });
    line.compare(plain, library, || format!("{}\nwindow = {first} {last}", reading_text(&case)));
}

fn reports(line: &mut Line, random: &mut Random) {
    let generate::ReportCase { list: case, window: (first, last), lent } = generate::report(random);
    let [plain, library] = [plain::report as Report, face::report].map(|ask| {
        let (mut counts, mut answer) = (longs(lent), longs(2));
        let (expressions, counted) = (&case.expression, counts.lent());
        let number = ask(case.axes, case.bits, case.frame_bits, expressions, first, last, counted, answer.array());
        Outcome { number, contents: vec![("answer", answer.into()), ("counts", counts.into())] }
    });
    line.compare(plain, library, || {
        format!("{}\nwindow = {first} {last}\ncounts: {lent} lent", reading_text(&case))
    });
}

fn colours(line: &mut Line, random: &mut Random) {
    let case = generate::reading(random);
    let [x, y, z, t] = generate::voxel(random, [case.axes, case.bits, case.frame_bits]);
    let [plain, library] = [plain::colour as Colour, face::colour].map(|ask| {
        let mut answer = longs(1);
        let number = ask(case.axes, case.bits, case.frame_bits, &case.expression, x, y, z, t, answer.array());
        Outcome { number, contents: vec![("answer", answer.into())] }
    });
    line.compare(plain, library, || format!("{}\nvoxel = {x} {y} {z} {t}", reading_text(&case)));
}

fn parts(line: &mut Line, random: &mut Random) {
    let case = generate::reading(random);
    let levels = generate::levels(generate::in_range([case.axes, case.bits, case.frame_bits]));
    let path = generate::any_path(random, levels);
    let [plain, library] = [plain::part as Part, face::part].map(|ask| {
        let mut answer = longs(2);
        let number = ask(case.axes, case.bits, case.frame_bits, &case.expression, &path, answer.array());
        Outcome { number, contents: vec![("answer", answer.into())] }
    });
    line.compare(plain, library, || format!("{}\npath = {path:?}", reading_text(&case)));
}

fn sweeps(line: &mut Line, random: &mut Random) {
    let generate::SweepCase { reading: case, axis } = generate::sweep(random);
    let (axes, bits, frame_bits, expression) = (case.axes, case.bits, case.frame_bits, &case.expression);
    let mut need = [0; 4];
    plain::sweep(axes, bits, frame_bits, axis, expression, &mut [], &mut need);
    // around what is needed, at times around the expression's own length, from which on one pass suffices
    let around = if random.chance(15) { expression.len() as u64 } else { need[3] };
    let lent = generate::room(random, around);
    let [plain, library] = [plain::sweep as Sweep, face::sweep].map(|sweep| {
        let (mut out, mut answer) = (bytes(lent), longs(4));
        let number = sweep(axes, bits, frame_bits, axis, expression, out.lent(), answer.array());
        Outcome { number, contents: vec![("answer", answer.into()), ("out", out.into())] }
    });
    line.compare(plain, library, || format!("{}\naxis = {axis}\nout: {lent} bytes lent", reading_text(&case)));
}

fn movers(line: &mut Line, random: &mut Random) {
    let case = generate::mover(random);
    let [axes, bits, frame_bits] = case.universe;
    let ask = |judge: MoverVerdict, out: &mut [u8], answer: &mut [u64; 5]| {
        let (moments, corners, rows) = (&case.moments, &case.corners, &case.rows);
        judge(axes, bits, frame_bits, case.solid, moments, corners, rows, &case.balls, &case.words, out, answer)
    };
    let mut need = [0; 5];
    ask(plain::mover, &mut [], &mut need);
    // around the largest need, at times more than the formula says
    let lent = if random.chance(10) { need[4] as usize + 20_000 } else { generate::room(random, need[4]) };
    let [plain, library] = [plain::mover as MoverVerdict, face::mover].map(|judge| {
        let (mut out, mut answer) = (bytes(lent), longs(5));
        let number = ask(judge, out.lent(), answer.array());
        Outcome { number, contents: vec![("answer", answer.into()), ("out", out.into())] }
    });
    line.compare(plain, library, || format!("{case:?}\nout: {lent} bytes lent"));
}

/// Merging and shape writing: an expression in, bytes out, and an answer that begins with their length.
fn rewriting<const N: usize>(line: &mut Line, random: &mut Random, plain: Rewrite<N>, library: Rewrite<N>) {
    let case = generate::reading(random);
    rewritten(line, random, case, plain, library);
}

/// The same of bytes that were drawn for it.
fn rewritten<const N: usize>(
    line: &mut Line, random: &mut Random, case: generate::ReadingCase, plain: Rewrite<N>, library: Rewrite<N>,
) {
    let mut need = [0; N];
    plain(case.axes, case.bits, case.frame_bits, &case.expression, &mut [], &mut need);
    let lent = generate::room(random, need[0]);
    let [plain, library] = [plain, library].map(|rewrite| {
        let (mut out, mut answer) = (bytes(lent), longs(N));
        let number = rewrite(case.axes, case.bits, case.frame_bits, &case.expression, out.lent(), answer.array());
        Outcome { number, contents: vec![("answer", answer.into()), ("out", out.into())] }
    });
    line.compare(plain, library, || format!("{}\nout: {lent} bytes lent", reading_text(&case)));
}

fn scenes(line: &mut Line, random: &mut Random) {
    let file = generate::scene_file(random);
    let [plain, library] = [plain::scene as SceneRead, face::scene].map(|read| {
        let (mut rows, mut balls, mut answer) = (rows_lent(1280), rows_lent(256), longs(10));
        let (mut first, mut second) = (words_lent(255), words_lent(255));
        let number =
            read(&file, rows.array(), balls.array(), first.array(), second.array(), answer.array());
        let surfaces = [("answer", answer.into()), ("rows", rows.into()), ("balls", balls.into())];
        let trees = [("first", first.into()), ("second", second.into())];
        Outcome { number, contents: surfaces.into_iter().chain(trees).collect() }
    });
    line.compare(plain, library, || format!("bytes = {file:?}"));
}

/// A scene for the program that is not too long to be compared, its lines, and the number that they refuse with.
fn program_case(random: &mut Random) -> Option<(Vec<u8>, String, u64)> {
    let file = generate::program_file(random);
    if let Ok(scene) = plain::scene_checked(&file) {
        let trees: [&[u16]; 2] = [&scene.first, &scene.second];
        let run = Run::checked(scene.axes, scene.bits, scene.frame_bits, &scene.rows, &scene.balls, &trees);
        if run.is_ok_and(|run| run.blocks_within(LONG_BLOCKS[2]).is_none()) {
            return None;
        }
    }
    let text = plain::clearance(&file);
    let number = text.strip_prefix("refused ").map_or(ACCEPTED, |rest| {
        rest.split_whitespace().next().and_then(|number| number.parse().ok()).expect("a number")
    });
    Some((file, text, number))
}

fn lines(line: &mut Line, random: &mut Random) {
    let Some((file, text, number)) = program_case(random) else { return };
    let [mut plain, mut library] = [bytes(256), bytes(256)];
    plain.lent()[..text.len()].copy_from_slice(text.as_bytes());
    let counts = [text.len() as u64, face::lines(&file, library.array())];
    let outcome = |count, out: Lent<u8>| {
        Outcome { number, contents: vec![("count", Contents::Count(count)), ("out", out.into())] }
    };
    line.compare(outcome(counts[0], plain), outcome(counts[1], library), || format!("scene = {file:?}"));
}

fn shape_reads(line: &mut Line, random: &mut Random) {
    let file = generate::shape_file(random);
    let header = if file.get(3) == Some(&1) { 11 } else { 12 };
    let lent = generate::room(random, file.len().saturating_sub(header) as u64);
    let [plain, library] = [plain::shape_read as ShapeRead, face::shape_read].map(|read| {
        let (mut out, mut answer) = (bytes(lent), longs(4));
        let number = read(&file, out.lent(), answer.array());
        Outcome { number, contents: vec![("answer", answer.into()), ("out", out.into())] }
    });
    line.compare(plain, library, || format!("bytes = {file:?}\nout: {lent} bytes lent"));
}

/// Floats with their bits.
fn floats_text<const N: usize>(numbers: [f64; N]) -> String {
    numbers.map(|number| format!("{number:?} (bits {:#018x})", number.to_bits())).join(", ")
}

fn boxes(line: &mut Line, random: &mut Random) {
    let [a, b, c, d, e, f, g, h, i] =
        generate::floats(random, [4096.0, 4096.0, 4096.0, 4096.0, 4096.0, 4096.0, 64.0, 64.0, 64.0], 45);
    let (mut near, mut far, step) = ([a, b, c], [d, e, f], [g, h, i]);
    let orderly = random.chance(85);
    for axis in 0..3 {
        if (orderly && near[axis] > far[axis]) || random.chance(2) {
            (near[axis], far[axis]) = (far[axis], near[axis]);
        }
        if random.chance(10) {
            far[axis] = near[axis];
        } else if random.chance(3) {
            far[axis] = near[axis] - 0.0625;
        }
    }
    let [plain, library] = [plain::box_proxy as BoxRows, face::box_proxy].map(|make| {
        let mut rows = rows_lent(30);
        let number = make(near, far, step, rows.array());
        Outcome { number, contents: vec![("rows", rows.into())] }
    });
    line.compare(plain, library, || {
        format!("near = {}\nfar = {}\ndisplacement = {}", floats_text(near), floats_text(far), floats_text(step))
    });
}

fn cuts(line: &mut Line, random: &mut Random) {
    let [a, b, c, offset, d, e, f] = generate::floats(random, [64.0, 64.0, 64.0, 4096.0, 64.0, 64.0, 64.0], 50);
    let (normal, step) = ([a, b, c], [d, e, f]);
    let [plain, library] = [plain::cut_proxy as CutRow, face::cut_proxy].map(|make| {
        let mut row = rows_lent(5);
        let number = make(normal, offset, step, row.array());
        Outcome { number, contents: vec![("row", row.into())] }
    });
    line.compare(plain, library, || {
        let [normal, step] = [normal, step].map(floats_text);
        format!("normal = {normal}\noffset = {}\ndisplacement = {step}", floats_text([offset]))
    });
}

// The numbers that each kind of entry point refuses with.
const CONVERSION: &[u64] = &[BAD_UNIVERSE, BAD_ROWS, BAD_TREE, OVERFULL_TREE, NO_ROOM];
const VERDICT: &[u64] = &[BAD_UNIVERSE, BAD_ROWS, BAD_TREE, OVERFULL_TREE, OUTSIDE, NO_ROOM];
const AT_ONCE: &[u64] = &[BAD_UNIVERSE, BAD_ROWS, BAD_TREE, OVERFULL_TREE, OUTSIDE];
const MOVER: &[u64] =
    &[BAD_UNIVERSE, BAD_PROXY, BAD_KEYS, BAD_STEP, BAD_ROWS, BAD_TREE, OVERFULL_TREE, NO_ROOM];
const READING: &[u64] = &[BAD_UNIVERSE, BAD_EXPRESSION];
const READING_AT: &[u64] = &[BAD_UNIVERSE, BAD_EXPRESSION, OUTSIDE];
const REPORT: &[u64] = &[BAD_UNIVERSE, BAD_EXPRESSION, OUTSIDE, NO_ROOM];
const MERGING: &[u64] = &[BAD_UNIVERSE, BAD_EXPRESSION, NO_ROOM];
const SCENE: &[u64] = &[BAD_FILE, BAD_UNIVERSE, BAD_ROWS, BAD_TREE, OVERFULL_TREE, OUTSIDE];
const SHAPE_READ: &[u64] = &[BAD_FILE, BAD_UNIVERSE, BAD_EXPRESSION, NOT_MERGED, NO_ROOM];
const SHAPE_WRITE: &[u64] = &[BAD_UNIVERSE, BAD_EXPRESSION, NOT_MERGED, NO_ROOM];
const PROGRAM: &[u64] = &[BAD_FILE, BAD_UNIVERSE, BAD_ROWS, BAD_TREE, OVERFULL_TREE, OUTSIDE, NO_ROOM];

type Compare = fn(&mut Line, &mut Random);

/// Name, share of the rounds in a thousand, the numbers to refuse with in their order, comparison.
const ENTRY_POINTS: &[(&str, u64, &[u64], Compare)] = &[
    ("durbizhan_room", 1000, &[BAD_UNIVERSE], rooms),
    ("durbizhan_leaves", 1000, &[], |l, r| counts(l, r, plain::leaves, face::leaves)),
    ("durbizhan_balls", 1000, &[], |l, r| counts(l, r, plain::balls, face::balls)),
    ("durbizhan_raw_one", 1000, CONVERSION, |l, r| one_tree(l, r, plain::raw_one, face::raw_one, false)),
    ("durbizhan_raw_two", 1000, CONVERSION, |l, r| two_trees(l, r, plain::raw_two, face::raw_two, false)),
    ("durbizhan_merged_one", 1000, CONVERSION, |l, r| one_tree(l, r, plain::merged_one, face::merged_one, true)),
    ("durbizhan_merged_two", 1000, CONVERSION, |l, r| two_trees(l, r, plain::merged_two, face::merged_two, true)),
    ("durbizhan_pruned_raw_one", 1000, CONVERSION, |l, r| pruned(l, r, 1, false)),
    ("durbizhan_pruned_raw_two", 1000, CONVERSION, |l, r| pruned(l, r, 2, false)),
    ("durbizhan_pruned_merged_one", 1000, CONVERSION, |l, r| pruned(l, r, 1, true)),
    ("durbizhan_pruned_merged_two", 1000, CONVERSION, |l, r| pruned(l, r, 2, true)),
    ("durbizhan_verdict", 1000, VERDICT, verdicts),
    ("durbizhan_contacts", 1000, AT_ONCE, |l, r| at_once(l, r, plain::contacts, face::contacts)),
    ("durbizhan_verdict_at_once", 1000, AT_ONCE, |l, r| at_once(l, r, plain::verdict_at_once, face::verdict_at_once)),
    ("durbizhan_ends_at_once", 1000, AT_ONCE, |l, r| at_once(l, r, plain::ends_at_once, face::ends_at_once)),
    ("durbizhan_mover", 1000, MOVER, movers),
    ("durbizhan_raw_two, long", 1, &[NO_ROOM], |l, r| long_two_trees(l, r, plain::raw_two, face::raw_two)),
    ("durbizhan_merged_two, long", 1, &[NO_ROOM], |l, r| long_two_trees(l, r, plain::merged_two, face::merged_two)),
    ("durbizhan_verdict, long", 1, &[OUTSIDE, NO_ROOM], long_verdicts),
    ("durbizhan_contacts, long", 1, &[OUTSIDE], |l, r| long_at_once(l, r, plain::contacts, face::contacts)),
    ("durbizhan_verdict_at_once, long", 1, &[OUTSIDE], |l, r| {
        long_at_once(l, r, plain::verdict_at_once, face::verdict_at_once)
    }),
    ("durbizhan_ends_at_once, long", 1, &[OUTSIDE], |l, r| {
        long_at_once(l, r, plain::ends_at_once, face::ends_at_once)
    }),
    ("durbizhan_well_formed", 2000, READING, well_formed),
    ("durbizhan_numbers", 2000, READING_AT, numbers),
    ("durbizhan_report", 500, REPORT, reports),
    ("durbizhan_colour", 2000, READING_AT, colours),
    ("durbizhan_part", 2000, READING_AT, parts),
    ("durbizhan_sweep", 1000, MERGING, sweeps),
    ("durbizhan_octree_export", 1000, MERGING, |l, r| {
        let case = generate::cube_expression(r);
        rewritten(l, r, case, plain::octree_export, face::octree_export)
    }),
    ("durbizhan_octree_import", 1000, MERGING, |l, r| {
        let case = generate::cube_octree(r);
        rewritten(l, r, case, plain::octree_import, face::octree_import)
    }),
    ("durbizhan_merge", 2000, MERGING, |l, r| rewriting(l, r, plain::merge, face::merge)),
    ("durbizhan_scene", 1000, SCENE, scenes),
    ("durbizhan_lines", 100, PROGRAM, lines),
    ("durbizhan_shape_read", 2000, SHAPE_READ, shape_reads),
    ("durbizhan_shape_write", 2000, SHAPE_WRITE, |l, r| rewriting(l, r, plain::shape_write, face::shape_write)),
    ("durbizhan_box", 2000, &[BAD_PROXY], boxes),
    ("durbizhan_cut", 2000, &[BAD_PROXY], cuts),
];

/// What a command writes, given this on its standard input.
fn written(command: &str, input: &[u8]) -> std::io::Result<Vec<u8>> {
    use std::io::Write;
    use std::process::{Command, Stdio};
    let mut words = command.split(' ');
    let mut command = Command::new(words.next().expect("a command"));
    let mut child = command.args(words).stdin(Stdio::piped()).stdout(Stdio::piped()).spawn()?;
    // a program that has read enough may close its input before all is written
    let _ = child.stdin.take().expect("piped").write_all(input);
    Ok(child.wait_with_output()?.stdout)
}

/// The program on generated scenes: the lines that it prints.
fn program(command: &str, seed: u64, rounds: u64) {
    let mut random = Random::new(seed);
    let mut line = Line::new("clearance", PROGRAM, seed);
    while line.cases < rounds {
        let Some((file, text, number)) = program_case(&mut random) else { continue };
        let outcome = |text| Outcome { number, contents: vec![("lines", Contents::Text(text))] };
        match written(command, &file) {
            Ok(output) => {
                let case = || format!("standard input = {file:?}");
                line.compare(outcome(text.into_bytes()), outcome(output), case);
            }
            Err(error) => {
                println!("clearance: {command} was not run: {error}");
                std::process::exit(1);
            }
        }
    }
    line.finish();
    println!("1 passed, 0 failed");
}

fn main() {
    let mut arguments = std::env::args().skip(1).peekable();
    let command = arguments.next_if(|word| word == "--program").and_then(|_| arguments.next());
    let mut number = |otherwise: u64| match arguments.next() {
        None => otherwise,
        Some(text) => text.parse().unwrap_or_else(|_| {
            eprintln!("usage: second_opinion [seed] [rounds] [entry point]");
            eprintln!("       second_opinion --program COMMAND [seed] [rounds]");
            std::process::exit(2)
        }),
    };
    if let Some(command) = command {
        let (seed, rounds) = (number(1), number(1_000));
        return program(&command, seed, rounds);
    }
    let (seed, rounds) = (number(1), number(60_000));
    let only = arguments.next();
    let mut passed = 0;
    for (place, &(name, share, refusals, compare)) in ENTRY_POINTS.iter().enumerate() {
        if only.as_deref().is_some_and(|only| only != name) {
            continue;
        }
        let mut line = Line::new(name, refusals, seed);
        let mut random = Random::new(seed.wrapping_mul(1000).wrapping_add(place as u64));
        let wanted = rounds * share / 1000;
        while line.cases < wanted {
            compare(&mut line, &mut random);
        }
        if line.cases == 0 {
            println!("{name}: no case was tried");
            std::process::exit(1);
        }
        line.finish();
        passed += 1;
    }
    if passed == 0 {
        println!("no entry point is called {}", only.unwrap_or_default());
        std::process::exit(1);
    }
    println!("{passed} passed, 0 failed");
}
