//! answers: what the library answers by words of 64 voxels beside hand-written Rust that does the same: the verdict at
//! once and its ends, beside its verdict in lent room and boxed brute force too; the merged expression; and sure and
//! possible contact. `answers --agree` compares all of them, and the plain ones, on small scenes and large, over three
//! windows each. Without a word it prints how long each takes on two icosahedra of 20 halfspaces each in opposite
//! motion, at several depths, in Markdown: milliseconds, the best of several runs, the library's and those by hand in
//! turn.

#[allow(dead_code)]
#[path = "../face.rs"]
mod face;

use second_opinion::boxed::{boxed_verdict, Solid};
use second_opinion::fast::{plain_merged_fast, plain_raw_fast, plain_verdict_fast, Run};
use second_opinion::plain::{contacts_by_blocks, joined, run_checked, Block, Hit};
use second_opinion::scenes::{icosahedron, icosahedron_boxes, twenty, Bits, Scene, BLACK, MINUS, WHITE};
use second_opinion::words::{words_contacts, words_ends, words_merged, words_merged_measured, words_verdict, Words};
use std::alloc::{alloc_zeroed, Layout};
use std::time::Instant;

/// The bits along every axis.
const DEPTHS: [u64; 4] = [5, 6, 7, 8];

/// From where to where each of the two goes, and the balls that they are about, as parts of a side.
const PATHS: [[[f64; 3]; 2]; 2] = [[[0.25; 3], [0.75; 3]], [[0.75; 3], [0.25; 3]]];
const RADIUS: f64 = 0.2;

/// Two icosahedra in opposite motion.
fn icosahedra(bits: u64) -> Scene {
    let case: Bits = (4, bits, bits);
    let mut rows = Vec::new();
    let [first, second] = PATHS.map(|[from, to]| icosahedron(&mut rows, from, to, RADIUS, case));
    let name = "two icosahedra in opposite motion".to_string();
    Scene { name, axes: 4, bits, frame_bits: bits, rows, balls: vec![], first, second }
}

/// Scenes of one colour: an icosahedron less itself, whose planes cross voxels all the same, and constants.
fn plain_colours() -> Vec<Scene> {
    let mut less = icosahedra(4);
    less.name = "an icosahedron less itself".to_string();
    less.first = [&less.first[..], &less.first, &[MINUS]].concat();
    less.second = vec![BLACK];
    let constant = |colour: u16| {
        let (name, rows, balls) = ("a constant".to_string(), vec![], vec![]);
        Scene { name, axes: 3, bits: 3, frame_bits: 4, rows, balls, first: vec![colour], second: vec![BLACK] }
    };
    vec![less, constant(WHITE), constant(BLACK)]
}

/// Both as solids with their boxes.
fn solids(scene: &Scene) -> [Solid<'_>; 2] {
    let (one, two) = scene.rows.split_at(scene.rows.len() / 2);
    let case: Bits = (scene.axes, scene.bits, scene.frame_bits);
    let boxes = |[from, to]: [[f64; 3]; 2]| icosahedron_boxes(from, to, RADIUS, case);
    [Solid { rows: one, boxes: boxes(PATHS[0]) }, Solid { rows: two, boxes: boxes(PATHS[1]) }]
}

/// Where a scene has one tree alone.
const ALL: [u16; 1] = [BLACK];

fn second(scene: &Scene) -> &[u16] {
    if scene.second.is_empty() { &ALL } else { &scene.second }
}

fn library_verdict(scene: &Scene, first: u64, last: u64) -> Hit {
    let mut answer = [0; 4];
    let number = face::verdict_at_once(
        scene.axes, scene.bits, scene.frame_bits, &scene.rows, &scene.balls, &scene.first, second(scene), first, last,
        &mut answer,
    );
    assert_eq!(number, 0);
    (answer[0] == 1).then_some((answer[1], answer[2], answer[3]))
}

fn library_ends(scene: &Scene, first: u64, last: u64) -> Option<(u64, u64)> {
    let mut answer = [0; 3];
    let number = face::ends_at_once(
        scene.axes, scene.bits, scene.frame_bits, &scene.rows, &scene.balls, &scene.first, second(scene), first, last,
        &mut answer,
    );
    assert_eq!(number, 0);
    (answer[0] == 1).then_some((answer[1], answer[2]))
}

/// The verdict in lent room, by the call that writes the raw expression.
fn lent_verdict(scene: &Scene, first: u64, last: u64, out: &mut [u8]) -> Hit {
    let mut answer = [0; 5];
    let number = face::verdict(
        scene.axes, scene.bits, scene.frame_bits, &scene.rows, &scene.balls, &scene.first, second(scene), first, last,
        out, &mut answer,
    );
    assert_eq!(number, 0);
    (answer[0] == 1).then_some((answer[1], answer[2], answer[3]))
}

fn library_contacts(scene: &Scene, first: u64, last: u64) -> [u64; 3] {
    let mut answer = [0; 3];
    let number = face::contacts(
        scene.axes, scene.bits, scene.frame_bits, &scene.rows, &scene.balls, &scene.first, second(scene), first, last,
        &mut answer,
    );
    assert_eq!(number, 0);
    answer
}

/// The merged expression: the length written, or the length needed.
fn library_merged(scene: &Scene, out: &mut [u8]) -> Result<usize, usize> {
    let Scene { axes, bits, frame_bits, rows, balls, first, second, .. } = scene;
    let mut length = [0];
    let number = if second.is_empty() {
        face::merged_one(*axes, *bits, *frame_bits, rows, balls, first, out, &mut length)
    } else {
        face::merged_two(*axes, *bits, *frame_bits, rows, balls, first, second, out, &mut length)
    };
    match number {
        0 => Ok(length[0] as usize),
        6 => Err(length[0] as usize),
        _ => panic!("refused {number}"),
    }
}

fn words_of(scene: &Scene) -> Words {
    let trees = scene.trees();
    Words::checked(scene.axes, scene.bits, scene.frame_bits, &scene.rows, &scene.balls, &trees).expect("in order")
}

fn run_of(scene: &Scene) -> Run {
    let trees = scene.trees();
    Run::checked(scene.axes, scene.bits, scene.frame_bits, &scene.rows, &scene.balls, &trees).expect("in order")
}

/// What a room holds before anything is written there.
const FILLED: u8 = 0xaa;

/// How many of each question were compared, and how many differ.
#[derive(Default)]
struct Compared {
    verdicts: [usize; 2],
    contacts: [usize; 2],
    merged: [usize; 2],
}

fn noted(counts: &mut [usize; 2], same: bool, scene: &Scene, what: &str) {
    counts[0] += 1;
    if !same {
        counts[1] += 1;
        println!("{}: {what} differ", scene.text());
    }
}

impl Compared {
    fn windows(&mut self, scene: &Scene, words: &Words, run: &Run, room: &mut [u8]) {
        let (axes, bits, frame_bits) = (scene.axes, scene.bits, scene.frame_bits);
        let (universe, read) =
            run_checked(axes, bits, frame_bits, &scene.rows, &scene.balls, &scene.trees()).expect("in order");
        let (tree, whole, frames) = (joined(&read), Block::whole(&universe), 1 << frame_bits);
        for (first, last) in [(0, frames - 1), (frames / 3, frames / 2), (frames - 1, frames - 1)] {
            let window = format!("frames {first} to {last}, the");
            let [hit, from, to, voxels, _] = plain_verdict_fast(run, first, last, room).expect("it fits");
            let meant = (hit == 1).then_some((from, to, voxels));
            let ends = meant.map(|(from, to, _)| (from, to));
            let same = library_verdict(scene, first, last) == meant
                && library_ends(scene, first, last) == ends
                && words_verdict(words, first, last) == Ok(meant)
                && words_ends(words, first, last) == Ok(ends);
            noted(&mut self.verdicts, same, scene, &format!("{window} answers at once"));
            let counts = contacts_by_blocks(&universe, &tree, &whole, first, last);
            let same = library_contacts(scene, first, last) == counts
                && words_contacts(words, first, last) == Ok(counts)
                && counts[1] == voxels;
            noted(&mut self.contacts, same, scene, &format!("{window} contacts"));
        }
    }

    /// Room for all symbols, for one less, and of the formula's size. What is behind the symbols is left as it was, and
    /// all of it where they are refused.
    fn texts(&mut self, scene: &Scene, words: &Words, run: &Run, room: &mut [u8]) {
        let length = plain_merged_fast(run, room).expect("it fits");
        for lent in [length, length - 1, room.len()] {
            let meant = if length <= lent { Ok(length) } else { Err(length) };
            let symbols = &room[..meant.unwrap_or(0)];
            let agrees = |convert: &dyn Fn(&mut [u8]) -> Result<usize, usize>| {
                let mut out = vec![FILLED; lent];
                convert(&mut out) == meant
                    && out.starts_with(symbols)
                    && out[symbols.len()..].iter().all(|byte| *byte == FILLED)
            };
            let same = agrees(&|out| library_merged(scene, out))
                && agrees(&|out| words_merged(words, out))
                && agrees(&|out| words_merged_measured(words, out));
            noted(&mut self.merged, same, scene, &format!("{lent} symbols lent, the merged expressions"));
        }
    }
}

fn agreement() -> i32 {
    let mut compared = Compared::default();
    let scenes = [-3, -2, -1, 0].into_iter().flat_map(twenty);
    for scene in scenes.chain([icosahedra(5), icosahedra(6)]).chain(plain_colours()) {
        let (words, run) = (words_of(&scene), run_of(&scene));
        let mut room = vec![0; run.room() as usize];
        compared.windows(&scene, &words, &run, &mut room);
        compared.texts(&scene, &words, &run, &mut room);
    }
    let Compared { verdicts, contacts, merged } = compared;
    println!("answers: {} questions, each asked of three, {} differ", verdicts[0], verdicts[1]);
    println!("contacts: {} questions, each asked of three, {} differ", contacts[0], contacts[1]);
    println!("merged: {} rooms, each lent to four, {} differ", merged[0], merged[1]);
    (verdicts[1] + contacts[1] + merged[1] != 0) as i32
}

/// The least time of several runs, in milliseconds.
fn best(mut ask: impl FnMut()) -> f64 {
    both(&mut ask, || ())[0]
}

/// The same of two, run in turn so that both meet the same disturbances.
fn both(mut one: impl FnMut(), mut two: impl FnMut()) -> [f64; 2] {
    let mut least = [f64::INFINITY; 2];
    let begun = Instant::now();
    for run in 1.. {
        for (least, ask) in least.iter_mut().zip([&mut one as &mut dyn FnMut(), &mut two]) {
            let began = Instant::now();
            ask();
            *least = least.min(began.elapsed().as_secs_f64() * 1e3);
        }
        let spent = begun.elapsed().as_secs_f64();
        if run >= 3 && spent > 3.0 || run >= 20 && spent > 0.3 {
            break;
        }
    }
    least
}

/// Room for so many symbols, of which memory is taken only where something is written; as much as there is, where the
/// machine has not so much.
fn lent(symbols: u64) -> Vec<u8> {
    let length = symbols as usize;
    let memory = unsafe { alloc_zeroed(Layout::array::<u8>(length).expect("under 2^63")) };
    if memory.is_null() {
        return vec![0; length.min(1 << 28)];
    }
    unsafe { Vec::from_raw_parts(memory, length, length) }
}

fn print_times(times: &[f64], ratios: &[f64]) {
    for number in times.iter().chain(ratios) {
        print!("| {number:.2} ");
    }
    println!("|");
}

/// One row of the answers at once: blocks, and the times.
fn row(bits: u64) {
    let scene = icosahedra(bits);
    let (words, solids, last) = (words_of(&scene), solids(&scene), (1 << bits) - 1);
    let run = run_of(&scene);
    let mut room = lent(run.room());
    let blocks = plain_raw_fast(&run, &mut room).expect("it fits");
    let meant = words_verdict(&words, 0, last).expect("in order");
    let ends = meant.map(|(from, to, _)| (from, to));
    let others = [
        best(|| assert_eq!(lent_verdict(&scene, 0, last, &mut room), meant)),
        best(|| assert_eq!(lent_verdict(&scene, 0, last, &mut room[..blocks]), meant)),
        best(|| assert_eq!(boxed_verdict(&solids[0], &solids[1], 0, last), meant)),
    ];
    let verdicts = both(
        || assert_eq!(words_verdict(&words, 0, last), Ok(meant)),
        || assert_eq!(library_verdict(&scene, 0, last), meant),
    );
    let ends = both(
        || assert_eq!(words_ends(&words, 0, last), Ok(ends)),
        || assert_eq!(library_ends(&scene, 0, last), ends),
    );
    print!("| {bits} | {blocks} ");
    print_times(&[&others[..], &verdicts, &ends].concat(), &[verdicts[1] / verdicts[0], ends[1] / ends[0]]);
}

/// One row of the merged expression: symbols, and the times in room of the formula's size and for exactly the symbols,
/// in the latter by hand in both ways.
fn merged_row(bits: u64) {
    let scene = icosahedra(bits);
    let words = words_of(&scene);
    let mut room = lent(words.room());
    let symbols = words_merged(&words, &mut room).expect("it fits");
    let meant = room[..symbols].to_vec();
    let mut other = lent(words.room());
    let formulas = room.len();
    let mut times = |by_hand: fn(&Words, &mut [u8]) -> Result<usize, usize>, lent: usize| {
        let (out, other) = (&mut room[..lent], &mut other[..lent]);
        out[..symbols].fill(FILLED);
        other[..symbols].fill(FILLED);
        let times = both(
            || assert_eq!(by_hand(&words, out), Ok(symbols)),
            || assert_eq!(library_merged(&scene, other), Ok(symbols)),
        );
        assert!(out[..symbols] == meant && other[..symbols] == meant, "the expressions differ");
        times
    };
    let formula = times(words_merged, formulas);
    let [gathered, measured] = [words_merged, words_merged_measured].map(|by_hand| times(by_hand, symbols));
    let exact = gathered[1].min(measured[1]);
    print!("| {bits} | {symbols} ");
    print_times(
        &[formula[0], formula[1], gathered[0], measured[0], exact],
        &[formula[1] / formula[0], exact / gathered[0], exact / measured[0]],
    );
}

/// One row of sure and possible contact: the three counts, and the times.
fn contacts_row(bits: u64) {
    let scene = icosahedra(bits);
    let (words, last) = (words_of(&scene), (1 << bits) - 1);
    let counts = words_contacts(&words, 0, last).expect("in order");
    let times = both(
        || assert_eq!(words_contacts(&words, 0, last), Ok(counts)),
        || assert_eq!(library_contacts(&scene, 0, last), counts),
    );
    let [sure, centre, possible] = counts;
    print!("| {bits} | {sure} | {centre} | {possible} ");
    print_times(&times, &[times[1] / times[0]]);
}

fn table(title: &str, said: &str, columns: &[&str], row: fn(u64)) {
    println!("\n{title}\n\nTwo icosahedra in opposite motion, {said}; milliseconds.\n");
    println!("| {} |", columns.join(" | "));
    println!("|{}", "---:|".repeat(columns.len()));
    for bits in DEPTHS {
        row(bits);
    }
}

fn main() {
    if std::env::args().nth(1).as_deref() == Some("--agree") {
        std::process::exit(agreement());
    }
    let columns = [
        "k", "blocks", "verdict, formula's room", "verdict, exact room", "boxed brute force", "verdict by hand",
        "verdict at once", "ends by hand", "ends at once", "verdict / by hand", "ends / by hand",
    ];
    table("# Answers at once", "the whole window", &columns, row);
    let columns = [
        "k", "symbols", "by hand, formula's room", "library, formula's room", "by hand, exact room, gathered",
        "by hand, exact room, measured first", "library, exact room", "formula's room: library / by hand",
        "exact room: library / gathered", "exact room: library / measured first",
    ];
    table("## The merged expression by words", "both intersected", &columns, merged_row);
    let columns = ["k", "sure", "centre", "possible", "by hand", "library", "library / by hand"];
    table("## Sure and possible contact by words", "the whole window", &columns, contacts_row);
}
