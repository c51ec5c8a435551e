//! comparison: the library's first conversion and its pruned one beside the plain converter, which evaluates the full
//! tree in every block, and beside one that is pruned by hand, on twenty scenes at three depths.
//! `comparison --agree` compares their expressions, raw and merged, byte for byte. Without a word it prints how long
//! each takes for an examined block, in Markdown: the best of several runs, one converter after the other.
//!   The room for symbols and the work room are lent at their formulas' sizes and are not cleared between calls.

#[allow(dead_code)]
#[path = "../face.rs"]
mod face;

use second_opinion::fast::{plain_merged_fast, plain_raw_fast, Run};
use second_opinion::hand::{hand_merged, hand_raw, Hand};
use second_opinion::scenes::{twenty, Scene};
use std::hint::black_box;
use std::time::Instant;

/// So many bits deeper than the scenes' own, along every axis that has bits.
const DEPTHS: [i64; 3] = [-1, 0, 1];

/// The numbers that a node takes in the work room.
const NODE_LENGTH: usize = 3;

/// What a room holds before anything is written there.
const FILLED: u8 = 0xaa;

/// What one converter left in its room: so many symbols, and for the pruned one the nodes that it looked at.
struct Converted {
    length: usize,
    looked: u64,
}

/// A scene made ready for all four, with their rooms.
struct Ready {
    scene: Scene,
    run: Run,
    hand: Hand,
    work: Vec<i64>,
    out: Vec<u8>,
}

impl Ready {
    fn new(scene: Scene) -> Ready {
        let (axes, bits, frame_bits) = (scene.axes, scene.bits, scene.frame_bits);
        let trees = scene.trees();
        let run = Run::checked(axes, bits, frame_bits, &scene.rows, &scene.balls, &trees).expect("in order");
        let hand = Hand::checked(axes, bits, frame_bits, &scene.rows, &scene.balls, &trees).expect("in order");
        let levels = ((axes - 1) * bits + frame_bits) as usize;
        let work = vec![0; NODE_LENGTH * (levels + 1) * scene.words()];
        let out = vec![FILLED; run.room() as usize];
        Ready { scene, run, hand, work, out }
    }

    fn plain(&mut self, merged: bool) -> Converted {
        let convert = if merged { plain_merged_fast } else { plain_raw_fast };
        Converted { length: convert(&self.run, &mut self.out).expect("the formula's room suffices"), looked: 0 }
    }

    fn by_hand(&mut self, merged: bool) -> Converted {
        let convert = if merged { hand_merged } else { hand_raw };
        Converted { length: convert(&self.hand, &mut self.out), looked: 0 }
    }

    fn first(&mut self, merged: bool) -> Converted {
        let Scene { axes, bits, frame_bits, rows, balls, first, second, .. } = &self.scene;
        let (axes, bits, frame_bits, out) = (*axes, *bits, *frame_bits, &mut self.out);
        let mut length = [0];
        let number = match (second.is_empty(), merged) {
            (true, false) => face::raw_one(axes, bits, frame_bits, rows, balls, first, out, &mut length),
            (true, true) => face::merged_one(axes, bits, frame_bits, rows, balls, first, out, &mut length),
            (false, false) => face::raw_two(axes, bits, frame_bits, rows, balls, first, second, out, &mut length),
            (false, true) => face::merged_two(axes, bits, frame_bits, rows, balls, first, second, out, &mut length),
        };
        assert_eq!(number, 0, "the formula's room suffices");
        Converted { length: length[0] as usize, looked: 0 }
    }

    fn pruned(&mut self, merged: bool) -> Converted {
        let Scene { axes, bits, frame_bits, rows, balls, .. } = &self.scene;
        let trees = self.scene.trees();
        let mut answer = [0; 3];
        let number = face::pruned(
            *axes, *bits, *frame_bits, rows, balls, &trees, &mut self.work, &mut self.out, &mut answer, merged,
        );
        assert_eq!(number, 0, "both rooms suffice");
        Converted { length: answer[LENGTH] as usize, looked: answer[LOOKED] }
    }
}

type Converter = fn(&mut Ready, bool) -> Converted;

/// All four, the plain one first, whose expressions the others are held to.
const CONVERTERS: [(&str, Converter); 4] =
    [("plain", Ready::plain), ("first", Ready::first), ("pruned", Ready::pruned), (BY_HAND, Ready::by_hand)];

/// It merges in its room, and may leave symbols behind the expression.
const BY_HAND: &str = "by hand";

/// The places of a pruned conversion's answer.
const LENGTH: usize = 1;
const LOOKED: usize = 2;

/// One converter's room after it has written, from a filled one.
fn written(ready: &mut Ready, convert: Converter, merged: bool) -> (Converted, Vec<u8>) {
    ready.out.fill(FILLED);
    let converted = convert(ready, merged);
    (converted, ready.out.clone())
}

/// Whether all four write the plain one's expression, and the library nothing behind it.
fn agrees(ready: &mut Ready, merged: bool) -> bool {
    let (plain, expected) = written(ready, Ready::plain, merged);
    CONVERTERS[1..].iter().all(|(name, convert)| {
        let (found, room) = written(ready, *convert, merged);
        let same = found.length == plain.length && room[..found.length] == expected[..plain.length];
        let kept = *name == BY_HAND || room[found.length..].iter().all(|byte| *byte == FILLED);
        if !same || !kept {
            println!("{} {}: {name} differs from plain", ready.scene.text(), if merged { "merged" } else { "raw" });
        }
        same && kept
    })
}

/// The least time of one call to each of the four, run in turn so that all meet the same disturbances.
fn best(ready: &mut Ready, merged: bool) -> [f64; 4] {
    let once = CONVERTERS.map(|(_, convert)| timed(ready, convert, merged, 1)).into_iter().fold(1e-7, f64::max);
    let calls = (0.002 / once).clamp(1.0, 10_000.0) as u32;
    let runs = (0.4 / (once * calls as f64)).clamp(3.0, 20.0) as u32;
    let mut least = [f64::INFINITY; 4];
    for _ in 0..runs {
        for (place, (_, convert)) in CONVERTERS.into_iter().enumerate() {
            least[place] = least[place].min(timed(ready, convert, merged, calls));
        }
    }
    least
}

fn timed(ready: &mut Ready, convert: Converter, merged: bool, calls: u32) -> f64 {
    let began = Instant::now();
    for _ in 0..calls {
        black_box(convert(ready, merged).length);
    }
    began.elapsed().as_secs_f64() / calls as f64
}

/// The table of one depth: raw conversions.
fn table(deeper: i64) {
    println!("\n## Twenty scenes, {deeper:+} bits\n");
    print!("| scene | words | blocks | nodes a block | plain | first | pruned | by hand ");
    println!("| first / plain | pruned / plain | pruned / by hand |");
    println!("|---|---:|---:|---:|---:|---:|---:|---:|---:|---:|---:|");
    for scene in twenty(deeper) {
        let mut ready = Ready::new(scene);
        let pruned = ready.pruned(false);
        let blocks = pruned.length as f64;
        let [plain, first, by_pruning, by_hand] = best(&mut ready, false).map(|time| time * 1e9 / blocks);
        let (text, words, nodes) = (ready.scene.text(), ready.scene.words(), pruned.looked as f64 / blocks);
        print!("| {text} | {words} | {blocks} | {nodes:.2} | {plain:.1} | {first:.1} | {by_pruning:.1} | {by_hand:.1} ");
        println!("| {:.2} | {:.2} | {:.2} |", first / plain, by_pruning / plain, by_pruning / by_hand);
    }
}

fn main() {
    if std::env::args().nth(1).as_deref() == Some("--agree") {
        let compared: Vec<bool> = DEPTHS
            .into_iter()
            .flat_map(twenty)
            .map(Ready::new)
            .flat_map(|mut ready| [false, true].map(|merged| agrees(&mut ready, merged)))
            .collect();
        let failed = compared.iter().filter(|good| !**good).count();
        println!("comparison: {} expressions, each of four converters, {failed} differ", compared.len());
        std::process::exit(if failed == 0 { 0 } else { 1 });
    }
    println!("# Four converters\n");
    println!("Nanoseconds for an examined block, raw; the best of several runs, one converter after the other. Room for");
    println!("symbols and work room are lent at their formulas' sizes and are not cleared between calls.");
    for deeper in DEPTHS {
        table(deeper);
    }
}
