//! tests/wrapper.rs: every function of the crate rust/durbizhan, on what is accepted and on every number that it can be
//! refused with, held to what the C face answers and writes. It is a test of that crate, and tests/examples runs it.

#[allow(dead_code)]
#[path = "second_opinion/src/face.rs"]
mod face;

use durbizhan::{
    Clearance, Colour, Contacts, Ends, Key, Merged, Numbers, Pruned, Refusal, Report, Shape, Universe, Verdict, Window,
};

const ACCEPTED: u64 = 0;
const NO_ROOM: u64 = 6;

/// The numbers that each function has.
const ROOM: &[u64] = &[0, 2];
const CONVERSION: &[u64] = &[0, 2, 3, 4, 5, 6];
const VERDICT: &[u64] = &[0, 2, 3, 4, 5, 6, 9];
const WITHOUT_ROOM: &[u64] = &[0, 2, 3, 4, 5, 9];
const MOVER: &[u64] = &[0, 2, 3, 4, 5, 6, 10, 11, 12];
const WELL_FORMED: &[u64] = &[0, 2, 7];
const READING: &[u64] = &[0, 2, 7, 9];
const REPORT: &[u64] = &[0, 2, 6, 7, 9];
const REWRITING: &[u64] = &[0, 2, 6, 7];
const SCENE: &[u64] = &[0, 1, 2, 3, 4, 5, 9];
const SHAPE_READ: &[u64] = &[0, 1, 2, 6, 7, 8];
const SHAPE_WRITE: &[u64] = &[0, 2, 6, 7, 8];
const PROXY: &[u64] = &[0, 10];
const LINES: &[u64] = &[0, 1, 2, 3, 4, 5, 6, 9];

/// The refusal of a number.
fn refused(number: u64, needed: u64) -> Refusal {
    let refusal = match number {
        1 => Refusal::BadFile,
        2 => Refusal::BadUniverse,
        3 => Refusal::BadRows,
        4 => Refusal::BadTree,
        5 => Refusal::OverfullTree,
        6 => Refusal::NoRoom { needed },
        7 => Refusal::BadExpression,
        8 => Refusal::NotMerged,
        9 => Refusal::Outside,
        10 => Refusal::BadProxy,
        11 => Refusal::BadKeys,
        12 => Refusal::BadStep,
        _ => panic!("there is no number {number}"),
    };
    assert_eq!(refusal.number(), number);
    refusal
}

/// Each number that a function has is among those that were tried.
fn all_tried(numbers: &[u64], tried: impl IntoIterator<Item = u64>) {
    let tried: Vec<u64> = tried.into_iter().collect();
    for number in numbers {
        assert!(tried.contains(number), "number {number} is not tried, of {numbers:?}");
    }
}

/// Two trees over rows and balls, and a window.
#[derive(Clone)]
struct Scene {
    version: u16,
    axes: u64,
    bits: u64,
    frame_bits: u64,
    rows: Vec<i64>,
    balls: Vec<i64>,
    first: Vec<u16>,
    second: Vec<u16>,
    window: [u64; 2],
}

/// The scene of examples/program.txt: a hit in frames 1 and 2, of 13 symbols.
fn example() -> Scene {
    let rows = vec![0, 1, -1, 0, 0, 1, -1, 1, 0, 0, -2, 1, 0, 0, 0, 3, -1, 0, 0, 0];
    let (balls, first, second) = (vec![], vec![256, 257, 3], vec![258, 259, 3]);
    Scene { version: 3, axes: 2, bits: 2, frame_bits: 2, rows, balls, first, second, window: [0, 3] }
}

/// The example with one thing changed, and the number that it then has.
fn scenes() -> Vec<(u64, Scene)> {
    let changed = |number, change: fn(&mut Scene)| {
        let mut scene = example();
        change(&mut scene);
        (number, scene)
    };
    vec![
        changed(0, |_| ()),
        changed(0, |scene| scene.window = [3, 3]),
        changed(0, |scene| scene.second = vec![0]),
        changed(0, |scene| scene.version = 1),
        changed(0, |scene| scene.version = 2),
        changed(0, |scene| (scene.balls, scene.second) = (vec![2, 0, 0, 1], vec![512])),
        changed(0, |scene| (scene.balls, scene.second) = (vec![-1024, 0, 0, 1024, 1024, 0, 0, 0], vec![513, 512, 2])),
        changed(0, |scene| (scene.balls, scene.first) = ([1, 0, 0, 0].repeat(64), vec![1, 575, 4])),
        changed(0, |scene| (scene.frame_bits, scene.window) = (12, [0, 4095])),
        changed(0, |scene| (scene.bits, scene.frame_bits, scene.window) = (1, 0, [0, 0])),
        changed(2, |scene| scene.axes = 0),
        changed(2, |scene| scene.axes = 5),
        changed(2, |scene| scene.bits = 11),
        changed(2, |scene| scene.frame_bits = 13),
        changed(2, |scene| scene.axes = 1),
        changed(3, |scene| (scene.axes, scene.bits) = (1, 0)),
        changed(3, |scene| scene.rows[3] = 1),
        changed(3, |scene| scene.rows[0] = (1 << 40) + 1),
        changed(3, |scene| scene.balls = [1, 0, 0, 0].repeat(65)),
        changed(3, |scene| scene.balls = vec![1025, 0, 0, 0]),
        changed(3, |scene| scene.balls = vec![-1025, 0, 0, 0]),
        changed(3, |scene| scene.balls = vec![0, 0, 0, 1025]),
        changed(3, |scene| scene.balls = vec![0, 1, 0, 0]),
        changed(4, |scene| scene.first = vec![]),
        changed(4, |scene| scene.second = vec![260]),
        changed(4, |scene| scene.second = vec![512]),
        changed(4, |scene| (scene.balls, scene.second) = (vec![2, 0, 0, 1], vec![513])),
        changed(4, |scene| (scene.balls, scene.second) = ([1, 0, 0, 0].repeat(64), vec![576])),
        changed(5, |scene| scene.first = vec![1; 33]),
        changed(5, |scene| scene.second = vec![1; 256]),
        changed(9, |scene| scene.window = [0, 4]),
        changed(9, |scene| (scene.frame_bits, scene.window) = (12, [0, 4096])),
        changed(9, |scene| scene.window = [2, 1]),
    ]
}

impl Scene {
    fn file(&self) -> Vec<u8> {
        let counts = [self.rows.len() / 5, self.first.len(), self.second.len()].map(|count| count as u16);
        let frames = self.window.map(|frame| frame as u16);
        // version 1 has a zero byte in place of the frame bits
        let last = if self.version == 1 { 0 } else { self.frame_bits as u8 };
        let universe = [self.axes as u8, self.bits as u8, last];
        let mut file = [b"HSC".as_slice(), &self.version.to_le_bytes(), &universe].concat();
        file.extend([counts.as_slice(), &frames].concat().iter().flat_map(|number| number.to_le_bytes()));
        if self.version == 3 {
            file.extend((self.balls.len() as u16 / 4).to_le_bytes());
        }
        file.extend(self.rows.iter().flat_map(|number| number.to_le_bytes()));
        file.extend(self.balls.iter().flat_map(|number| (*number as u16).to_le_bytes()));
        file.extend([&self.first[..], &self.second].concat().iter().flat_map(|word| word.to_le_bytes()));
        file
    }
}

/// What the wrapper and the face gave for a case with a number.
fn held<T: PartialEq + std::fmt::Debug>(what: &str, wanted: u64, number: u64, wrapped: T, faced: T) {
    assert_eq!(number, wanted, "{what}: the face's number");
    assert_eq!(wrapped, faced, "{what}: the wrapper's answer, and what the face's says, number {number}");
}

#[test]
fn counts() {
    for words in [vec![], vec![256, 257, 3], vec![0, 1, 2, 255, 256, 511, 512], vec![511, 512, 575, 576, 512]] {
        held("leaves", 0, 0, durbizhan::leaves(&words), face::leaves(&words));
        held("balls", 0, 0, durbizhan::balls(&words), face::balls(&words));
    }
}

#[test]
fn rooms() {
    let cases = [
        (0, 2, 2, 2),
        (0, 4, 10, 10),
        (0, 4, 10, 12),
        (0, 3, 2, 0),
        (0, 3, 0, 2),
        (0, 1, 0, 0),
        (0, 1, 0, 12),
        (2, 0, 2, 2),
        (2, 5, 2, 2),
        (2, 4, 11, 10),
        (2, 4, 10, 13),
        (2, 1, 1, 12),
        (2, 257, 2, 2),
        (2, 2, u64::MAX, 2),
        (2, 2, 2, u64::MAX),
    ];
    for (wanted, axes, bits, frame_bits) in cases {
        for (leaves, balls) in [(4, 0), (4, 1), (0, 2), (0, u64::MAX)] {
            let mut answer = [u64::MAX];
            let number = face::room(axes, bits, frame_bits, leaves, balls, &mut answer);
            let faced = if number == ACCEPTED { Ok(answer[0]) } else { Err(refused(number, 0)) };
            held("room", wanted, number, durbizhan::room(Universe { axes, bits, frame_bits }, leaves, balls), faced);
        }
    }
    all_tried(ROOM, cases.map(|case| case.0));
}

/// A verdict as the face answers it.
fn clearance_of(number: u64, answer: [u64; 5]) -> Result<Clearance, Refusal> {
    match (number, answer) {
        (ACCEPTED, [0, 0, 0, 0, length]) => Ok(Clearance { verdict: Verdict::Clear, length: length as usize }),
        (ACCEPTED, [1, first, last, voxels, length]) => {
            Ok(Clearance { verdict: Verdict::Hit { first, last, voxels }, length: length as usize })
        }
        (number, [0, 0, 0, 0, needed]) => Err(refused(number, needed)),
        _ => panic!("a verdict: number {number}, answer {answer:?}"),
    }
}

/// The verdict of a scene with so much room lent.
fn verdict(wanted: u64, scene: &Scene, lent: usize) {
    let Scene { axes, bits, frame_bits, rows, balls, first, second, window, .. } = scene.clone();
    let [first_frame, last_frame] = window;
    let universe = Universe { axes, bits, frame_bits };
    let [mut room, mut other_room] = [vec![b'.'; lent], vec![b'.'; lent]];
    let window = Window { first: first_frame, last: last_frame };
    let wrapped = durbizhan::verdict(universe, &rows, &balls, &first, &second, window, &mut room);
    let mut answer = [u64::MAX; 5];
    let number = face::verdict(
        axes,
        bits,
        frame_bits,
        &rows,
        &balls,
        &first,
        &second,
        first_frame,
        last_frame,
        &mut other_room,
        &mut answer,
    );
    held("verdict", wanted, number, (wrapped, room), (clearance_of(number, answer), other_room));
}

#[test]
fn verdicts() {
    let mut cases: Vec<_> = scenes().into_iter().map(|(wanted, scene)| (wanted, scene, 100)).collect();
    cases.extend([(ACCEPTED, example(), 13), (NO_ROOM, example(), 12), (NO_ROOM, example(), 0)]);
    // balls that are not in fours, which no file says
    cases.extend([1, 2, 3, 5].map(|count| (3, Scene { balls: vec![0; count], ..example() }, 100)));
    for (wanted, scene, lent) in &cases {
        verdict(*wanted, scene, *lent);
    }
    all_tried(VERDICT, cases.iter().map(|case| case.0));
}

/// A Box with keys, against a static tree.
#[derive(Clone)]
struct Moving {
    axes: u64,
    corners: [[f64; 3]; 2],
    keys: Vec<Key>,
    rows: Vec<i64>,
    balls: Vec<i64>,
    words: Vec<u16>,
}

fn key(moment: u64, x: f64) -> Key {
    Key { moment, corner: [x, 0.0, 0.0] }
}

/// A cube that comes from -3 in one frame and stands at 1 for two: a hit in frames 1 and 2; its first stretch needs 19
/// symbols, its last 7.
fn coming() -> Moving {
    let keys = vec![key(0, -3.0), key(1, 1.0), key(3, 1.0)];
    let corners = [[0.0; 3], [1.0; 3]];
    Moving { axes: 4, corners, keys, rows: vec![], balls: vec![], words: vec![1] }
}

/// The verdict of a mover with so much room lent.
fn mover(wanted: u64, moving: &Moving, lent: usize) {
    let Moving { axes, corners, keys, rows, balls, words } = moving.clone();
    let (bits, frame_bits) = (1, 2);
    let [mut room, mut other_room] = [vec![b'.'; lent], vec![b'.'; lent]];
    let universe = Universe { axes, bits, frame_bits };
    let wrapped = durbizhan::mover(universe, corners, &keys, &rows, &balls, &words, &mut room);
    let moments: Vec<u64> = keys.iter().map(|key| key.moment).collect();
    let numbers: Vec<f64> = keys.iter().flat_map(|key| key.corner).collect();
    let mut answer = [u64::MAX; 5];
    let number = face::mover(
        axes,
        bits,
        frame_bits,
        [corners[0], corners[1], [0.0; 3]],
        &moments,
        &numbers,
        &rows,
        &balls,
        &words,
        &mut other_room,
        &mut answer,
    );
    held("mover", wanted, number, (wrapped, room), (clearance_of(number, answer), other_room));
}

#[test]
fn movers() {
    let changed = |number, change: fn(&mut Moving)| {
        let mut moving = coming();
        change(&mut moving);
        (number, moving, 64)
    };
    let mut cases = vec![
        changed(0, |_| ()),
        changed(0, |moving| moving.words = vec![0]),
        changed(0, |moving| moving.rows = vec![0; 1250]),
        changed(0, |moving| {
            moving.balls = vec![0, 0, 0, 1];
            moving.words = vec![512];
        }),
        changed(2, |moving| moving.axes = 3),
        changed(2, |moving| moving.axes = 5),
        changed(3, |moving| moving.rows = vec![0; 1255]),
        changed(3, |moving| moving.rows = vec![0; 4]),
        changed(3, |moving| moving.balls = vec![0; 5]),
        changed(4, |moving| moving.words = vec![256]),
        changed(5, |moving| moving.words = vec![1; 33]),
        changed(10, |moving| moving.corners[1][2] = -0.0625),
        changed(10, |moving| moving.keys[1].corner[1] = f64::NAN),
        changed(11, |moving| moving.keys.truncate(1)),
        changed(11, |moving| moving.keys[1].moment = 3),
        changed(11, |moving| moving.keys[2].moment = 5),
        changed(12, |moving| moving.keys[2].corner[0] = 1.0625),
        changed(12, |moving| moving.keys[1].corner[0] = 61.0625),
    ];
    cases.extend([(ACCEPTED, coming(), 19), (NO_ROOM, coming(), 18), (NO_ROOM, coming(), 0)]);
    for (wanted, moving, lent) in &cases {
        mover(*wanted, moving, *lent);
    }
    all_tried(MOVER, cases.iter().map(|case| case.0));
}

/// The verdict of a scene's trees at once.
fn verdict_at_once(wanted: u64, scene: &Scene) {
    let Scene { axes, bits, frame_bits, rows, balls, first, second, window, .. } = scene.clone();
    let [first_frame, last_frame] = window;
    let universe = Universe { axes, bits, frame_bits };
    let window = Window { first: first_frame, last: last_frame };
    let wrapped = durbizhan::verdict_at_once(universe, &rows, &balls, &first, &second, window);
    let mut answer = [u64::MAX; 4];
    let number = face::verdict_at_once(
        axes,
        bits,
        frame_bits,
        &rows,
        &balls,
        &first,
        &second,
        first_frame,
        last_frame,
        &mut answer,
    );
    let faced = match (number, answer) {
        (ACCEPTED, [0, 0, 0, 0]) => Ok(Verdict::Clear),
        (ACCEPTED, [1, first, last, voxels]) => Ok(Verdict::Hit { first, last, voxels }),
        (number, [0, 0, 0, 0]) => Err(refused(number, 0)),
        _ => panic!("verdict_at_once: number {number}, answer {answer:?}"),
    };
    held("verdict_at_once", wanted, number, wrapped, faced);
}

/// The ends of that verdict.
fn ends_at_once(wanted: u64, scene: &Scene) {
    let Scene { axes, bits, frame_bits, rows, balls, first, second, window, .. } = scene.clone();
    let [first_frame, last_frame] = window;
    let universe = Universe { axes, bits, frame_bits };
    let window = Window { first: first_frame, last: last_frame };
    let wrapped = durbizhan::ends_at_once(universe, &rows, &balls, &first, &second, window);
    let mut answer = [u64::MAX; 3];
    let number = face::ends_at_once(
        axes,
        bits,
        frame_bits,
        &rows,
        &balls,
        &first,
        &second,
        first_frame,
        last_frame,
        &mut answer,
    );
    let faced = match (number, answer) {
        (ACCEPTED, [0, 0, 0]) => Ok(Ends::Clear),
        (ACCEPTED, [1, first, last]) => Ok(Ends::Hit { first, last }),
        (number, [0, 0, 0]) => Err(refused(number, 0)),
        _ => panic!("ends_at_once: number {number}, answer {answer:?}"),
    };
    held("ends_at_once", wanted, number, wrapped, faced);
}

/// Sure and possible contact of a scene's trees.
fn contact(wanted: u64, scene: &Scene) {
    let Scene { axes, bits, frame_bits, rows, balls, first, second, window, .. } = scene.clone();
    let [first_frame, last_frame] = window;
    let universe = Universe { axes, bits, frame_bits };
    let window = Window { first: first_frame, last: last_frame };
    let wrapped = durbizhan::contacts(universe, &rows, &balls, &first, &second, window);
    let mut answer = [u64::MAX; 3];
    let number = face::contacts(
        axes,
        bits,
        frame_bits,
        &rows,
        &balls,
        &first,
        &second,
        first_frame,
        last_frame,
        &mut answer,
    );
    let faced = match (number, answer) {
        (ACCEPTED, [sure, centre, possible]) => Ok(Contacts { sure, centre, possible }),
        (number, [0, 0, 0]) => Err(refused(number, 0)),
        _ => panic!("contacts: number {number}, answer {answer:?}"),
    };
    held("contacts", wanted, number, wrapped, faced);
}

/// What takes a scene, and no room.
#[test]
fn without_room() {
    let mut cases = scenes();
    // balls that are not in fours, which no file says
    cases.extend([1, 2, 3, 5].map(|count| (3, Scene { balls: vec![0; count], ..example() })));
    for (wanted, scene) in &cases {
        contact(*wanted, scene);
        verdict_at_once(*wanted, scene);
        ends_at_once(*wanted, scene);
    }
    all_tried(WITHOUT_ROOM, cases.iter().map(|case| case.0));
}

#[test]
fn numbers() {
    let cases: [(u64, [u64; 3], &[u8], u64, u64); 15] = [
        (0, [2, 2, 2], b"(W(((WBW((BWW", 0, 3),
        (0, [2, 2, 2], b"(W(((WBW((BWW", 2, 2),
        (0, [2, 2, 2], b"(W(((WBW((BWW", 3, 3),
        (0, [2, 1, 2], b"((WBB", 0, 1),
        (0, [1, 0, 12], b"(WB", 0, 4095),
        (0, [1, 0, 0], b"W", 0, 0),
        (2, [0, 2, 2], b"B", 0, 0),
        (2, [4, 11, 10], b"(", 1, 0),
        (2, [4, 10, 13], b"B", 0, 0),
        (2, [1, 1, 1], b"B", 0, 0),
        (7, [2, 2, 2], b"", 0, 0),
        (7, [2, 2, 2], b"(B", 1, 0),
        (7, [2, 2, 2], b"BB", 0, 4),
        (9, [1, 0, 12], b"B", 0, 4096),
        (9, [2, 2, 2], b"B", 2, 1),
    ];
    for (wanted, [axes, bits, frame_bits], expression, first, last) in cases {
        let mut answer = [u64::MAX; 5];
        let number = face::numbers(axes, bits, frame_bits, expression, first, last, &mut answer);
        let faced = match (number, answer) {
            (ACCEPTED, [volume, 0, 0, 0, 0]) => Ok(Numbers { volume, verdict: Verdict::Clear }),
            (ACCEPTED, [volume, 1, first, last, voxels]) => {
                Ok(Numbers { volume, verdict: Verdict::Hit { first, last, voxels } })
            }
            (number, [0, 0, 0, 0, 0]) => Err(refused(number, 0)),
            _ => panic!("numbers: number {number}, answer {answer:?}"),
        };
        let universe = Universe { axes, bits, frame_bits };
        let wrapped = durbizhan::numbers(universe, expression, Window { first, last });
        held("numbers", wanted, number, wrapped, faced);
    }
    all_tried(READING, cases.map(|case| case.0));
}

#[test]
fn reports() {
    let one = b"(W(((WBW((BWW";
    let twice = [one.as_slice(), one].concat();
    let rubbish = [one.as_slice(), b"W)"].concat();
    let cases: [(u64, [u64; 3], &[u8], [u64; 2], usize); 20] = [
        (0, [2, 2, 2], one, [0, 3], 4),
        (0, [2, 2, 2], &twice, [0, 3], 5),
        (0, [2, 2, 2], &twice, [3, 3], 1),
        (0, [2, 2, 2], b"", [0, 0], 1),
        (0, [2, 1, 2], b"((WBB(WB", [0, 3], 4),
        (0, [1, 0, 0], &[b'B'; 256], [0, 0], 1),
        (0, [1, 0, 12], b"(WBB", [0, 4095], 4097),
        (2, [0, 2, 2], b"B", [0, 0], 1),
        (2, [4, 11, 10], b"(", [1, 0], 0),
        (2, [4, 10, 13], b"B", [0, 0], 1),
        (2, [1, 1, 1], b"B", [0, 0], 1),
        (7, [1, 0, 0], &[b'B'; 257], [0, 0], 1),
        (7, [2, 2, 2], &rubbish, [0, 3], 4),
        (7, [2, 2, 2], &twice[..25], [1, 0], 4),
        (9, [2, 2, 2], one, [0, 4], 5),
        (9, [1, 0, 12], b"B", [0, 4096], 4097),
        (9, [2, 2, 2], b"", [2, 1], 0),
        (6, [2, 2, 2], one, [0, 3], 3),
        (6, [2, 2, 2], b"", [0, 3], 0),
        (6, [4, 10, 12], b"B", [0, 4095], 4095),
    ];
    for (wanted, [axes, bits, frame_bits], expressions, [first, last], lent) in cases {
        let [mut counts, mut other_counts] = [vec![u64::MAX; lent], vec![u64::MAX; lent]];
        let mut answer = [u64::MAX; 2];
        let number = face::report(axes, bits, frame_bits, expressions, first, last, &mut other_counts, &mut answer);
        let faced = match (number, answer) {
            (ACCEPTED, [frames, total]) => Ok(Report { frames: frames as usize, total }),
            (number, [needed, 0]) => Err(refused(number, needed)),
            _ => panic!("report: number {number}, answer {answer:?}"),
        };
        let universe = Universe { axes, bits, frame_bits };
        let wrapped = durbizhan::report(universe, expressions, Window { first, last }, &mut counts);
        held("report", wanted, number, (wrapped, counts), (faced, other_counts));
    }
    all_tried(REPORT, cases.map(|case| case.0));
}

#[test]
fn merges() {
    let cases: [(u64, [u64; 3], &[u8], usize); 15] = [
        (0, [2, 2, 2], b"(B(B(B(BW", 10),
        (0, [2, 2, 2], b"(B(B(B(BW", 9),
        (0, [2, 2, 2], b"((BB(BB", 7),
        (0, [2, 1, 2], b"(B(B(BW", 7),
        (0, [1, 0, 0], b"W", 1),
        (2, [0, 2, 2], b"(BB", 3),
        (2, [4, 11, 10], b"(", 0),
        (2, [4, 10, 13], b"B", 1),
        (2, [1, 1, 1], b"B", 1),
        (6, [2, 2, 2], b"(B(B(B(BW", 8),
        (6, [2, 2, 2], b"(BB", 0),
        (7, [2, 1, 2], b"(B(B(B(BW", 9),
        (7, [2, 2, 2], b"", 0),
        (7, [2, 2, 2], b"(B(B", 4),
        (7, [2, 2, 2], b"BB", 0),
    ];
    for (wanted, [axes, bits, frame_bits], expression, lent) in cases {
        let [mut room, mut other_room] = [vec![b'.'; lent], vec![b'.'; lent]];
        let mut answer = [u64::MAX; 2];
        let number = face::merge(axes, bits, frame_bits, expression, &mut other_room, &mut answer);
        let faced = match (number, answer) {
            (ACCEPTED, [length, held]) => Ok(Merged { length: length as usize, held }),
            (number, [needed, 0]) => Err(refused(number, needed)),
            _ => panic!("merge: number {number}, answer {answer:?}"),
        };
        let wrapped = durbizhan::merge(Universe { axes, bits, frame_bits }, expression, &mut room);
        held("merge", wanted, number, (wrapped, room), (faced, other_room));
    }
    all_tried(REWRITING, cases.map(|case| case.0));
}

/// A shape that the face answers.
fn shape_of(number: u64, answer: [u64; 4]) -> Result<Shape, Refusal> {
    match (number, answer) {
        (ACCEPTED, [axes, bits, frame_bits, length]) => {
            Ok(Shape { universe: Universe { axes, bits, frame_bits }, length: length as usize })
        }
        (number, [0, 0, 0, needed]) => Err(refused(number, needed)),
        _ => panic!("a shape: number {number}, answer {answer:?}"),
    }
}

#[test]
fn sweeps() {
    let cases: [(u64, [u64; 3], u64, &[u8], usize); 20] = [
        (0, [2, 2, 2], 1, b"(W(((WBW((BWW", 13),
        (0, [2, 2, 2], 1, b"(W(((WBW((BWW", 7),
        (0, [2, 2, 2], 2, b"(W(((WBW((BWW", 20),
        (0, [2, 1, 2], 2, b"(((WB(WWW", 9),
        (0, [3, 2, 1], 3, b"(W(W((W(BW((WW(BW", 17),
        (0, [4, 1, 2], 4, b"(((B((WW(WW(((WW(WBWW", 21),
        (0, [3, 0, 2], 1, b"(WB", 3),
        (0, [4, 10, 12], 4, b"B", 1),
        (2, [2, 2, 2], 0, b"B", 1),
        (2, [2, 2, 2], 3, b"(", 0),
        (2, [4, 10, 12], 5, b"B", 1),
        (2, [1, 0, 2], 1, b"(WB", 3),
        (2, [0, 2, 2], 1, b"B", 1),
        (2, [4, 11, 10], 1, b"B", 1),
        (2, [4, 10, 13], 1, b"B", 1),
        (6, [2, 2, 2], 1, b"(W(((WBW((BWW", 6),
        (6, [2, 2, 2], 2, b"B", 0),
        (7, [2, 2, 2], 1, b"", 0),
        (7, [2, 1, 2], 2, b"(B(B(B(BW", 9),
        (7, [2, 2, 2], 2, b"BB", 0),
    ];
    for (wanted, [axes, bits, frame_bits], axis, expression, lent) in cases {
        let [mut room, mut other_room] = [vec![b'.'; lent], vec![b'.'; lent]];
        let mut answer = [u64::MAX; 4];
        let number = face::sweep(axes, bits, frame_bits, axis, expression, &mut other_room, &mut answer);
        let faced = shape_of(number, answer);
        let wrapped = durbizhan::sweep(Universe { axes, bits, frame_bits }, expression, axis, &mut room);
        held("sweep", wanted, number, (wrapped, room), (faced, other_room));
    }
    all_tried(REWRITING, cases.map(|case| case.0));
}

#[test]
fn octree_exports() {
    let cases: [(u64, [u64; 3], &[u8], usize); 12] = [
        (0, [3, 0, 0], b"B", 1),
        (0, [3, 1, 1], b"(BW", 9),
        (0, [3, 2, 2], b"((BWW", 20),
        (0, [3, 10, 10], b"(BB", 1),
        (2, [2, 1, 1], b"B", 1),
        (2, [4, 1, 1], b"(", 0),
        (2, [3, 1, 2], b"B", 1),
        (2, [3, 11, 11], b"B", 1),
        (6, [3, 1, 1], b"(BW", 8),
        (6, [3, 1, 1], b"B", 0),
        (7, [3, 1, 1], b"", 0),
        (7, [3, 1, 1], b"((((BWWWW", 9),
    ];
    for (wanted, [axes, bits, frame_bits], symbols, lent) in cases {
        let [mut room, mut other_room] = [vec![b'.'; lent], vec![b'.'; lent]];
        let mut answer = [u64::MAX; 1];
        let number = face::octree_export(axes, bits, frame_bits, symbols, &mut other_room, &mut answer);
        let wrapped = durbizhan::octree_export(Universe { axes, bits, frame_bits }, symbols, &mut room);
        held("octree_export", wanted, number, (wrapped, room), (length_of(number, answer), other_room));
    }
    all_tried(REWRITING, cases.map(|case| case.0));
}

#[test]
fn octree_imports() {
    let cases: [(u64, [u64; 3], &[u8], usize); 13] = [
        (0, [3, 0, 0], b"F", 1),
        (0, [3, 1, 1], b"PFEEEEEEE", 7),
        (0, [3, 1, 1], b"PFFFFFFFF", 20),
        (0, [3, 10, 10], b"PFEEEEEEE", 18),
        (2, [2, 1, 1], b"F", 1),
        (2, [4, 1, 1], b"P", 0),
        (2, [3, 2, 1], b"F", 1),
        (2, [3, 11, 11], b"F", 1),
        (6, [3, 1, 1], b"PFEEEEEEE", 6),
        (6, [3, 1, 1], b"F", 0),
        (7, [3, 0, 0], b"PFFFFFFFF", 9),
        (7, [3, 1, 1], b"PFFFFFFF", 9),
        (7, [3, 1, 1], b"", 0),
    ];
    for (wanted, [axes, bits, frame_bits], symbols, lent) in cases {
        let [mut room, mut other_room] = [vec![b'.'; lent], vec![b'.'; lent]];
        let mut answer = [u64::MAX; 1];
        let number = face::octree_import(axes, bits, frame_bits, symbols, &mut other_room, &mut answer);
        let wrapped = durbizhan::octree_import(Universe { axes, bits, frame_bits }, symbols, &mut room);
        held("octree_import", wanted, number, (wrapped, room), (length_of(number, answer), other_room));
    }
    all_tried(REWRITING, cases.map(|case| case.0));
}

#[test]
fn scene_files() {
    let mut cases: Vec<_> = scenes().into_iter().map(|(wanted, scene)| (wanted, scene.file())).collect();
    cases.extend([(1, vec![]), (1, b"HSC".to_vec())]);
    for (wanted, file) in &cases {
        let (mut rows, mut balls, mut first, mut second) = ([0; 1280], [0; 256], [0; 255], [0; 255]);
        let mut answer = [u64::MAX; 10];
        let number = face::scene(file, &mut rows, &mut balls, &mut first, &mut second, &mut answer);
        let [version, axes, bits, frame_bits, counts @ .., first_frame, last_frame] = answer;
        let counts = counts.map(|count| count as usize);
        let faced = match number {
            ACCEPTED => Ok(durbizhan::Scene {
                version,
                universe: Universe { axes, bits, frame_bits },
                rows: rows[..5 * counts[0]].to_vec(),
                balls: balls[..4 * counts[1]].to_vec(),
                first: first[..counts[2]].to_vec(),
                second: second[..counts[3]].to_vec(),
                window: Window { first: first_frame, last: last_frame },
            }),
            _ => Err(refused(number, 0)),
        };
        held("scene", *wanted, number, durbizhan::scene(file), faced);
    }
    all_tried(SCENE, cases.iter().map(|case| case.0));
}

/// A length that the face answers.
fn length_of(number: u64, answer: [u64; 1]) -> Result<usize, Refusal> {
    if number == ACCEPTED {
        Ok(answer[0] as usize)
    } else {
        Err(refused(number, answer[0]))
    }
}

/// Scenes for conversions, with the number that the first tree, and both trees, then have and the room that is lent.
/// The example's intersection takes 13 symbols, raw and merged; its first tree takes 23 raw and 19 merged.
fn conversions() -> Vec<(u64, Scene, usize)> {
    vec![
        (0, example(), 100),
        (0, Scene { second: vec![1], ..example() }, 100),
        (0, Scene { balls: vec![2, 0, 0, 1], first: vec![512], ..example() }, 100),
        (2, Scene { axes: 5, ..example() }, 100),
        (2, Scene { axes: 1, ..example() }, 100),
        (3, Scene { rows: vec![0; 6], ..example() }, 100),
        (3, Scene { balls: vec![0; 3], ..example() }, 100),
        (4, Scene { first: vec![], ..example() }, 100),
        (4, Scene { first: vec![512], ..example() }, 100),
        (5, Scene { first: vec![1; 33], ..example() }, 100),
        (6, example(), 8),
        (6, example(), 0),
    ]
}

type OneTree = fn(Universe, &[i64], &[i64], &[u16], &mut [u8]) -> Result<usize, Refusal>;
type OneTreeFace = fn(u64, u64, u64, &[i64], &[i64], &[u16], &mut [u8], &mut [u64; 1]) -> u64;

/// A conversion of one tree, on these and with room at both sides of what the example needs.
fn one_tree(what: &str, needed: usize, convert: OneTree, face: OneTreeFace) {
    let mut cases = conversions();
    cases.extend([(0, example(), needed), (6, example(), needed - 1)]);
    for (wanted, scene, lent) in &cases {
        let Scene { axes, bits, frame_bits, rows, balls, first, .. } = scene.clone();
        let [mut room, mut other_room] = [vec![b'.'; *lent], vec![b'.'; *lent]];
        let mut answer = [u64::MAX];
        let number = face(axes, bits, frame_bits, &rows, &balls, &first, &mut other_room, &mut answer);
        let wrapped = convert(Universe { axes, bits, frame_bits }, &rows, &balls, &first, &mut room);
        held(what, *wanted, number, (wrapped, room), (length_of(number, answer), other_room));
    }
    all_tried(CONVERSION, cases.iter().map(|case| case.0));
}

#[test]
fn one_trees() {
    one_tree("raw_one", 23, durbizhan::raw_one, face::raw_one);
    one_tree("merged_one", 19, durbizhan::merged_one, face::merged_one);
}

type TwoTrees = fn(Universe, &[i64], &[i64], &[u16], &[u16], &mut [u8]) -> Result<usize, Refusal>;
type TwoTreesFace = fn(u64, u64, u64, &[i64], &[i64], &[u16], &[u16], &mut [u8], &mut [u64; 1]) -> u64;

/// A conversion of two trees, likewise; the second tree is refused too.
fn two_trees(what: &str, convert: TwoTrees, face: TwoTreesFace) {
    let mut cases = conversions();
    cases.extend([(0, example(), 13), (6, example(), 12), (4, Scene { second: vec![], ..example() }, 0)]);
    for (wanted, scene, lent) in &cases {
        let Scene { axes, bits, frame_bits, rows, balls, first, second, .. } = scene.clone();
        let [mut room, mut other_room] = [vec![b'.'; *lent], vec![b'.'; *lent]];
        let mut answer = [u64::MAX];
        let number = face(axes, bits, frame_bits, &rows, &balls, &first, &second, &mut other_room, &mut answer);
        let wrapped = convert(Universe { axes, bits, frame_bits }, &rows, &balls, &first, &second, &mut room);
        held(what, *wanted, number, (wrapped, room), (length_of(number, answer), other_room));
    }
    all_tried(CONVERSION, cases.iter().map(|case| case.0));
}

#[test]
fn both_trees() {
    two_trees("raw_two", durbizhan::raw_two, face::raw_two);
    two_trees("merged_two", durbizhan::merged_two, face::merged_two);
}

/// What the face of a pruned conversion answers.
fn pruned_of(number: u64, answer: [u64; 3]) -> Result<Pruned, Refusal> {
    match (number, answer) {
        (ACCEPTED, [0, length, looked]) => Ok(Pruned { length: length as usize, looked }),
        (NO_ROOM, [1, needed, 0]) => Err(Refusal::NoWorkRoom { needed }),
        (number, [0, needed, 0]) => Err(refused(number, needed)),
        _ => panic!("a pruned conversion: number {number}, answer {answer:?}"),
    }
}

/// Scenes with a number, and the nodes and symbols for which room is lent; `words` is how many words of the example's
/// count: five times as many nodes are needed.
fn prunings(words: usize, needed: usize) -> Vec<(u64, Scene, usize, usize)> {
    let nodes = 5 * words;
    vec![
        (0, example(), nodes, 100),
        (0, example(), nodes, needed),
        (0, Scene { second: vec![1], ..example() }, nodes, 100),
        (0, Scene { balls: vec![2, 0, 0, 1], first: vec![512], ..example() }, nodes, 100),
        (2, Scene { axes: 5, ..example() }, nodes, 100),
        (3, Scene { rows: vec![0; 6], ..example() }, nodes, 100),
        (4, Scene { first: vec![], ..example() }, 0, 0),
        (5, Scene { first: vec![1; 33], ..example() }, 0, 0),
        (6, example(), nodes - 1, 100),
        (6, example(), nodes - 1, 0),
        (6, example(), nodes, needed - 1),
        (6, example(), 0, 100),
    ]
}

/// What a pruned conversion gives in so much work room, and whether that is as it was where it has to be.
fn with_work<T>(nodes: usize, convert: impl FnOnce(&mut [i64]) -> Result<T, Refusal>) -> Result<T, Refusal> {
    let mut work = vec![7; 3 * nodes];
    let found = convert(&mut work);
    let kept = !matches!(found, Ok(_) | Err(Refusal::NoRoom { .. }));
    assert!(!kept || work == vec![7; 3 * nodes], "the work room of a refused conversion");
    found
}

type PrunedOne = fn(Universe, &[i64], &[i64], &[u16], &mut [i64], &mut [u8]) -> Result<Pruned, Refusal>;

fn pruned_one(what: &str, needed: usize, convert: PrunedOne, merged: bool) {
    let cases = prunings(3, needed);
    for (wanted, scene, nodes, lent) in &cases {
        let Scene { axes, bits, frame_bits, rows, balls, first, .. } = scene.clone();
        let [mut room, mut other_room] = [vec![b'.'; *lent], vec![b'.'; *lent]];
        let (mut other_work, mut answer) = (vec![7; 3 * nodes], [u64::MAX; 3]);
        let number = face::pruned(
            axes, bits, frame_bits, &rows, &balls, &[&first], &mut other_work, &mut other_room, &mut answer, merged,
        );
        let universe = Universe { axes, bits, frame_bits };
        let wrapped = with_work(*nodes, |work| convert(universe, &rows, &balls, &first, work, &mut room));
        held(what, *wanted, number, (wrapped, room), (pruned_of(number, answer), other_room));
    }
    all_tried(CONVERSION, cases.iter().map(|case| case.0));
}

type PrunedTwo = fn(Universe, &[i64], &[i64], &[u16], &[u16], &mut [i64], &mut [u8]) -> Result<Pruned, Refusal>;

fn pruned_two(what: &str, convert: PrunedTwo, merged: bool) {
    // two trees of 255 words in 4 levels: 5 times 510 nodes
    let longest: Vec<u16> = std::iter::once(256).chain((0..127).flat_map(|_| [257, 2])).collect();
    let long = Scene { first: longest.clone(), second: longest, ..example() };
    let mut cases = prunings(6, 13);
    cases.extend([(0, long.clone(), 2550, 100), (6, long, 2549, 100)]);
    cases.push((4, Scene { second: vec![], ..example() }, 0, 0));
    for (wanted, scene, nodes, lent) in &cases {
        let Scene { axes, bits, frame_bits, rows, balls, first, second, .. } = scene.clone();
        let [mut room, mut other_room] = [vec![b'.'; *lent], vec![b'.'; *lent]];
        let (mut other_work, mut answer) = (vec![7; 3 * nodes], [u64::MAX; 3]);
        let trees: [&[u16]; 2] = [&first, &second];
        let number = face::pruned(
            axes, bits, frame_bits, &rows, &balls, &trees, &mut other_work, &mut other_room, &mut answer, merged,
        );
        let universe = Universe { axes, bits, frame_bits };
        let wrapped = with_work(*nodes, |work| convert(universe, &rows, &balls, &first, &second, work, &mut room));
        held(what, *wanted, number, (wrapped, room), (pruned_of(number, answer), other_room));
    }
    all_tried(CONVERSION, cases.iter().map(|case| case.0));
}

#[test]
fn pruneds() {
    pruned_one("pruned_raw_one", 23, durbizhan::pruned_raw_one, false);
    pruned_one("pruned_merged_one", 19, durbizhan::pruned_merged_one, true);
    pruned_two("pruned_raw_two", durbizhan::pruned_raw_two, false);
    pruned_two("pruned_merged_two", durbizhan::pruned_merged_two, true);
}

#[test]
fn well_formeds() {
    let cases: [(u64, [u64; 3], &[u8]); 6] = [
        (0, [2, 2, 2], b"(W(((WBW((BWW"),
        (0, [1, 0, 0], b"W"),
        (2, [5, 2, 2], b"B"),
        (2, [1, 1, 1], b""),
        (7, [2, 2, 2], b""),
        (7, [1, 0, 0], b"(BW"),
    ];
    for (wanted, [axes, bits, frame_bits], expression) in cases {
        let number = face::well_formed(axes, bits, frame_bits, expression);
        let faced = if number == ACCEPTED { Ok(()) } else { Err(refused(number, 0)) };
        let universe = Universe { axes, bits, frame_bits };
        held("well_formed", wanted, number, durbizhan::well_formed(universe, expression), faced);
    }
    all_tried(WELL_FORMED, cases.map(|case| case.0));
}

#[test]
fn colours() {
    let cases: [(u64, [u64; 3], &[u8], [u64; 4]); 8] = [
        (0, [2, 2, 2], b"(W(((WBW((BWW", [0, 0, 0, 0]),
        (0, [2, 2, 2], b"(W(((WBW((BWW", [2, 1, 0, 0]),
        (0, [1, 0, 12], b"(WB", [4095, 0, 0, 0]),
        (2, [5, 2, 2], b"B", [0, 0, 0, 0]),
        (7, [2, 2, 2], b"(", [0, 0, 0, 0]),
        (9, [2, 2, 2], b"B", [4, 0, 0, 0]),
        (9, [2, 2, 2], b"B", [0, 4, 0, 0]),
        (9, [2, 2, 2], b"B", [0, 0, 1, 0]),
    ];
    let mut seen = vec![];
    for (wanted, [axes, bits, frame_bits], expression, voxel) in cases {
        let [x, y, z, t] = voxel;
        let mut answer = [u64::MAX];
        let number = face::colour(axes, bits, frame_bits, expression, x, y, z, t, &mut answer);
        let faced = match (number, answer) {
            (ACCEPTED, [0]) => Ok(Colour::White),
            (ACCEPTED, [1]) => Ok(Colour::Black),
            (number, [0]) => Err(refused(number, 0)),
            _ => panic!("colour: number {number}, answer {answer:?}"),
        };
        seen.push(faced);
        let wrapped = durbizhan::colour(Universe { axes, bits, frame_bits }, expression, voxel);
        held("colour", wanted, number, wrapped, faced);
    }
    assert!(seen.contains(&Ok(Colour::White)) && seen.contains(&Ok(Colour::Black)), "both colours are tried");
    all_tried(READING, cases.map(|case| case.0));
}

#[test]
fn parts() {
    let cases: [(u64, [u64; 3], &[u8], &[u8]); 8] = [
        (0, [2, 2, 2], b"(W(((WBW((BWW", &[]),
        (0, [2, 2, 2], b"(W(((WBW((BWW", &[1, 0]),
        (0, [2, 2, 2], b"(W(((WBW((BWW", &[0, 1, 1, 1]),
        (2, [5, 2, 2], b"B", &[]),
        (7, [2, 2, 2], b"BB", &[]),
        (7, [2, 2, 2], b"", &[]),
        (9, [2, 2, 2], b"B", &[0, 0, 0, 0, 0]),
        (9, [2, 2, 2], b"B", &[2]),
    ];
    for (wanted, [axes, bits, frame_bits], expression, path) in cases {
        let mut answer = [u64::MAX; 2];
        let number = face::part(axes, bits, frame_bits, expression, path, &mut answer);
        let faced = match (number, answer.map(|place| place as usize)) {
            (ACCEPTED, [start, length]) => Ok(start..start + length),
            (number, [0, 0]) => Err(refused(number, 0)),
            _ => panic!("part: number {number}, answer {answer:?}"),
        };
        held("part", wanted, number, durbizhan::part(Universe { axes, bits, frame_bits }, expression, path), faced);
    }
    all_tried(READING, cases.map(|case| case.0));
}

#[test]
fn shape_reads() {
    let cases: [(u64, &[u8], usize); 10] = [
        (0, b"BNT\x02\0\x02\x02\x02\x03\0\0\0(BW", 3),
        (0, b"BNT\x01\0\x02\x02\x03\0\0\0(BW", 9),
        (1, b"", 0),
        (1, b"BNT\x03\0\x02\x02\x02\x01\0\0\0B", 9),
        (1, b"BNT\x02\0\x02\x02\x02\x02\0\0\0B", 9),
        (2, b"BNT\x02\0\x05\x02\x02\x01\0\0\0B", 9),
        (7, b"BNT\x02\0\x02\x02\x02\x02\0\0\0BB", 9),
        (8, b"BNT\x02\0\x02\x02\x02\x03\0\0\0(BB", 9),
        (6, b"BNT\x02\0\x02\x02\x02\x03\0\0\0(BW", 2),
        (6, b"BNT\x02\0\x02\x02\x02\x01\0\0\0B", 0),
    ];
    for (wanted, file, lent) in cases {
        let [mut room, mut other_room] = [vec![b'.'; lent], vec![b'.'; lent]];
        let mut answer = [u64::MAX; 4];
        let number = face::shape_read(file, &mut other_room, &mut answer);
        let faced = shape_of(number, answer);
        held("shape_read", wanted, number, (durbizhan::shape_read(file, &mut room), room), (faced, other_room));
    }
    all_tried(SHAPE_READ, cases.map(|case| case.0));
}

#[test]
fn boxes() {
    let cases = [
        (0, [0.0; 3], [1.0, 2.0, 3.0], [0.5, 0.0, -0.0625]),
        (0, [-4096.0; 3], [4096.0; 3], [64.0; 3]),
        (10, [0.0; 3], [1.0, 2.0, f64::NAN], [0.0; 3]),
        (10, [0.0, 0.03125, 0.0], [1.0; 3], [0.0; 3]),
        (10, [2.0; 3], [1.0; 3], [0.0; 3]),
        (10, [0.0; 3], [1.0; 3], [64.0625, 0.0, 0.0]),
    ];
    for (wanted, near, far, displacement) in cases {
        let mut rows = [7; 30];
        let number = face::box_proxy(near, far, displacement, &mut rows);
        let faced = if number == ACCEPTED { Ok(rows) } else { Err(refused(number, 0)) };
        held("box_rows", wanted, number, durbizhan::box_rows(near, far, displacement), faced);
    }
    all_tried(PROXY, cases.map(|case| case.0));
}

#[test]
fn cuts() {
    let cases = [
        (0, [1.0, -0.5, 0.0], -2.0, [0.0, 0.25, 0.0]),
        (0, [64.0; 3], 4096.0, [64.0; 3]),
        (10, [64.0625, 0.0, 0.0], 0.0, [0.0; 3]),
        (10, [0.0; 3], 4096.0625, [0.0; 3]),
        (10, [0.0; 3], 0.0, [f64::INFINITY, 0.0, 0.0]),
    ];
    for (wanted, normal, offset, displacement) in cases {
        let mut row = [7; 5];
        let number = face::cut_proxy(normal, offset, displacement, &mut row);
        let faced = if number == ACCEPTED { Ok(row) } else { Err(refused(number, 0)) };
        held("cut_row", wanted, number, durbizhan::cut_row(normal, offset, displacement), faced);
    }
    all_tried(PROXY, cases.map(|case| case.0));
}

#[test]
fn shape_files() {
    let cases: [(u64, [u64; 3], &[u8], usize); 9] = [
        (0, [2, 2, 2], b"(B(B(B(BW", 21),
        (0, [4, 10, 12], b"W", 20),
        (2, [0, 2, 2], b"B", 13),
        (2, [1, 1, 1], b"(BB", 15),
        (6, [2, 2, 2], b"(B(B(B(BW", 20),
        (6, [2, 2, 2], b"B", 0),
        (7, [2, 1, 2], b"(B(B(B(BW", 21),
        (7, [2, 2, 2], b"", 12),
        (8, [2, 2, 2], b"(BB", 0),
    ];
    for (wanted, [axes, bits, frame_bits], expression, lent) in cases {
        let [mut room, mut other_room] = [vec![b'.'; lent], vec![b'.'; lent]];
        let mut answer = [u64::MAX];
        let number = face::shape_write(axes, bits, frame_bits, expression, &mut other_room, &mut answer);
        let wrapped = durbizhan::shape_write(Universe { axes, bits, frame_bits }, expression, &mut room);
        held("shape_write", wanted, number, (wrapped, room), (length_of(number, answer), other_room));
    }
    all_tried(SHAPE_WRITE, cases.map(|case| case.0));
}

/// The number that the lines refuse with.
fn number_of(lines: &[u8]) -> u64 {
    lines.strip_prefix(b"refused ").map_or(0, |rest| u64::from(rest[0] - b'0'))
}

#[test]
fn lines() {
    let mut cases: Vec<_> = scenes().into_iter().map(|(wanted, scene)| (wanted, scene.file())).collect();
    // frame 0 of axes 4, bits 5 cut through: 140,431 symbols
    let (rows, first, second) = (vec![-1, 0, 0, 0, 2], vec![256], vec![1]);
    let many = Scene { axes: 4, bits: 5, frame_bits: 5, rows, first, second, ..example() };
    cases.extend([(NO_ROOM, many.file()), (1, vec![]), (1, vec![0; 65_537])]);
    for (wanted, file) in &cases {
        let mut out = [b'.'; 256];
        let count = face::lines(file, &mut out) as usize;
        held("lines", *wanted, number_of(&out), durbizhan::lines(file).into_bytes(), out[..count].to_vec());
    }
    all_tried(LINES, cases.iter().map(|case| case.0));
}
