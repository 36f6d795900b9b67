//! The most stack that calls and the program use.

use mikjuqan::{Exercise, Limits, ANSWER_LENGTH, BLOCK_LENGTH, LIST_LENGTH, PLAN_LENGTH, TABLE_LENGTH};
use outside::model::answers::Search;
use outside::model::text::encode_line;
use outside::model::{calls, session};
use outside::program;
use outside::samples::samples;
use outside::stack::used_by;

const KIB: usize = 1024;

/// What becomes of an extension by one of the first 63 rules; the last rule leads on.
#[derive(Clone, Copy, Debug)]
enum Side {
    /// It is visited, and no rule applies in its state.
    Visited,
    /// Its figure is above the threshold.
    Above,
    /// Its state stands on the path already.
    Repeated,
    /// The rule does not apply.
    NotApplying,
}

const SIDES: [Side; 4] = [Side::Visited, Side::Above, Side::Repeated, Side::NotApplying];

/// An exercise as its frames in which a search goes 64 steps deep, each step by the last of 64 rules and after what
/// becomes of the 63 others. The last rule turns three, five and seven labels in rings, so that its states repeat only
/// after 105 steps; position 0 tells whether rules apply. No state meets the goal.
fn deep_frames(side: Side) -> Vec<Vec<u8>> {
    let mut frames = vec![vec![16, 3, 1, 64, 1], vec![0; 3]];
    let mut other = [0xFF; 33];
    (other[0], other[1], other[17]) = match side {
        Side::Visited => (0, 0, 1),
        Side::Above => (1, 0, 1),
        Side::Repeated => (0, 0, 0),
        Side::NotApplying => (0, 1, 1),
    };
    frames.extend(vec![other.to_vec(); 63]);
    let mut last = [0; 33];
    (last[1], last[17]) = (0, 0xFF);
    for ring in [1..4, 4..9, 9..16] {
        for position in ring.clone() {
            let next = if position + 1 == ring.end { ring.start } else { position + 1 };
            last[1 + position] = 0x10 + position as u8;
            last[17 + next] = 0x10 + position as u8;
        }
    }
    frames.push(last.to_vec());
    let mut goal = [0xFF; 16];
    goal[0] = 2;
    frames.push(goal.to_vec());
    frames
}

/// One label 1 in each ring.
const DEEP_START: [u8; 16] = [0, 1, 0, 0, 1, 0, 0, 0, 0, 1, 0, 0, 0, 0, 0, 0];

/// With a cost limit of 0 there is but one round.
const DEEP_LIMITS: Limits = Limits { steps: 64, cost: 0, visits: 10_000 };

fn deep_text(side: Side) -> Vec<u8> {
    deep_frames(side).iter().flat_map(|frame| encode_line(frame)).collect()
}

/// Exercises of two labels with so many positions and 64 rules: rules that always apply, rules that turn all labels,
/// and rules that change one.
fn large_blocks(positions: u8) -> Vec<Vec<u8>> {
    let n = usize::from(positions);
    let head = [positions, 2, 2, 64, 8, 0, 1].to_vec();
    let goals = vec![0x01; 8 * n];
    let always = [vec![1], vec![0xFF; n], vec![0; n]].concat();
    let turned: Vec<u8> = (0..positions).map(|position| 0x10 + (position + 1) % positions).collect();
    let turn = [vec![1], (0x10..0x10 + positions).collect(), turned].concat();
    let mut change = vec![0xFF; 1 + 2 * n];
    (change[0], change[n], change[2 * n]) = (255, 0, 1);
    [always, turn, change].iter().map(|rule| [head.clone(), rule.repeat(64), goals.clone()].concat()).collect()
}

/// Prints a figure and asserts that it is within a limit.
fn report(name: &str, bytes: usize, most_kib: usize) {
    println!("stack: {name} uses {} KiB, of {most_kib} KiB at most", bytes.div_ceil(KIB));
    assert!(bytes <= most_kib * KIB, "{name} uses {bytes} bytes of stack");
}

/// The most stack of a search that goes as deep as can be, by none or three further maps, each to one abstract label.
fn used_by_searches(maps: &[u8]) -> usize {
    let limits = DEEP_LIMITS;
    let used = |side: Side| {
        let block = deep_frames(side).concat();
        let mut plan = [0; PLAN_LENGTH];
        let expected = calls::find_plan(&block, maps, &DEEP_START, limits, &[0; 4], &mut plan);
        let mut answer = None;
        let exercise = Exercise::new(&block).with_maps(maps);
        let used = used_by(|| answer = Some(exercise.find_plan(&DEEP_START, limits, &[0; 4], &mut plan)));
        assert_eq!(answer.map(|told| told.map(Search::from)), Some(expected));
        println!("stack: find_plan with side extensions {side:?}: {} KiB, {expected:?}", used.div_ceil(KIB));
        used
    };
    SIDES.map(used).into_iter().max().expect("there are sides")
}

#[test]
fn find_plan() {
    report("find_plan", used_by_searches(&[]), 320);
    report("find_plan with three further maps", used_by_searches(&[1, 0, 0, 0].repeat(3)), 320);
}

/// The most stack of a call with two such searches.
fn used_by_queries(maps: &[u8]) -> usize {
    let queries = [DEEP_START.as_slice(), &DEEP_LIMITS.to_bytes()].concat().repeat(2);
    let used = |side: Side| {
        let block = deep_frames(side).concat();
        let mut expected = [0xEE; 2 * ANSWER_LENGTH];
        assert_eq!(calls::find_plans(&block, maps, &queries, &[0; 4], &mut expected), Ok(expected.len()));
        let mut answers = [0; 2 * ANSWER_LENGTH];
        let exercise = Exercise::new(&block).with_maps(maps);
        let used = used_by(|| assert!(exercise.find_plans(&queries, &[0; 4], &mut answers).is_ok()));
        assert_eq!(answers, expected, "side extensions {side:?}");
        used
    };
    SIDES.map(used).into_iter().max().expect("there are sides")
}

/// They take no more than one of them, and a few hundred bytes.
#[test]
fn find_plans() {
    for (name, maps) in [("find_plans", vec![]), ("find_plans with three further maps", [1, 0, 0, 0].repeat(3))] {
        let (many, one) = (used_by_queries(&maps), used_by_searches(&maps));
        println!("stack: {name} uses {many} bytes, and a single search {one}");
        report(name, many, 320);
        assert!(many <= one + 512, "{name} uses {many} bytes of stack, and a single search {one}");
    }
}

/// Large exercises with further maps: one map and 16,384 abstract states, and four maps with 4,096 each.
fn large_mapped_blocks() -> impl Iterator<Item = (Vec<u8>, Vec<u8>)> {
    let four = large_blocks(12).into_iter().map(|block| (block, [2, 0, 1, 2, 1, 0, 2, 0, 0].to_vec()));
    large_blocks(14).into_iter().map(|block| (block, Vec::new())).chain(four)
}

#[test]
fn fill_table() {
    let used = large_mapped_blocks().map(|(block, maps)| {
        let mut table = vec![0; TABLE_LENGTH];
        let exercise = Exercise::new(&block).with_maps(&maps);
        used_by(|| exercise.fill_table(&mut table).expect("the exercise is accepted"))
    });
    report("fill_table", used.max().expect("there are blocks"), 235);
}

#[test]
fn test_table() {
    let used = large_mapped_blocks().map(|(block, maps)| {
        let mut table = vec![0; TABLE_LENGTH];
        let exercise = Exercise::new(&block).with_maps(&maps);
        exercise.fill_table(&mut table).expect("the exercise is accepted");
        used_by(|| assert_eq!(exercise.test_table(&table), Ok(true)))
    });
    report("test_table", used.max().expect("there are blocks"), 96);
}

#[test]
fn read_exercise() {
    let text = deep_text(Side::Visited);
    let mut out = [0; BLOCK_LENGTH];
    let used = used_by(|| assert!(mikjuqan::read_exercise(&text, &mut out).is_ok()));
    report("read_exercise", used, 64);
}

/// The nine calls that neither fill nor search nor go through a table or a text, each where it has the most to do.
#[test]
fn other_calls() {
    let block = deep_frames(Side::Visited).concat();
    let exercise = Exercise::new(&block);
    let (state, last) = (DEEP_START, 63);
    let (large, maps) = (large_blocks(12).remove(0), [2, 0, 1].repeat(3));
    let table = vec![0; TABLE_LENGTH];
    let list = [last as u8; LIST_LENGTH];
    let (mut long, mut out) = ([0; BLOCK_LENGTH], [0; 16]);
    let used = [
        used_by(|| assert!(exercise.check_block().is_ok())),
        used_by(|| assert!(exercise.relabel_block(&mut long).is_ok())),
        used_by(|| assert_eq!(exercise.apply_rule(last, &state, &mut out), Ok(true))),
        used_by(|| assert_eq!(exercise.test_goals(&state), Ok(None))),
        used_by(|| assert_eq!(exercise.first_predecessor(last, &state, &mut out), Ok(true))),
        used_by(|| assert_eq!(exercise.next_predecessor(last, &state, &[0; 16], &mut out), Ok(true))),
        used_by(|| assert_eq!(exercise.test_reversible(last), Ok(true))),
        used_by(|| assert!(exercise.replay_run(&state, &list, &mut out).is_ok())),
        used_by(|| {
            let exercise = Exercise::new(&large).with_maps(&maps);
            assert_eq!(exercise.look_up_estimate(&[1; 12], &table), Ok(Some(0)));
        }),
    ];
    report("the largest of the other calls", used.into_iter().max().expect("there are calls"), 64);
}

/// What the samples need of stack.
#[test]
fn par_on_samples() {
    for sample in samples() {
        let ended = program::run_with_stack(&sample.input, 640);
        assert_eq!(ended.printed, sample.answers, "sample {}", sample.name);
        assert!(ended.status.success(), "sample {}", sample.name);
    }
}

#[test]
fn par() {
    let query = [DEEP_START.as_slice(), &[64, 0, 0, 0, 0, 0, 0, 0x27, 0x10]].concat();
    let needed = |side: Side| {
        let input = [deep_text(side), encode_line(&query)].concat();
        let printed = session::print(&input);
        let suffices = |kib: usize| program::run_with_stack(&input, kib).printed == printed;
        // The least stack that suffices is above `low` and at most `high`.
        let (mut low, mut high) = (64, 8192);
        assert!(suffices(high));
        while high - low > 1 {
            let middle = low.midpoint(high);
            (low, high) = if suffices(middle) { (low, middle) } else { (middle, high) };
        }
        println!("stack: par with side extensions {side:?}: {high} KiB");
        high * KIB
    };
    report("par", SIDES.map(needed).into_iter().max().expect("there are sides"), 640);
}
