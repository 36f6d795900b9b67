//! Which goal is met: by a state, where a replay ends, and by a plan; each through the library and through the model.

use mikjuqan::Limits;
use outside::compare;
use outside::model::answers::{Replay, Search};
use outside::model::session;
use outside::model::text::encode_line;
use outside::program;
use outside::random::Random;

const DASH: u8 = 0xFF;
const A: u8 = 0x10;

/// The frames of an exercise of so many labels, each its own abstract label. A rule is its cost, its left terms and its
/// right terms.
fn frames<const N: usize>(labels: u8, rules: &[(u8, [u8; N], [u8; N])], goals: &[[u8; N]]) -> Vec<Vec<u8>> {
    let head = vec![N as u8, labels, labels, rules.len() as u8, goals.len() as u8];
    let mut frames = vec![head, (0..labels).collect()];
    frames.extend(rules.iter().map(|(cost, left, right)| [&[*cost], left.as_slice(), right].concat()));
    frames.extend(goals.iter().map(|goal| goal.to_vec()));
    frames
}

/// Goal k is <k,1>; rule 0 leads to it from <k,0>, and rule 1 from it to <k,2>.
fn eight_goals() -> Vec<Vec<u8>> {
    let goals: [[u8; 2]; 8] = std::array::from_fn(|k| [k as u8, 1]);
    frames(8, &[(2, [A, 0], [A, 1]), (1, [A, 1], [A, 2])], &goals)
}

fn goal_of(block: &[u8], state: &[u8]) -> Option<u8> {
    compare::test_goals(&mut Random::new(1), block, state).expect("nothing is wrong")
}

fn replay(block: &[u8], start: &[u8], list: &[u8]) -> Replay {
    compare::replay_run(&mut Random::new(1), block, start, list, start.len()).0.expect("nothing is wrong")
}

/// What a search by the zero table answers, with enough steps, cost and visits.
fn find(block: &[u8], start: &[u8]) -> Search {
    let limits = Limits { steps: 8, cost: 100, visits: 100 };
    compare::find_plan(&mut Random::new(1), block, &[], start, limits, &[0; 81], 8).0.expect("nothing is wrong")
}

fn goal_found(block: &[u8], start: &[u8]) -> u8 {
    match find(block, start) {
        Search::Found { goal, .. } => goal,
        other => panic!("{other:?}"),
    }
}

#[test]
fn state_meets_the_lowest_of_several() {
    let block = frames(3, &[], &[[2, 1], [A, A], [2, DASH], [A, A], [DASH, 0]]).concat();
    let met = |first: u8| [0, 1, 2].map(|second| goal_of(&block, &[first, second]));
    assert_eq!(met(0), [Some(1), None, None]);
    assert_eq!(met(1), [Some(4), Some(1), None]);
    assert_eq!(met(2), [Some(2), Some(0), Some(1)]);
}

#[test]
fn each_of_eight_goals() {
    let block = eight_goals().concat();
    for k in 0..8 {
        assert_eq!([0, 1, 2].map(|last| goal_of(&block, &[k, last])), [None, Some(k), None]);
        assert_eq!(replay(&block, &[k, 0], &[0]), Replay::Done { steps: 1, cost: 2, goal: Some(k) });
        assert!(matches!(find(&block, &[k, 0]), Search::Found { steps: 1, cost: 2, goal, .. } if goal == k));
        assert!(matches!(find(&block, &[k, 1]), Search::Found { steps: 0, cost: 0, goal, .. } if goal == k));
        assert!(matches!(find(&block, &[k, 2]), Search::NoPlan { .. }));
    }
}

/// Neither the goal at the start nor those on the way count.
#[test]
fn replay_tells_the_goal_where_it_ends() {
    let rules = [0, 1, 2, 3].map(|label| (1, [label], [label + 1]));
    let block = frames(5, &rules, &[[2], [0], [3]]).concat();
    let goals = [Some(1), None, Some(0), Some(2), None];
    for (steps, goal) in goals.into_iter().enumerate() {
        let list = &[0, 1, 2, 3][..steps];
        assert_eq!(replay(&block, &[0], list), Replay::Done { steps, cost: steps as u32, goal });
    }
}

/// The wrapper tells no goal then: an answer with one is none of the model's.
#[test]
fn replay_that_is_stuck_at_a_goal() {
    let block = eight_goals().concat();
    assert_eq!(replay(&block, &[5, 1], &[0]), Replay::Stuck { steps: 0, cost: 0 });
    assert_eq!(replay(&block, &[5, 0], &[0, 0, 1]), Replay::Stuck { steps: 1, cost: 2 });
}

/// Of two plans of the same cost it is the rules that decide, and not the goals.
#[test]
fn plan_of_the_first_rule_and_not_to_the_first_goal() {
    let to_both = |costs: [u8; 2]| frames(3, &[(costs[0], [0], [2]), (costs[1], [0], [1])], &[[1], [2]]).concat();
    assert_eq!(goal_found(&to_both([3, 3]), &[0]), 1);
    assert_eq!(goal_found(&to_both([3, 4]), &[0]), 1);
    assert_eq!(goal_found(&to_both([4, 3]), &[0]), 0);
}

#[test]
fn plan_whose_last_state_meets_several() {
    let rules = [(1, [A, 0], [A, 1])];
    assert_eq!(goal_found(&frames(3, &rules, &[[0, 2], [DASH, 1], [A, A]]).concat(), &[1, 0]), 1);
    assert_eq!(goal_found(&frames(3, &rules, &[[A, A], [DASH, 1], [1, 1]]).concat(), &[1, 0]), 0);
}

/// Two labels that count as one for the table: the goal is told by the state itself.
#[test]
fn goals_that_are_one_for_the_table() {
    let block = [1, 3, 1, 1, 2, 0, 0, 0, 1, 0, 2, 1, 2];
    assert_eq!(goal_found(&block, &[0]), 1);
}

/// A plan of 64 rules to goal 7, which makes the longest answer there is: 75 bytes. The frames of its exercise, the
/// query, and the answer.
fn longest() -> (Vec<Vec<u8>>, Vec<u8>, Vec<u8>) {
    let state = |number: u8| [number / 8, number % 8];
    let rules: [(u8, [u8; 2], [u8; 2]); 64] = std::array::from_fn(|k| (255, state(k as u8), state(k as u8 + 1)));
    let mut goals = [[8, 8]; 8];
    goals[7] = state(64);
    let query = [0, 0, 64, 0, 0, 0x3F, 0xC0, 0, 0, 0, 65];
    let answer = [[0, 7, 64, 0, 0, 0x3F, 0xC0, 0, 0, 0, 65].as_slice(), &(0..64).collect::<Vec<u8>>()].concat();
    (frames(9, &rules, &goals), query.to_vec(), answer)
}

#[test]
fn longest_line() {
    let (frames, query, answer) = longest();
    let input: Vec<u8> = frames.iter().chain([&query]).flat_map(|frame| encode_line(frame)).collect();
    let line = encode_line(&answer);
    assert_eq!(line.len(), 151);
    assert_eq!(session::print(&input), line);
    assert_eq!(program::run(&input).printed, line);
}

#[test]
fn longest_record() {
    let (frames, query, answer) = longest();
    let (block, random) = (frames.concat(), &mut Random::new(1));
    let table = compare::fill_table(random, &block, &[], 81).1;
    let queries = [query.as_slice(), &[8, 0, 64, 0, 0, 0, 0, 0, 0, 0, 1], &query].concat();
    let (told, answers) = compare::find_plans(random, &block, &[], &queries, &table, 3 * answer.len());
    assert!(told.is_ok());
    let short = [[0, 7, 0, 0, 0, 0, 0, 0, 0, 0, 1].as_slice(), &[0; 64]].concat();
    assert_eq!(answers, [answer.clone(), short, answer].concat());
}
