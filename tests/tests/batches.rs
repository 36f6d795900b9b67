//! Many searches in one call: what is said of query and answer records in words, each through the library and through
//! the model, and every reason to refuse them, at random.

use mikjuqan::{Exercise, Limits, Refusal, ANSWER_LENGTH, LIMITS_LENGTH, QUERIES};
use outside::compare;
use outside::draw::arguments::draw_room;
use outside::draw::queries::{count_records, draw_queries};
use outside::draw::Drawn;
use outside::model::answers::Search;
use outside::model::block::check;
use outside::model::table::fill;
use outside::random::Random;
use outside::repeat::{cases, repeat, Kind};
use outside::samples::{e_block, samples};

const START: [u8; 3] = [1, 2, 0];
const GOAL: [u8; 3] = [2, 1, 0];
const LIMITS: Limits = Limits { steps: 8, cost: 100, visits: 100 };

fn query(start: &[u8], limits: Limits) -> Vec<u8> {
    [start, &limits.to_bytes()].concat()
}

/// Answer records with zeros behind what is given of them.
fn records(answers: &[&[u8]]) -> Vec<u8> {
    let record = |answer: &&[u8]| [answer, vec![0; ANSWER_LENGTH - answer.len()].as_slice()].concat();
    answers.iter().flat_map(record).collect()
}

/// What is written for queries of input E, by its filled table.
fn find_in_e(queries: &[Vec<u8>]) -> Vec<u8> {
    let table = fill(&check(&e_block()).expect("input E is accepted"));
    let room = ANSWER_LENGTH * queries.len();
    let (told, answers) = compare::find_plans(&mut Random::new(1), &e_block(), &[], &queries.concat(), &table, room);
    assert!(told.is_ok());
    answers
}

/// The refusal of a call on input E, in room for so many bytes.
fn refusal(queries: &[u8], room: usize, table: &[u32]) -> Option<Refusal> {
    compare::find_plans(&mut Random::new(2), &e_block(), &[], queries, table, room).0.err()
}

#[test]
fn limits_in_a_query() {
    let limits = Limits { steps: 64, cost: 0x0102_0304, visits: 0x0506_0708 };
    assert_eq!(limits.to_bytes(), [64, 1, 2, 3, 4, 5, 6, 7, 8]);
    for (steps, byte) in [(0, 0), (65, 65), (254, 254), (255, 255), (256, 255), (1 << 32, 255), (usize::MAX, 255)] {
        assert_eq!(Limits { steps, ..limits }.to_bytes()[0], byte);
    }
}

/// Steps stand behind the goal where there is a plan, and behind the status where there is none.
#[test]
fn records_of_e() {
    let found = [0, 0, 3, 0, 0, 0, 5, 0, 0, 0, 10, 2, 0, 5].as_slice();
    let asked: [(&[u8], Limits, &[u8]); 7] = [
        (&START, LIMITS, found),
        (&START, Limits { visits: 9, ..LIMITS }, &[2, 0, 0, 0, 0, 0, 0, 0, 0, 9]),
        (&START, Limits { cost: 4, ..LIMITS }, &[1, 0, 0, 0, 0, 0, 0, 0, 0, 6]),
        (&START, Limits { steps: 2, ..LIMITS }, &[1, 0, 0, 0, 0, 0, 0, 0, 0, 11]),
        (&START, Limits { steps: 65, ..LIMITS }, &[0xFF, 10]),
        (&[1, 2, 3], Limits { steps: 65, ..LIMITS }, &[0xFF, 8]),
        (&GOAL, LIMITS, &[0, 0, 0, 0, 0, 0, 0, 0, 0, 0, 1]),
    ];
    let queries = asked.map(|(start, limits, _)| query(start, limits));
    assert_eq!(find_in_e(&queries), records(&asked.map(|(_, _, answer)| answer)));
    for (query, (_, _, answer)) in queries.into_iter().zip(asked) {
        assert_eq!(find_in_e(&[query]), records(&[answer]));
    }
}

/// Each query has its own allowance, and each plan its own place.
#[test]
fn nothing_is_carried_over() {
    let visits = [10, 9, 10, 0, 100, 10];
    let queries = visits.map(|visits| query(&START, Limits { visits, ..LIMITS }));
    let found = [0, 0, 3, 0, 0, 0, 5, 0, 0, 0, 10, 2, 0, 5].as_slice();
    let (nine, none) = ([2, 0, 0, 0, 0, 0, 0, 0, 0, 9], [2]);
    assert_eq!(find_in_e(&queries), records(&[found, &nine, found, &none, found, found]));
}

/// The queries of each sample in one call: the bytes are those that `par` prints.
#[test]
fn samples_in_one_call() {
    for sample in samples() {
        let (block, queries) = sample.block_and_queries();
        let table = fill(&check(&block).expect("a sample is accepted"));
        let answers = sample.answer_bytes();
        let expected = records(&answers.iter().map(Vec::as_slice).collect::<Vec<_>>());
        let mut written = vec![0xEE; expected.len()];
        let told = Exercise::new(&block).find_plans(&queries.concat(), &table, &mut written).map(|told| told.len());
        assert_eq!((told, written), (Ok(queries.len()), expected), "sample {}", sample.name);
    }
}

/// What is told in one call is read from its records, from both ends.
#[test]
fn answers_from_both_ends() {
    let block = e_block();
    let queries = [query(&START, LIMITS), query(&[1, 2, 3], LIMITS), query(&GOAL, LIMITS)].concat();
    let mut room = [0xEE; 4 * ANSWER_LENGTH];
    let mut answers = Exercise::new(&block).find_plans(&queries, &[0; 8], &mut room).expect("nothing is wrong");
    let steps = |answer: Result<(mikjuqan::Search, &[u8]), Refusal>| {
        answer.map(|(found, plan)| (Search::from(found).steps(), plan.to_vec()))
    };
    let expected = [Ok((3, vec![2, 0, 5])), Err(Refusal::State), Ok((0, vec![]))];
    assert_eq!((answers.len(), answers.size_hint()), (3, (3, Some(3))));
    assert_eq!(answers.clone().map(steps).collect::<Vec<_>>(), expected);
    assert!(answers.clone().rev().map(steps).eq(expected.iter().rev().cloned()));
    let shown = format!("{answers:?}");
    assert!(
        shown.starts_with("[Ok((Found(Plan { steps: 3,") && shown.contains("[2, 0, 5])), Err(State), Ok("),
        "{shown}"
    );
    assert_eq!(answers.next_back().map(steps).as_ref(), Some(&expected[2]));
    assert_eq!(answers.next().map(steps).as_ref(), Some(&expected[0]));
    assert_eq!((answers.len(), format!("{answers:?}").as_str()), (1, "[Err(State)]"));
    assert_eq!(answers.next().map(steps).as_ref(), Some(&expected[1]));
    assert_eq!((answers.len(), answers.next(), answers.next_back()), (0, None, None));
    assert_eq!(room[3 * ANSWER_LENGTH..], [0xEE; ANSWER_LENGTH]);
}

/// 16 comes before 12 and 13, and what refuses a query does not refuse the call.
#[test]
fn order_of_refusals() {
    let (good, wrong) = (query(&START, LIMITS), query(&[3, 3, 3], Limits { steps: 65, ..LIMITS }));
    for (queries, room) in [
        (vec![], ANSWER_LENGTH),
        (good.repeat(QUERIES + 1), ANSWER_LENGTH * (QUERIES + 1)),
        (wrong[1..].to_vec(), ANSWER_LENGTH),
        (wrong.repeat(2), 2 * ANSWER_LENGTH - 1),
    ] {
        for table in [[1; 7].as_slice(), &[1; 8], &[0; 8]] {
            assert_eq!(refusal(&queries, room, table), Some(Refusal::Records));
        }
    }
    assert_eq!(refusal(&wrong, ANSWER_LENGTH, &[1; 7]), Some(Refusal::TableShort));
    assert_eq!(refusal(&wrong, ANSWER_LENGTH, &[1; 8]), Some(Refusal::TableFails));
    assert_eq!(refusal(&wrong, ANSWER_LENGTH, &[0; 8]), None);
}

/// What is wrong with queries or the room for their answers, if anything.
struct Reason(&'static str);

impl Kind for Reason {
    fn kind(&self) -> &'static str {
        self.0
    }
}

const REASONS: &str = "no records, more than 256, a part of a record, no room, nothing, 3";

fn reason_to_refuse(width: usize, queries: &[u8], room: usize) -> &'static str {
    let (count, rest) = (queries.len() / width, queries.len() % width);
    if queries.is_empty() {
        "no records"
    } else if rest > 0 {
        "a part of a record"
    } else if count > QUERIES {
        "more than 256"
    } else if room < count * ANSWER_LENGTH {
        "no room"
    } else {
        "nothing"
    }
}

/// By a table of no entries queries that are accepted are told from those that are not. Some exercises are out of
/// limits, and refused with 3.
#[test]
fn every_reason_to_refuse() {
    repeat("every_reason_to_refuse_queries", cases() / 5, REASONS, |random| {
        let (drawn, start) = Drawn::with_start(random, 64);
        let exercise = check(&drawn.draft.block())?;
        let queries = draw_queries(random, &drawn, &[], &start, &[]);
        let room = draw_room(random, ANSWER_LENGTH * count_records(&drawn.draft, &queries));
        let told = compare::find_plans(random, &exercise.encode(), &[], &queries, &[], room).0;
        let reason = reason_to_refuse(exercise.positions + LIMITS_LENGTH, &queries, room);
        let refusal = if reason == "nothing" { Refusal::TableShort } else { Refusal::Records };
        assert_eq!(told, Err(refusal), "{reason}");
        Ok(Reason(reason))
    });
}
