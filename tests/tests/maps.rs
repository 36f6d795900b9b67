//! Further maps: what is said of them in words, each through the library and through the model, and every reason to
//! refuse them, at random.

use mikjuqan::{Exercise, Limits, Refusal, ANSWER_LENGTH, NO_PATH, TABLE_LENGTH};
use outside::compare;
use outside::draw::maps::DrawnMaps;
use outside::draw::Drawn;
use outside::model::answers::Search;
use outside::random::Random;
use outside::repeat::{cases, repeat, Kind};
use outside::samples::e_block;

const M: u32 = NO_PATH;

/// Input E's own table, and maps for it: to three abstract labels, and to two in another way.
const E_TABLE: [u32; 8] = [M, M, M, 2, M, 1, 0, M];
const IDENTITY: [u8; 4] = [3, 0, 1, 2];
const OTHER: [u8; 4] = [2, 0, 0, 1];

const START: [u8; 3] = [1, 2, 0];
const LIMITS: Limits = Limits { steps: 8, cost: 100, visits: 100 };

/// The filled tables of input E.
fn fill(maps: &[u8], entries: usize) -> Vec<u32> {
    let (answer, tables) = compare::fill_table(&mut Random::new(1), &e_block(), maps, entries);
    assert_eq!(answer, Ok(()));
    tables
}

fn estimate(maps: &[u8], state: &[u8], tables: &[u32]) -> Option<u32> {
    compare::look_up_estimate(&mut Random::new(2), &e_block(), maps, state, tables).expect("nothing is wrong")
}

fn find(maps: &[u8], tables: &[u32]) -> Result<Search, Refusal> {
    compare::find_plan(&mut Random::new(3), &e_block(), maps, &START, LIMITS, tables, 8).0
}

/// The refusals of the five calls that are lent maps, for a block and a state, by a table of no entries.
fn refusals(block: &[u8], maps: &[u8], state: &[u8]) -> [Option<Refusal>; 5] {
    let random = &mut Random::new(4);
    let query = [state, &LIMITS.to_bytes()].concat();
    [
        compare::fill_table(random, block, maps, 0).0.err(),
        compare::test_table(random, block, maps, &[]).err(),
        compare::look_up_estimate(random, block, maps, state, &[]).err(),
        compare::find_plan(random, block, maps, state, LIMITS, &[], 8).0.err(),
        compare::find_plans(random, block, maps, &query, &[], ANSWER_LENGTH).0.err(),
    ]
}

#[test]
fn tables_stand_behind_one_another() {
    let (identity, other) = (fill(&IDENTITY, 35), fill(&OTHER, 16));
    assert_eq!((&identity[..8], &other[..8]), (E_TABLE.as_slice(), E_TABLE.as_slice()));
    // The ranks of <1,2,0> and <2,1,0> by three labels, and by two: <0,1,0> and <1,0,0>.
    assert_eq!((identity[8 + 15], identity[8 + 21]), (5, 0));
    assert_eq!(other[8 + 4], 0);
    assert_eq!(fill(&[IDENTITY, OTHER].concat(), 43), [&identity, &other[8..]].concat());
    assert_eq!(fill(&[OTHER, IDENTITY].concat(), 43), [&other, &identity[8..]].concat());
}

#[test]
fn estimate_is_the_largest_entry_and_the_mark_above_all() {
    let maps = [IDENTITY, OTHER].concat();
    let mut tables = [0; 43];
    let places = [6, 8 + 15, 35 + 2];
    for (entries, expected) in [
        ([3, 2, 1], Some(3)),
        ([2, 3, 1], Some(3)),
        ([2, 1, 3], Some(3)),
        ([3, 3, 3], Some(3)),
        ([M - 1, 0, 0], Some(M - 1)),
        ([M, M - 1, 0], None),
        ([0, M, M - 1], None),
        ([M - 1, 0, M], None),
    ] {
        places.iter().zip(entries).for_each(|(&place, entry)| tables[place] = entry);
        assert_eq!(estimate(&maps, &START, &tables), expected);
    }
}

#[test]
fn same_plan_with_fewer_visits() {
    let found = |visits: u32| Ok(Search::Found { steps: 3, cost: 5, visits, goal: 0 });
    assert_eq!(find(&[], &E_TABLE), found(10));
    assert_eq!(find(&IDENTITY, &fill(&IDENTITY, 35)), found(4));
    assert_eq!(find(&IDENTITY, &[0; 35]), found(19));
    let three = [IDENTITY, OTHER, [1, 0, 0, 0]].concat();
    assert_eq!(find(&three, &fill(&three, 44)), found(4));
}

#[test]
fn one_table_that_fails_is_enough() {
    let maps = [IDENTITY, OTHER].concat();
    let tables = fill(&maps, 43);
    let goals = [6, 8 + 21, 35 + 4];
    for place in goals {
        let mut failing = tables.clone();
        failing[place] = 1;
        assert_eq!(compare::test_table(&mut Random::new(5), &e_block(), &maps, &failing), Ok(false));
        assert_eq!(find(&maps, &failing), Err(Refusal::TableFails));
    }
    // Without the maps behind the first only its own table is looked at.
    let own_alone = [&E_TABLE[..], &[1; 35]].concat();
    assert_eq!(find(&[], &own_alone), find(&[], &E_TABLE));
}

#[test]
fn order_of_refusals() {
    let good = e_block();
    let mut unbound = e_block();
    unbound[12] = 0x11;
    let both = [0, 0, 0, 0, 1];
    let out_of_range = [0, 0, 0, 0];
    let no_state = [1, 2, 3];
    assert_eq!(refusals(&unbound, &both, &no_state), [Some(Refusal::Unbound); 5]);
    assert_eq!(refusals(&good, &both, &no_state), [Some(Refusal::Maps); 5]);
    assert_eq!(refusals(&good, &out_of_range, &no_state), [Some(Refusal::MapRange); 5]);
    let [short, state] = [Some(Refusal::TableShort), Some(Refusal::State)];
    assert_eq!(refusals(&good, &IDENTITY, &no_state), [short, short, state, state, short]);
    assert_eq!(refusals(&good, &IDENTITY, &START), [short; 5]);
}

/// Positions, and the K of each map, the block's own first.
#[test]
fn entries_of_all_tables_together() {
    let refused = |positions: u8, numbers: &[u8]| {
        let labels = *numbers.iter().max().expect("there is a map");
        let map = |&number: &u8| [vec![number], vec![0; labels.into()]].concat();
        let maps: Vec<u8> = numbers[1..].iter().flat_map(map).collect();
        let state = vec![0; positions.into()];
        let block = [vec![positions, labels, numbers[0], 0, 1], vec![0; labels.into()], state.clone()].concat();
        let [first, others @ ..] = refusals(&block, &maps, &state);
        assert_eq!(others, [first; 4]);
        first
    };
    let within: [(u8, &[u8]); 4] = [(14, &[2]), (13, &[2, 2]), (12, &[2, 2, 2, 2]), (3, &[16, 16, 16, 16])];
    for (positions, numbers) in within {
        assert_eq!(refused(positions, numbers), Some(Refusal::TableShort), "{positions} {numbers:?}");
        assert_eq!(numbers.iter().map(|&k| usize::from(k).pow(positions.into())).sum::<usize>(), TABLE_LENGTH);
    }
    let above: [(u8, &[u8]); 8] = [
        (14, &[2, 1]),
        (14, &[1, 2]),
        (13, &[2, 2, 1]),
        (14, &[2, 2, 2, 2]),
        (16, &[1, 2]),
        (8, &[1, 16]),
        (16, &[1, 16]),
        (16, &[1, 1, 1, 16]),
    ];
    for (positions, numbers) in above {
        assert_eq!(refused(positions, numbers), Some(Refusal::MapRange), "{positions} {numbers:?}");
    }
}

/// What the other calls answer is the same with bytes that are no maps.
#[test]
fn other_calls_do_not_look_at_maps() {
    let block = e_block();
    let (plain, lent) = (Exercise::new(&block), Exercise::new(&block).with_maps(&[0xFF; 5]));
    let (mut plain_out, mut lent_out) = ([0; 64], [0; 64]);
    assert_eq!((lent.block(), lent.maps()), (plain.block(), [0xFF; 5].as_slice()));
    assert_eq!(lent.check_block(), plain.check_block());
    assert_eq!(lent.relabel_block(&mut lent_out), plain.relabel_block(&mut plain_out));
    assert_eq!(lent.test_reversible(2), plain.test_reversible(2));
    assert_eq!(lent.test_goals(&START), plain.test_goals(&START));
    assert_eq!(lent.apply_rule(2, &START, &mut lent_out), plain.apply_rule(2, &START, &mut plain_out));
    assert_eq!(lent.first_predecessor(3, &START, &mut lent_out), plain.first_predecessor(3, &START, &mut plain_out));
    let next = |exercise: Exercise, out: &mut [u8]| exercise.next_predecessor(3, &START, &[0; 3], out);
    assert_eq!(next(lent, &mut lent_out), next(plain, &mut plain_out));
    let replay = |exercise: Exercise, out: &mut [u8]| exercise.replay_run(&START, &[2, 0, 5], out);
    assert_eq!(replay(lent, &mut lent_out), replay(plain, &mut plain_out));
    assert_eq!(lent_out, plain_out);
}

/// What is wrong with further maps, if anything.
struct Reason(&'static str);

impl Kind for Reason {
    fn kind(&self) -> &'static str {
        self.0
    }
}

const REASONS: &str =
    "a part of a map, more than three, K is 0, K is above L, a byte is not below K, too many entries, nothing";

/// The reason to refuse maps, and the refusal. Of the number of entries nothing is known here: where there is no other
/// reason, it is as it was told.
fn reason_to_refuse(labels: usize, maps: &[u8], told: Refusal) -> (&'static str, Refusal) {
    let records: Vec<&[u8]> = maps.chunks(1 + labels).collect();
    let is_low = |record: &&[u8]| record[0] == 0;
    let is_high = |record: &&[u8]| usize::from(record[0]) > labels;
    let has_high_byte = |record: &&[u8]| record[1..].iter().any(|&byte| byte >= record[0]);
    if records.last().is_some_and(|last| last.len() != 1 + labels) {
        ("a part of a map", Refusal::Maps)
    } else if records.len() > 3 {
        ("more than three", Refusal::Maps)
    } else if records.iter().any(is_low) {
        ("K is 0", Refusal::MapRange)
    } else if records.iter().any(is_high) {
        ("K is above L", Refusal::MapRange)
    } else if records.iter().any(has_high_byte) {
        ("a byte is not below K", Refusal::MapRange)
    } else if told == Refusal::MapRange {
        ("too many entries", Refusal::MapRange)
    } else {
        ("nothing", Refusal::TableShort)
    }
}

/// By a table of no entries maps that are accepted are told from those that are not.
#[test]
fn every_reason_to_refuse() {
    repeat("every_reason_to_refuse", cases(), REASONS, |random| {
        let (drawn, exercise) = loop {
            let drawn = Drawn::new(random, 64);
            if let Some(exercise) = drawn.exercise() {
                break (drawn, exercise);
            }
        };
        let count = random.below(4);
        let maps = DrawnMaps::new(random, &drawn.draft, count, 64).bytes;
        let told = compare::test_table(random, &exercise.encode(), &maps, &[]).expect_err("there is no table");
        let (reason, refusal) = reason_to_refuse(exercise.labels, &maps, told);
        assert_eq!(told, refusal, "{reason}");
        Reason(reason)
    });
}
