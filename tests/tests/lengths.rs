//! Every length from 0 to a few beyond the needed one, for every buffer of every call.
//!
//! Besides comparing with the model, each test states at which lengths its call is accepted.

use mikjuqan::{Limits, Refusal, ANSWER_LENGTH, QUERIES, TABLE_LENGTH};
use outside::compare;
use outside::draw::arguments::draw_run;
use outside::model::block::check;
use outside::model::exercise::Exercise;
use outside::model::maps::Mapped;
use outside::model::matching::apply;
use outside::model::text::encode_line;
use outside::random::Random;
use outside::samples::{e_block, samples};

/// How far beyond the needed length the lengths go.
const BEYOND: usize = 3;

/// An exercise, and arguments that its calls accept.
struct Subject {
    name: String,
    block: Vec<u8>,
    exercise: Exercise,
    /// A state, and a rule that applies in it.
    state: Vec<u8>,
    rule: usize,
}

impl Subject {
    fn new(name: &str, block: Vec<u8>, state: &[u8]) -> Subject {
        let exercise = check(&block).expect("the exercise is accepted");
        let rule = exercise.rules.iter().position(|rule| apply(rule, state).is_some()).expect("a rule applies");
        Subject { name: name.to_string(), block, exercise, state: state.to_vec(), rule }
    }

    fn positions(&self) -> usize {
        self.exercise.positions
    }

    /// No further maps, and three where there is room for their tables, two abstract labels in each where there is.
    fn lendings(&self) -> Vec<Vec<u8>> {
        let map =
            |count: u8| [count].into_iter().chain((0..self.exercise.labels as u8).map(move |label| label % count));
        let mut maps = Vec::new();
        for _ in 0..3 {
            let longer = [2, 1].map(|count| maps.iter().copied().chain(map(count)).collect::<Vec<u8>>());
            maps = longer.into_iter().find(|maps| self.mapped(maps).is_ok()).unwrap_or(maps);
        }
        vec![Vec::new(), maps]
    }

    fn mapped(&self, maps: &[u8]) -> Result<Mapped, Refusal> {
        Mapped::new(self.exercise.clone(), maps)
    }

    /// The filled tables.
    fn tables(&self, maps: &[u8]) -> Vec<u32> {
        self.mapped(maps).expect("the maps are accepted").fill()
    }
}

/// Input E, the samples, a smallest exercise, one with sixteen positions and labels, one with the largest table.
fn subjects() -> Vec<Subject> {
    let smallest = vec![1, 1, 1, 1, 1, 0, 7, 0x10, 0x10, 0xFF];
    let variables: Vec<u8> = (0x10..0x20).collect();
    let turned: Vec<u8> = (0x11..0x20).chain([0x10]).collect();
    let wide = [[16, 16, 1, 1, 1].as_slice(), &[0; 16], &[3], &variables, &turned, &[0xFF; 16]].concat();
    let large = [[7, 4, 4, 1, 1, 0, 1, 2, 3, 2].as_slice(), &variables[..7], &[3; 7], &[3; 7]].concat();
    let mut subjects = vec![
        Subject::new("E", e_block(), &[1, 2, 0]),
        Subject::new("smallest", smallest, &[0]),
        Subject::new("wide", wide, &(0..16).collect::<Vec<u8>>()),
        Subject::new("large", large, &[0, 1, 2, 3, 2, 1, 0]),
    ];
    for sample in samples() {
        let (block, start) = sample.block_and_start();
        subjects.push(Subject::new(&sample.name, block, &start));
    }
    subjects
}

/// Those of the lengths from 0 to a few beyond the needed one at which a call is accepted, and the refusals at the
/// others.
struct Tried {
    accepted: Vec<usize>,
    refusals: Vec<Refusal>,
}

fn try_lengths<T>(needed: usize, mut call: impl FnMut(usize) -> Result<T, Refusal>) -> Tried {
    let mut tried = Tried { accepted: Vec::new(), refusals: Vec::new() };
    for length in 0..=needed + BEYOND {
        match call(length) {
            Ok(_) => tried.accepted.push(length),
            Err(refusal) => tried.refusals.push(refusal),
        }
    }
    tried.refusals.dedup();
    tried
}

/// A buffer that is cut off or extended by zeros.
fn with_length<T: Copy + Default>(contents: &[T], length: usize) -> Vec<T> {
    let zeros = std::iter::repeat(T::default());
    contents.iter().copied().chain(zeros).take(length).collect()
}

/// Tries a block of every length: all but one are refused with 3 or 4.
fn try_blocks<T>(subject: &Subject, mut call: impl FnMut(&[u8]) -> Result<T, Refusal>) {
    let needed = subject.block.len();
    let tried = try_lengths(needed, |length| call(&with_length(&subject.block, length)));
    assert_eq!(tried.accepted, [needed], "blocks of {}", subject.name);
    assert_eq!(tried.refusals, [Refusal::Head, Refusal::Length], "blocks of {}", subject.name);
}

/// Tries a state of every length: all but one are refused with 8.
fn try_states<T>(subject: &Subject, mut call: impl FnMut(&[u8]) -> Result<T, Refusal>) {
    let needed = subject.positions();
    let tried = try_lengths(needed, |length| call(&with_length(&subject.state, length)));
    assert_eq!(tried.accepted, [needed], "states of {}", subject.name);
    assert_eq!(tried.refusals, [Refusal::State], "states of {}", subject.name);
}

/// Tries further maps of every length, up to more than three, each with one abstract label: those that are not whole
/// maps are refused with 14, and in the exercise with the largest table there is no room for one more entry. The tables
/// are zero.
fn try_maps<T>(subject: &Subject, mut call: impl FnMut(&[u8], &[u32]) -> Result<T, Refusal>) {
    let width = 1 + subject.exercise.labels;
    let own = subject.exercise.abstract_states();
    let map: Vec<u8> = [1].into_iter().chain(vec![0; subject.exercise.labels]).collect();
    let tables = vec![0; own + 3];
    let tried = try_lengths(4 * width, |length| call(&map.repeat(8)[..length], &tables));
    if own == TABLE_LENGTH {
        assert_eq!(tried.accepted, [0], "maps of {}", subject.name);
        assert!(tried.refusals.iter().all(|refusal| [Refusal::Maps, Refusal::MapRange].contains(refusal)));
    } else {
        assert_eq!(tried.accepted, [0, width, 2 * width, 3 * width], "maps of {}", subject.name);
        assert_eq!(tried.refusals, [Refusal::Maps], "maps of {}", subject.name);
    }
}

/// Tries a buffer of every length: those shorter than what is needed are refused.
fn try_rooms<T>(needed: usize, refusal: Refusal, call: impl FnMut(usize) -> Result<T, Refusal>) {
    let tried = try_lengths(needed, call);
    assert_eq!(tried.accepted, (needed..=needed + BEYOND).collect::<Vec<_>>());
    assert_eq!(tried.refusals, if needed == 0 { vec![] } else { vec![refusal] });
}

#[test]
fn read_exercise() {
    let random = &mut Random::new(1);
    for subject in subjects() {
        let head = outside::model::block::Head::read(&subject.block).expect("the head is within its limits");
        let mut rest = &subject.block[..];
        let frames = head.frame_lengths().into_iter().map(|length| rest.split_off(..length).expect("a whole frame"));
        let text: Vec<u8> = frames.flat_map(encode_line).collect();
        let needed = subject.block.len();
        let tried = try_lengths(text.len(), |length| {
            let text = with_length(&text, length);
            compare::read_exercise(random, &text, needed).0
        });
        assert_eq!(tried.accepted, [text.len()], "texts of {}", subject.name);
        try_rooms(needed, Refusal::Buffer, |room| compare::read_exercise(random, &text, room).0);
    }
}

#[test]
fn check_block() {
    let random = &mut Random::new(2);
    for subject in subjects() {
        try_blocks(&subject, |block| compare::check_block(random, block));
    }
}

#[test]
fn relabel_block() {
    let random = &mut Random::new(3);
    for subject in subjects() {
        let needed = subject.block.len() - subject.exercise.labels + subject.exercise.abstract_labels;
        try_blocks(&subject, |block| compare::relabel_block(random, block, needed).0);
        try_rooms(needed, Refusal::Buffer, |room| compare::relabel_block(random, &subject.block, room).0);
    }
}

#[test]
fn apply_rule() {
    let random = &mut Random::new(4);
    for subject in subjects() {
        let Subject { block, state, rule, .. } = &subject;
        let room = subject.positions();
        try_blocks(&subject, |block| compare::apply_rule(random, block, *rule, state, room).0);
        try_states(&subject, |state| compare::apply_rule(random, block, *rule, state, room).0);
        try_rooms(room, Refusal::Buffer, |room| compare::apply_rule(random, block, *rule, state, room).0);
    }
}

#[test]
fn test_goals() {
    let random = &mut Random::new(5);
    for subject in subjects() {
        try_blocks(&subject, |block| compare::test_goals(random, block, &subject.state));
        try_states(&subject, |state| compare::test_goals(random, &subject.block, state));
    }
}

#[test]
fn first_predecessor() {
    let random = &mut Random::new(6);
    for subject in subjects() {
        let Subject { block, state, rule, .. } = &subject;
        let room = subject.positions();
        try_blocks(&subject, |block| compare::first_predecessor(random, block, *rule, state, room).0);
        try_states(&subject, |state| compare::first_predecessor(random, block, *rule, state, room).0);
        try_rooms(room, Refusal::Buffer, |room| compare::first_predecessor(random, block, *rule, state, room).0);
    }
}

#[test]
fn next_predecessor() {
    let random = &mut Random::new(7);
    for subject in subjects() {
        let Subject { block, state, rule, .. } = &subject;
        let room = subject.positions();
        let earlier = &vec![0; room];
        try_blocks(&subject, |block| compare::next_predecessor(random, block, *rule, state, earlier, room).0);
        try_states(&subject, |state| compare::next_predecessor(random, block, *rule, state, earlier, room).0);
        try_states(&subject, |earlier| compare::next_predecessor(random, block, *rule, state, earlier, room).0);
        try_rooms(room, Refusal::Buffer, |room| {
            compare::next_predecessor(random, block, *rule, state, earlier, room).0
        });
    }
}

#[test]
fn test_reversible() {
    let random = &mut Random::new(8);
    for subject in subjects() {
        try_blocks(&subject, |block| compare::test_reversible(random, block, subject.rule));
    }
}

#[test]
fn replay_run() {
    let random = &mut Random::new(9);
    for subject in subjects() {
        let Subject { block, state, .. } = &subject;
        let room = subject.positions();
        let list = draw_run(random, &subject.exercise, state, 4096);
        let short = &list[..5];
        try_blocks(&subject, |block| compare::replay_run(random, block, state, short, room).0);
        try_states(&subject, |state| compare::replay_run(random, block, state, short, room).0);
        try_rooms(room, Refusal::Buffer, |room| compare::replay_run(random, block, state, short, room).0);
        if subject.name != "E" && subject.name != "wide" {
            continue; // Lists of every length take long.
        }
        let tried =
            try_lengths(4096, |length| compare::replay_run(random, block, state, &with_length(&list, length), room).0);
        assert_eq!(tried.accepted, (0..=4096).collect::<Vec<_>>(), "lists of {}", subject.name);
        assert_eq!(tried.refusals, [Refusal::Limit], "lists of {}", subject.name);
    }
}

#[test]
fn fill_table() {
    let random = &mut Random::new(10);
    for subject in subjects() {
        let block = &subject.block;
        for maps in subject.lendings() {
            let needed = subject.tables(&maps).len();
            try_blocks(&subject, |block| compare::fill_table(random, block, &maps, needed).0);
            try_rooms(needed, Refusal::TableShort, |room| compare::fill_table(random, block, &maps, room).0);
        }
        try_maps(&subject, |maps, tables| compare::fill_table(random, block, maps, tables.len()).0);
    }
}

#[test]
fn test_table() {
    let random = &mut Random::new(11);
    for subject in subjects() {
        let block = &subject.block;
        for maps in subject.lendings() {
            let tables = subject.tables(&maps);
            try_blocks(&subject, |block| compare::test_table(random, block, &maps, &tables));
            try_rooms(tables.len(), Refusal::TableShort, |room| {
                compare::test_table(random, block, &maps, &with_length(&tables, room))
            });
        }
        try_maps(&subject, |maps, tables| compare::test_table(random, block, maps, tables));
    }
}

#[test]
fn look_up_estimate() {
    let random = &mut Random::new(12);
    for subject in subjects() {
        let Subject { block, state, .. } = &subject;
        for maps in subject.lendings() {
            let tables = subject.tables(&maps);
            try_blocks(&subject, |block| compare::look_up_estimate(random, block, &maps, state, &tables));
            try_states(&subject, |state| compare::look_up_estimate(random, block, &maps, state, &tables));
            try_rooms(tables.len(), Refusal::TableShort, |room| {
                compare::look_up_estimate(random, block, &maps, state, &with_length(&tables, room))
            });
        }
        try_maps(&subject, |maps, tables| compare::look_up_estimate(random, block, maps, state, tables));
    }
}

#[test]
fn find_plan() {
    let random = &mut Random::new(13);
    let limits = Limits { steps: 64, cost: 100, visits: 100 };
    for subject in subjects() {
        let Subject { block, state, .. } = &subject;
        for maps in &subject.lendings() {
            let tables = subject.tables(maps);
            try_blocks(&subject, |block| compare::find_plan(random, block, maps, state, limits, &tables, 64).0);
            try_states(&subject, |state| compare::find_plan(random, block, maps, state, limits, &tables, 64).0);
            try_rooms(tables.len(), Refusal::TableShort, |room| {
                compare::find_plan(random, block, maps, state, limits, &with_length(&tables, room), 64).0
            });
            for steps in [0, 1, 2, 63, 64] {
                let limits = Limits { steps, ..limits };
                try_rooms(steps, Refusal::Buffer, |room| {
                    compare::find_plan(random, block, maps, state, limits, &tables, room).0
                });
            }
            let tried = try_lengths(64, |steps| {
                let limits = Limits { steps, ..limits };
                compare::find_plan(random, block, maps, state, limits, &tables, 64).0
            });
            assert_eq!(tried.accepted, (0..=64).collect::<Vec<_>>(), "step limits of {}", subject.name);
            assert_eq!(tried.refusals, [Refusal::Limit], "step limits of {}", subject.name);
        }
        try_maps(&subject, |maps, tables| compare::find_plan(random, block, maps, state, limits, tables, 64).0);
    }
}

#[test]
fn find_plans() {
    let random = &mut Random::new(14);
    let limits = Limits { steps: 64, cost: 100, visits: 20 };
    for subject in subjects() {
        let Subject { block, state, .. } = &subject;
        let query = [state.as_slice(), &limits.to_bytes()].concat();
        let (width, three, room) = (query.len(), query.repeat(3), 3 * ANSWER_LENGTH);
        for maps in &subject.lendings() {
            let tables = subject.tables(maps);
            let mut find = |block: &[u8], queries: &[u8], tables: &[u32], room: usize| {
                compare::find_plans(random, block, maps, queries, tables, room).0
            };
            try_blocks(&subject, |block| find(block, &three, &tables, room));
            try_rooms(tables.len(), Refusal::TableShort, |length| {
                find(block, &three, &with_length(&tables, length), room)
            });
            try_rooms(room, Refusal::Records, |room| find(block, &three, &tables, room));
            let tried = try_lengths(three.len(), |length| find(block, &with_length(&three, length), &tables, room));
            assert_eq!(tried.accepted, [width, 2 * width, 3 * width], "queries of {}", subject.name);
            assert_eq!(tried.refusals, [Refusal::Records], "queries of {}", subject.name);
        }
        try_maps(&subject, |maps, tables| compare::find_plans(random, block, maps, &three, tables, room).0);
    }
}

#[test]
fn numbers_of_queries() {
    let random = &mut Random::new(15);
    let limits = Limits { steps: 64, cost: 100, visits: 2 };
    // Other tables are tested for too long, once for each query.
    for subject in subjects().into_iter().filter(|subject| subject.exercise.abstract_states() <= 8) {
        let query = [subject.state.as_slice(), &limits.to_bytes()].concat();
        let table = subject.tables(&[]);
        let tried = try_lengths(QUERIES, |count| {
            compare::find_plans(random, &subject.block, &[], &query.repeat(count), &table, ANSWER_LENGTH * count).0
        });
        assert_eq!(tried.accepted, (1..=QUERIES).collect::<Vec<_>>(), "queries of {}", subject.name);
        assert_eq!(tried.refusals, [Refusal::Records], "queries of {}", subject.name);
    }
}
