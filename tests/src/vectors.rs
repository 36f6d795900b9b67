//! The worked exercises of `tests/vectors`: calls, what they are handed, and what must come of them by another
//! implementation of the specification, `tests/reference.py`. `tests/worked.py` says how a line is written.

use crate::lent::Lent;
use crate::model::answers::{Replay, Search};
use crate::program;
use crate::random::Random;
use crate::samples::repository;
use mikjuqan::{Exercise, Limits, Refusal, ANSWER_LENGTH};
use std::fs;

/// The lines of a file, without its comments.
pub fn lines(name: &str) -> Vec<String> {
    let path = repository().join("tests/vectors").join(name).with_extension("txt");
    let text = fs::read_to_string(&path).unwrap_or_else(|error| panic!("{}: {error}", path.display()));
    text.lines().filter(|line| !line.starts_with('#')).map(String::from).collect()
}

/// Runs the call of a line, and asserts that its answer and its buffer are those of the line.
pub fn check(line: &str) {
    let (call, expected) = line.split_once(" = ").expect("a line has a call and an answer");
    let mut words = call.split(' ');
    let name = words.next().expect("a call has a name");
    let result = run(name, &Arguments(words.collect()), expected);
    assert_eq!(result, expected, "{line}");
}

/// What follows the name of a call.
struct Arguments<'a>(Vec<&'a str>);

impl Arguments<'_> {
    fn bytes(&self, place: usize) -> Vec<u8> {
        unpack(self.0[place], '+', |pair| pair.as_bytes().chunks(2).map(from_pair).collect())
    }

    fn entries(&self, place: usize) -> Vec<u32> {
        unpack(self.0[place], ',', |number| vec![number.parse().expect("an entry is a number")])
    }

    fn number<T: TryFrom<u64>>(&self, place: usize) -> T {
        let number: u64 = self.0[place].parse().expect("this is a number");
        T::try_from(number).ok().expect("the number fits")
    }
}

fn from_pair(pair: &[u8]) -> u8 {
    let digits = std::str::from_utf8(pair).expect("digits are characters");
    u8::from_str_radix(digits, 16).expect("a byte is two digits")
}

/// Parts, each perhaps with a count behind '*'.
fn unpack<T: Copy>(packed: &str, between: char, part: impl Fn(&str) -> Vec<T>) -> Vec<T> {
    let parts = packed.split(between).filter(|text| *text != "-");
    let repeated = |text: &str| match text.split_once('*') {
        Some((once, count)) => part(once).repeat(count.parse().expect("a count is a number")),
        None => part(text),
    };
    parts.flat_map(repeated).collect()
}

/// The answer of a call in the words of a line, with the buffer that the line expects; other contents are an error
/// here.
fn run(name: &str, a: &Arguments, expected: &str) -> String {
    // What is handed over first is the block, but in two cases. Five calls take further maps behind it.
    let block = a.bytes(0);
    let takes_maps = ["fill_table", "test_table", "look_up_estimate", "find_plan", "find_plans"].contains(&name);
    let maps = if takes_maps { a.bytes(1) } else { Vec::new() };
    let exercise = Exercise::new(&block).with_maps(&maps);
    let written = |place: usize, call: &dyn Fn(&mut [u8]) -> String| {
        let after = Arguments(vec![last_word(expected)]);
        let mut out = Lent::new("out", &mut Random::new(1), &a.bytes(place));
        let answer = call(&mut out);
        out.assert_holds(&after.bytes(0));
        format!("{answer} {}", last_word(expected))
    };
    match name {
        "read_exercise" => written(1, &|out| words(mikjuqan::read_exercise(&a.bytes(0), out))),
        "par" => session(a, expected),
        "check_block" => words(exercise.check_block()),
        "test_goals" => words(exercise.test_goals(&a.bytes(1))),
        "test_reversible" => words(exercise.test_reversible(a.number(1))),
        "test_table" => words(exercise.test_table(&a.entries(2))),
        "look_up_estimate" => words(exercise.look_up_estimate(&a.bytes(2), &a.entries(3))),
        "relabel_block" => written(1, &|out| words(exercise.relabel_block(out))),
        "apply_rule" => written(3, &|out| words(exercise.apply_rule(a.number(1), &a.bytes(2), out))),
        "first_predecessor" => written(3, &|out| words(exercise.first_predecessor(a.number(1), &a.bytes(2), out))),
        "next_predecessor" => {
            written(4, &|out| words(exercise.next_predecessor(a.number(1), &a.bytes(2), &a.bytes(3), out)))
        }
        "replay_run" => written(3, &|out| words(replay(exercise, &a.bytes(1), &a.bytes(2), out))),
        "find_plan" => written(7, &|plan| {
            let limits = Limits { steps: a.number(3), cost: a.number(4), visits: a.number(5) };
            words(exercise.find_plan(&a.bytes(2), limits, &a.entries(6), plan).map(Search::from))
        }),
        "find_plans" => written(4, &|answers| {
            let told = exercise.find_plans(&a.bytes(2), &a.entries(3), answers);
            words(told.map(|told| told.len() * ANSWER_LENGTH))
        }),
        "fill_table" => fill(exercise, a, expected),
        _ => panic!("there is no call {name}"),
    }
}

/// How a replay ends. A line does not tell the steps of one that is done: they must be the whole list.
fn replay(exercise: Exercise, start: &[u8], list: &[u8], out: &mut [u8]) -> Result<Replay, Refusal> {
    let end = exercise.replay_run(start, list, out).map(Replay::from);
    if let Ok(Replay::Done { steps, .. }) = end {
        assert_eq!(steps, list.len(), "a replay that is done");
    }
    end
}

fn fill(exercise: Exercise, a: &Arguments, expected: &str) -> String {
    let mut table = Lent::new("table", &mut Random::new(1), &a.entries(2));
    let answer = words(exercise.fill_table(&mut table));
    table.assert_holds(&Arguments(vec![last_word(expected)]).entries(0));
    format!("{answer} {}", last_word(expected))
}

/// What the program prints for an input.
fn session(a: &Arguments, expected: &str) -> String {
    let run = program::run(&a.bytes(0));
    assert!(run.status.success(), "{}", run.status);
    assert_eq!(run.printed, Arguments(vec![expected]).bytes(0));
    expected.to_string()
}

fn last_word(text: &str) -> &str {
    text.rsplit(' ').next().expect("there is a word")
}

/// An answer in the words of a line.
trait Words {
    fn words(&self) -> String;
}

fn words<T: Words>(answer: Result<T, Refusal>) -> String {
    answer.map_or_else(|refusal| format!("refused {}", refusal.number()), |told| told.words())
}

impl Words for () {
    fn words(&self) -> String {
        "accepted".to_string()
    }
}

impl Words for bool {
    fn words(&self) -> String {
        if *self { "yes" } else { "no" }.to_string()
    }
}

impl Words for usize {
    fn words(&self) -> String {
        format!("done {self}")
    }
}

impl Words for Option<u32> {
    fn words(&self) -> String {
        format!("entry {}", self.unwrap_or(mikjuqan::NO_PATH))
    }
}

/// What stands in a line for a goal where none is met.
const NO_GOAL: u8 = 0xFF;

impl Words for Option<u8> {
    fn words(&self) -> String {
        format!("goal {}", self.unwrap_or(NO_GOAL))
    }
}

impl Words for Replay {
    fn words(&self) -> String {
        match self {
            Replay::Done { cost, goal, .. } => format!("done {cost} {}", goal.unwrap_or(NO_GOAL)),
            Replay::Stuck { steps, cost } => format!("stuck {steps} {cost}"),
        }
    }
}

impl Words for Search {
    fn words(&self) -> String {
        match self {
            Search::Found { steps, cost, visits, goal } => format!("found {steps} {cost} {visits} {goal}"),
            Search::NoPlan { visits } => format!("no-plan 0 0 {visits}"),
            Search::Spent { visits } => format!("spent 0 0 {visits}"),
        }
    }
}
