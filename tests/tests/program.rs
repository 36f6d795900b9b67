//! The program `par` as a process: what it prints, byte for byte, and that it always ends well.

use outside::draw::session::draw_input;
use outside::model::session;
use outside::model::text::split_lines;
use outside::program::{run, run_in_pieces, writes};
use outside::random::Random;
use outside::repeat::{cases, repeat, Kind, GOALS};
use outside::samples::{samples, E_TEXT};

const QUERY: &[u8] = b"010200080000006400000064\n";
const ANSWER: &[u8] = b"000003000000050000000A020005\n";

/// Asserts that the program prints what the model does, and gives that back.
fn assert_printed(input: &[u8]) -> Vec<u8> {
    let expected = session::print(input);
    let ended = run(input);
    assert_eq!(text(&ended.printed), text(&expected), "for the input\n{}", text(input));
    assert!(ended.status.success(), "{:?} for the input\n{}", ended.status, text(input));
    expected
}

fn text(bytes: &[u8]) -> String {
    bytes.escape_ascii().to_string().replace("\\n", "\n")
}

/// What a session ended with; an exercise that is refused prints its number alone.
struct Printed(Vec<u8>);

impl Kind for Printed {
    fn kind(&self) -> &'static str {
        match split_lines(&self.0).last().copied() {
            None => "nothing",
            Some([b'0', b'0', ..]) => "found",
            Some([b'0', b'1', ..]) => "no plan",
            Some([b'0', b'2', ..]) => "spent",
            Some(b"FF01\n") => "1",
            Some(b"FF02\n") => "2",
            Some(b"FF03\n") => "3",
            Some(b"FF05\n") => "5",
            Some(b"FF06\n") => "6",
            Some(b"FF07\n") => "7",
            Some(b"FF08\n") => "8",
            Some(b"FF0A\n") => "10",
            Some(_) => "something else",
        }
    }

    /// The byte behind the status of a plan.
    fn goal(&self) -> Option<u8> {
        match split_lines(&self.0).last() {
            Some([b'0', b'0', b'0', digit, ..]) => Some(digit - b'0'),
            _ => None,
        }
    }
}

#[test]
fn random_sessions() {
    let runs = cases().min(4000);
    let possible = format!("nothing, found, {GOALS}, no plan, spent, 1, 2, 3, 5, 6, 7, 8, 10");
    repeat("random_sessions", runs, &possible, |random| Printed(assert_printed(&draw_input(random))));
}

#[test]
fn samples_have_their_answers() {
    for sample in samples() {
        let ended = run(&sample.input);
        assert_eq!(text(&ended.printed), text(&sample.answers), "sample {}", sample.name);
        assert!(ended.status.success(), "sample {}", sample.name);
        assert_eq!(text(&session::print(&sample.input)), text(&sample.answers), "sample {} by the model", sample.name);
    }
}

#[test]
fn ends_of_the_input() {
    assert_eq!(assert_printed(b""), b"FF02\n");
    assert_eq!(assert_printed(b"\n"), b"FF02\n");
    assert_eq!(assert_printed(b"0"), b"FF01\n");
    assert_eq!(assert_printed(E_TEXT), b"");
    let input = [E_TEXT, QUERY].concat();
    for length in 0..=input.len() {
        assert_printed(&input[..length]);
    }
}

#[test]
fn refused_queries_among_good_ones() {
    let refused: [(&[u8], &[u8]); 9] = [
        (b"01020008000000640000006a\n", b"FF01\n"),
        (b"010200080000006400000064\r\n", b"FF01\n"),
        (b"0102000800000064000000640\n", b"FF01\n"),
        (b"01020008000000640000006400\n", b"FF02\n"),
        (b"0102000800000064000000\n", b"FF02\n"),
        (b"\n", b"FF02\n"),
        (b"010203080000006400000064\n", b"FF08\n"),
        (b"010203410000006400000064\n", b"FF08\n"),
        (b"010200410000006400000064\n", b"FF0A\n"),
    ];
    for (query, answer) in refused {
        let input = [E_TEXT, QUERY, query, QUERY].concat();
        assert_eq!(assert_printed(&input), [ANSWER, answer, ANSWER].concat());
    }
}

#[test]
fn longest_input() {
    for length in [32_766, 32_767, 32_768, 32_769, 32_770, 40_000, 65_536, 200_000] {
        let mut queries = [E_TEXT, QUERY].concat();
        queries.resize(length, b'\n');
        let printed = assert_printed(&queries);
        assert_eq!(printed == b"FF02\n", length > 32_768);
        let mut digits = [E_TEXT, QUERY].concat();
        digits.resize(length, b'0');
        assert_printed(&digits);
        assert_printed(&vec![b'\n'; length]);
        assert_printed(&vec![0; length]);
    }
}

/// However the input arrives, the same is printed.
#[test]
fn input_in_pieces() {
    let input = [E_TEXT, QUERY, QUERY, b"\n", QUERY].concat();
    let expected = session::print(&input);
    let random = &mut Random::new(1);
    for _ in 0..100 {
        let (first, second) = (random.below(input.len()), random.below(input.len()));
        let (first, second) = (first.min(second), first.max(second));
        let ended = run_in_pieces(&[&input[..first], &input[first..second], &input[second..]]);
        assert_eq!(text(&ended.printed), text(&expected));
        assert!(ended.status.success());
    }
    let bytes: Vec<&[u8]> = input.chunks(1).collect();
    let ended = run_in_pieces(&bytes);
    assert_eq!(text(&ended.printed), text(&expected));
    assert!(ended.status.success());
}

/// Each line is written by itself, and before the next query is searched: a search of 25 million visits stands between
/// the first line and the second.
#[test]
fn lines_one_by_one() {
    let exercise = b"0808010701\n0000000000000000\n\
        021011FFFFFFFFFFFF1110FFFFFFFFFFFF\n03101112FFFFFFFFFF121110FFFFFFFFFF\n\
        0410111213FFFFFFFF13121110FFFFFFFF\n051011121314FFFFFF1413121110FFFFFF\n\
        06101112131415FFFF151413121110FFFF\n0710111213141516FF16151413121110FF\n\
        0810111213141516171716151413121110\n0001020304050607\n";
    let quick = b"0001020304050607140000003C000186A0\n";
    let slow = b"000002030405060740FFFFFFFF017D7840\n";
    let input = [exercise, quick.as_slice(), slow, quick].concat();
    let written = writes(&input, 3);
    let lines: Vec<String> = written.iter().map(|line| text(&line.bytes)).collect();
    assert_eq!(lines, ["0000000000000000000001\n", "020000000000017D7840\n", "0000000000000000000001\n"]);
    let between = written[1].at - written[0].at;
    assert!(between.as_millis() >= 100, "the second line came {between:?} after the first");
}
