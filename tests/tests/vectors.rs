//! The worked exercises of `tests/vectors`, each a call with what must come of it.

use outside::vectors::{check, lines};

/// Checks all lines of a file, of which there are at least so many.
fn check_all(name: &str, least: usize) {
    let lines = lines(name);
    assert!(lines.len() >= least, "{name} has only {} lines", lines.len());
    for line in &lines {
        check(line);
    }
}

#[test]
fn blocks() {
    check_all("blocks", 1600);
}

#[test]
fn rules() {
    check_all("rules", 30);
}

#[test]
fn predecessors() {
    check_all("predecessors", 110);
}

#[test]
fn replays() {
    check_all("replays", 45);
}

#[test]
fn tables() {
    check_all("tables", 1000);
}

#[test]
fn searches() {
    check_all("searches", 230);
}

#[test]
fn texts() {
    check_all("texts", 2000);
}

#[test]
fn sessions() {
    check_all("sessions", 200);
}

#[test]
fn goals() {
    check_all("goals", 340);
}

#[test]
fn maps() {
    check_all("maps", 2300);
}

#[test]
fn batches() {
    check_all("batches", 700);
}

/// A line with another answer, or another buffer, is noticed.
#[test]
fn faults() {
    let line = lines("rules").into_iter().find(|line| line.contains("= yes")).expect("some rule applies");
    let other_answer = line.replace("= yes", "= no");
    let other_buffer = format!("{}00", &line[..line.len() - 2]);
    for fault in [other_answer, other_buffer] {
        assert!(std::panic::catch_unwind(|| check(&fault)).is_err(), "{fault}");
    }
}
