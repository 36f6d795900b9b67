//! The program `par` as a process.

use crate::samples::repository;
use std::env;
use std::io::{ErrorKind, Write};
use std::os::fd::OwnedFd;
use std::os::unix::net::UnixDatagram;
use std::path::PathBuf;
use std::process::{Child, ChildStdin, Command, ExitStatus, Stdio};
use std::time::{Duration, Instant};

/// The program: `MIKJUQAN_PAR`, or `target/bin/par` of the repository.
pub fn path() -> PathBuf {
    let path = env::var_os("MIKJUQAN_PAR").map_or_else(|| repository().join("target/bin/par"), PathBuf::from);
    assert!(path.exists(), "{}: there is no such program; make it with `tools/build`", path.display());
    path
}

/// What the program printed, and how it ended.
#[derive(Debug, PartialEq, Eq)]
pub struct Run {
    pub printed: Vec<u8>,
    pub status: ExitStatus,
}

/// Runs the program on an input.
pub fn run(input: &[u8]) -> Run {
    run_in_pieces(&[input])
}

/// Runs the program on an input that it is handed in pieces.
pub fn run_in_pieces(pieces: &[&[u8]]) -> Run {
    end(start(Command::new(path())), pieces)
}

/// What one write of the program handed over, and when it arrived.
pub struct Written {
    pub bytes: Vec<u8>,
    pub at: Instant,
}

/// Runs the program on an input, with a socket for its output that keeps its writes apart, and gives the first so many
/// of them.
pub fn writes(input: &[u8], count: usize) -> Vec<Written> {
    let (ours, theirs) = UnixDatagram::pair().expect("there are sockets");
    ours.set_read_timeout(Some(Duration::from_secs(60))).expect("a socket has a time limit");
    let mut command = Command::new(path());
    command.stdin(Stdio::piped()).stdout(OwnedFd::from(theirs)).stderr(Stdio::null());
    let mut child = command.spawn().expect("the program can be run");
    write(&mut child.stdin.take().expect("its input is a pipe"), input);
    let mut buffer = [0; 512];
    let mut next = || {
        let length = ours.recv(&mut buffer).expect("the program writes as often as it should");
        Written { bytes: buffer[..length].to_vec(), at: Instant::now() }
    };
    let written = (0..count).map(|_| next()).collect();
    assert!(child.wait().expect("the program ends").success());
    written
}

/// Runs the program with a stack of so many KiB, and with no environment, which would stand on the stack too.
pub fn run_with_stack(input: &[u8], kib: usize) -> Run {
    let mut shell = Command::new("sh");
    shell.env_clear().args(["-c", "ulimit -s \"$1\" && exec \"$0\""]).arg(path()).arg(kib.to_string());
    end(start(shell), &[input])
}

fn start(mut command: Command) -> Child {
    command.stdin(Stdio::piped()).stdout(Stdio::piped()).stderr(Stdio::null()).spawn().expect("the program can be run")
}

fn end(mut child: Child, pieces: &[&[u8]]) -> Run {
    let mut input = child.stdin.take().expect("its input is a pipe");
    for piece in pieces {
        write(&mut input, piece);
    }
    drop(input);
    let output = child.wait_with_output().expect("its output is a pipe");
    Run { printed: output.stdout, status: output.status }
}

/// Hands over a piece. A program that has read enough may have ended before it has read all.
fn write(input: &mut ChildStdin, piece: &[u8]) {
    match input.write_all(piece) {
        Err(error) if error.kind() != ErrorKind::BrokenPipe => panic!("the input cannot be written: {error}"),
        _ => {}
    }
}
