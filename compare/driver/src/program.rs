//! The program as a process, its output held to the lines of the Rust side.
use crate::stream::{Stream, Streams};
use crate::wrong_program::ALL;
use model::random::Random;
use std::io::{Read, Write};
use std::path::{Path, PathBuf};
use std::process::{Child, ChildStdin, ChildStdout, Command, Stdio};
use std::sync::mpsc::channel;
use std::thread::{scope, sleep};
use std::time::{Duration, Instant};

/// A program that has not ended by then is stopped.
const MOST_TIME: Duration = Duration::from_secs(60);
/// Long enough for the program to read what was written.
const PAUSE: Duration = Duration::from_micros(50);

const NO_LINE: &str = "no line";

/// VAULT_PROGRAM, or the program that compare/program.sh leaves in the repository.
fn path() -> PathBuf {
    let built = concat!(env!("CARGO_MANIFEST_DIR"), "/../../target/bin/token_vault_main");
    std::env::var_os("VAULT_PROGRAM").map_or(built.into(), PathBuf::from)
}

/// What a program printed, and how it ended where that was wrong.
pub struct Outcome {
    pub output: Vec<u8>,
    pub bad_end: Option<String>,
}

/// The first line, counted from 1, that is not as expected.
struct Difference {
    line: usize,
    expected: String,
    found: String,
}

/// The program on the streams of a seed, and then wrong programs on the same; false where something is not as it should be.
pub fn run(seed: u64, partial: bool) -> bool {
    let (path, start) = (path(), Instant::now());
    let streams = Streams::of(seed);
    let one_sided = streams.table.one_sided();
    if !one_sided.is_empty() && !partial {
        println!("not both done and refused: {}", one_sided.join(", "));
        return false;
    }
    if let Some((stream, d)) = first_difference(&streams, |stream, input| outcome(&path, &streams, stream, input)) {
        println!("DIFFERENCE in the output of {}: seed {seed}, {stream}, line {}", path.display(), d.line);
        println!("expected {}\nfound    {}", d.expected, d.found);
        println!("again with: driver --program --seed {seed}");
        return false;
    }
    print_summary(&streams, start);
    self_test(&path, &streams)
}

fn print_summary(streams: &Streams, start: Instant) {
    let answers = |numbers| streams.table.total(numbers);
    println!(
        "program, seed {}: {} streams, {} whole records, {} lines (0: {}, 1 to 29: {}, 30: {}, 32: {}), 0 differences, {:.1} s",
        streams.seed,
        streams.list.len(),
        streams.records(),
        streams.lines(),
        answers(0..=0),
        answers(1..=29),
        answers(30..=30),
        answers(32..=32),
        start.elapsed().as_secs_f64()
    );
}

/// Each wrong program has to be found, by the streams on which the right one makes no difference.
fn self_test(path: &Path, streams: &Streams) -> bool {
    let mut missed = 0;
    for wrong in ALL {
        let difference = first_difference(streams, |stream, input| wrong.outcome(input, |input| outcome(path, streams, stream, input)));
        match difference {
            Some((stream, d)) => {
                println!("{wrong:?}: found in {stream}, line {}", d.line);
                println!("    expected {}, found {}", d.expected, d.found);
            }
            None => {
                println!("{wrong:?}: NOT FOUND");
                missed += 1;
            }
        }
    }
    println!("{} wrong programs found, {missed} missed", ALL.len() - missed);
    missed == 0
}

/// The first stream on which a program is not as expected.
fn first_difference(streams: &Streams, program: impl Fn(&Stream, &[u8]) -> Outcome) -> Option<(&Stream, Difference)> {
    streams.list.iter().find_map(|stream| difference(stream, &program(stream, &stream.input)).map(|d| (stream, d)))
}

/// Runs the program on an input, which arrives in pieces, and takes a little more output than is expected, so that a line too many is
/// seen and yet an end comes.
fn outcome(path: &Path, streams: &Streams, stream: &Stream, input: &[u8]) -> Outcome {
    let most = stream.expected.len() as u64 + 1_000;
    let mut child = match Command::new(path).stdin(Stdio::piped()).stdout(Stdio::piped()).spawn() {
        Ok(child) => child,
        Err(error) => return Outcome { output: Vec::new(), bad_end: Some(error.to_string()) },
    };
    let stdin = child.stdin.take().expect("a pipe to standard input");
    let stdout = child.stdout.take().expect("a pipe from standard output");
    scope(|scope| {
        scope.spawn(|| write_in_pieces(stdin, input, streams.pieces(stream)));
        let (sender, receiver) = channel();
        scope.spawn(move || sender.send(read_all(stdout, most)));
        let in_time = receiver.recv_timeout(MOST_TIME).ok();
        let is_late = in_time.is_none();
        if in_time.as_ref().is_none_or(|output| output.len() as u64 == most) {
            child.kill().expect("a program to stop");
        }
        let output = in_time.unwrap_or_else(|| receiver.recv().expect("the output so far"));
        Outcome { output, bad_end: bad_end(&mut child, is_late) }
    })
}

fn read_all(stdout: ChildStdout, most: u64) -> Vec<u8> {
    let mut output = Vec::new();
    stdout.take(most).read_to_end(&mut output).expect("output to read");
    output
}

fn bad_end(child: &mut Child, is_late: bool) -> Option<String> {
    let status = child.wait().expect("a program that ends");
    if is_late {
        return Some(format!("no end after {} s", MOST_TIME.as_secs()));
    }
    (!status.success()).then(|| format!("an end with {status}"))
}

/// A write fails where the program has ended; its lines tell whether that was too soon.
fn write_in_pieces(mut stdin: ChildStdin, mut input: &[u8], mut r: Random) {
    while !input.is_empty() {
        let (piece, rest) = input.split_at(piece_length(&mut r).min(input.len()));
        if stdin.write_all(piece).is_err() {
            return;
        }
        if r.percent(20) {
            sleep(PAUSE);
        }
        input = rest;
    }
}

/// A few bytes, about a record, some records, or more than a pipe takes at once.
fn piece_length(r: &mut Random) -> usize {
    match r.weighted(&[30, 30, 38, 2]) {
        0 => 1 + r.index(16),
        1 => 440 + r.index(17),
        2 => 1 + r.index(4_096),
        _ => 1 + r.index(100_000),
    }
}

/// The first line that differs; a bad end counts as a line after the last.
fn difference(stream: &Stream, found: &Outcome) -> Option<Difference> {
    let mut expected = stream.expected.as_bytes().split_inclusive(|b| *b == b'\n');
    let mut printed = found.output.split_inclusive(|b| *b == b'\n');
    let mut line = 0;
    loop {
        line += 1;
        let (wanted, has) = (expected.next(), printed.next());
        let is_end = wanted.is_none() && has.is_none();
        if is_end && found.bad_end.is_none() {
            return None;
        }
        if is_end || wanted != has {
            let end = found.bad_end.as_deref().unwrap_or(NO_LINE);
            return Some(Difference { line, expected: text(wanted, NO_LINE), found: text(has, end) });
        }
    }
}

fn text(line: Option<&[u8]>, missing: &str) -> String {
    line.map_or(missing.to_string(), |bytes| format!("{:?}", String::from_utf8_lossy(bytes)))
}
