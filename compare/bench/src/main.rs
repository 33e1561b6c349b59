//! Calls a second of the vault beside the contract's Rust: the sides in turn, on the same calls, in one run. And how long the
//! vault takes to find the changed cells of a call, to make trial records and to give toll bounds.
mod alone;
mod cases;
mod cells;
mod forms;
mod load;
mod sides;

use cases::Case;
use sides::{Answer, Side};
use std::process::exit;
use std::time::{Duration, Instant};

const USAGE: &str = "bench [--quick | --cells] [--seed S]
bench --load START N
  --quick         compare the sides on every case and on few trial records, and both ways to find changed cells, and time nothing
  --cells         time both ways to find the changed cells of a call
  --seed S        of the calls and images of the changed cells (1)
  --load START N  compare and time the sides on N trial records (1 to 4294967295) from a starting number (0 to 18446744073709551615)";
const NAMES: [&str; 3] = ["the vault", "the Rust on a host kept loaded", "the Rust on a host loaded for each call"];
/// A round of one side, and the rounds of a case: so long, and so many at least.
const ROUND: Duration = Duration::from_millis(1);
const CASE: Duration = Duration::from_millis(600);
const ROUNDS: usize = 10;

fn main() {
    let words: Vec<String> = std::env::args().skip(1).collect();
    let words: Vec<&str> = words.iter().map(String::as_str).collect();
    let (mode, seed) = match words[..] {
        [] => ("", 1),
        [mode @ ("--quick" | "--cells")] => (mode, 1),
        [mode @ ("--quick" | "--cells"), "--seed", seed] => (mode, number(seed)),
        ["--load", start, records] => return load::print(number(start), record_count(records)),
        _ => usage(),
    };
    let (sparse, full) = (cases::sparse_image(), cases::full_image());
    let images = [("sparse image", &sparse[..]), ("full image", &full[..])];
    match mode {
        "--quick" => {
            let cases = run(images, false);
            println!("bench: {cases} cases, the vault and the Rust agree in answers, events, images and journals");
            cells::compare([&sparse, &full], seed);
            load::compare();
        }
        "--cells" => cells::print(images, seed),
        _ => {
            head();
            run(images, true);
            alone::print(images);
            println!("the best of all rounds of {} ms, the sides in turn, for {} ms a case", ROUND.as_millis(), CASE.as_millis());
        }
    }
}

fn usage() -> ! {
    eprintln!("{USAGE}");
    exit(2)
}

fn number(word: &str) -> u64 {
    word.parse().unwrap_or_else(|_| usage())
}

/// As many as there are numbers of records.
fn record_count(word: &str) -> u64 {
    match number(word) {
        0 | 0x1_0000_0000.. => usage(),
        count => count,
    }
}

/// Every case on both images: the sides have to agree, and are then timed. How many cases.
fn run(images: [(&str, &[u8]); 2], timed: bool) -> usize {
    let mut cases = 0;
    for (kind, image) in images {
        if timed {
            println!("{kind}");
        }
        for case in cases::all() {
            cases += 1;
            let mut sides = sides::all(image, case.journal.as_deref());
            let answers = agree(&case, &mut sides);
            if timed {
                line(case.name, time(&case, &mut sides, &answers));
            }
        }
    }
    cases
}

/// Makes the calls of a case three times at each side, which have to agree after every call; the answers of the last time.
fn agree(case: &Case, sides: &mut [Box<dyn Side>; 3]) -> Vec<Answer> {
    let thrice = (0..3).flat_map(|_| &case.calls);
    let mut answers = Vec::new();
    for (i, call) in case.before.iter().chain(thrice).enumerate() {
        let found: Vec<Answer> = sides.iter_mut().map(|side| side.call(call)).collect();
        for (name, side) in [1, 2].map(|n| (NAMES[n], n)) {
            assert_eq!(found[0], found[side], "{}: call {i}, answers of the vault and of {name}", case.name);
            assert!(sides[0].held() == sides[side].held(), "{}: call {i}, bytes of the vault and of {name}", case.name);
        }
        answers.push(found[0]);
    }
    answers.split_off(answers.len() - case.calls.len())
}

/// Calls a second of each side: the best of rounds in turn. Every answer is compared with the one that the sides agreed on.
fn time(case: &Case, sides: &mut [Box<dyn Side>; 3], answers: &[Answer]) -> [f64; 3] {
    let mut best = [0f64; 3];
    let start = Instant::now();
    let mut rounds = 0;
    while rounds < ROUNDS || start.elapsed() < CASE {
        for (side, best) in sides.iter_mut().zip(&mut best) {
            *best = best.max(round(case, side.as_mut(), answers));
        }
        rounds += 1;
    }
    best
}

fn round(case: &Case, side: &mut dyn Side, answers: &[Answer]) -> f64 {
    // So many times between two looks at the clock: a look takes as long as a tenth of the shortest call.
    let mut times = 1;
    let start = Instant::now();
    let mut calls = 0;
    loop {
        for _ in 0..times {
            for (call, answer) in case.calls.iter().zip(answers) {
                assert!(side.call(call) == *answer, "{}: another answer than before", case.name);
            }
        }
        calls += times * case.calls.len();
        let passed = start.elapsed();
        if passed >= ROUND {
            return calls as f64 / passed.as_secs_f64();
        }
        times = (2 * times).min(32);
    }
}

fn head() {
    println!("{:54}{:>8}{:>9}{:>11}{:>8}{:>11}{:>8}", "", "vault", "vault", "Rust, host", "vault /", "Rust, host", "vault /");
    println!("{:54}{:>8}{:>9}{:>11}{:>8}{:>11}{:>8}", "", "us/call", "calls/s", "kept", "Rust", "loaded", "Rust");
}

fn line(name: &str, [vault, kept, loaded]: [f64; 3]) {
    let (us, to_kept, to_loaded) = (1e6 / vault, vault / kept, vault / loaded);
    println!("  {name:52}{us:8.2}{vault:9.0}{kept:11.0}{to_kept:8.2}{loaded:11.0}{to_loaded:8.1}");
}
