//! Runs the vault beside the Rust contract and the model, from one seed, and stops at the first difference.
mod bad_images;
mod bad_journals;
mod cases;
mod change;
mod compare;
mod directed;
mod ffi;
mod fields;
mod generate;
mod mistake;
mod previews;
mod program;
mod report;
mod scenario;
mod self_test;
mod situation;
mod start_image;
mod stream;
mod sweep;
mod table;
mod tolls;
mod tolls_cases;
mod tolls_mistake;
mod tolls_random;
mod trial;
mod trial_mistake;
mod vectors;
mod wrong_program;

use scenario::{Failure, Run};
use std::fmt::Display;
use std::panic::{catch_unwind, resume_unwind, AssertUnwindSafe};
use std::path::PathBuf;
use std::process::exit;
use std::sync::atomic::{AtomicBool, AtomicU64, Ordering};
use std::time::Instant;

#[derive(Default)]
struct Options {
    calls: u64,
    seed: u64,
    jobs: u64,
    scenario: Option<u64>,
    vectors: Option<PathBuf>,
    /// Starting number, first number and how many.
    trial_records: Option<[u64; 3]>,
    program: bool,
    self_test: bool,
    partial: bool,
}

const USAGE: &str = "driver [--calls N] [--seed S] [--jobs J] [--scenario N] [--vectors FOLDER] [--program] [--self-test] [--partial]
driver --trial-records START FIRST COUNT
  --calls N     at least so many calls (1000000)
  --seed S      the run's seed (1)
  --jobs J      so many threads (1)
  --scenario N  one scenario of the run alone
  --vectors F   write the vectors to the folder F: the calls with answers made by the Rust side alone, and lines of toll bounds
  --program     compare the lines of the program (VAULT_PROGRAM, or target/bin/token_vault_main) on streams of records;
                then wrong programs on the same, each of which has to be found
  --self-test   plant mistakes in the Rust side's outcome, and in the model's trial records and toll bounds; each has to be found
  --partial     a pair of operation and answer, of a call or a preview, that was not reached is no failure
  --trial-records START FIRST COUNT
                write so many trial records, made by the model, to standard output";

fn usage() -> ! {
    eprintln!("{USAGE}");
    exit(2)
}

fn number(word: String) -> u64 {
    word.parse().unwrap_or_else(|_| usage())
}

fn options() -> Options {
    let mut o = Options { calls: 1_000_000, seed: 1, jobs: 1, ..Options::default() };
    let mut words = std::env::args().skip(1);
    while let Some(word) = words.next() {
        let mut next = || words.next().unwrap_or_else(|| usage());
        match word.as_str() {
            "--calls" => o.calls = number(next()),
            "--seed" => o.seed = number(next()),
            "--jobs" => o.jobs = number(next()).max(1),
            "--scenario" => o.scenario = Some(number(next())),
            "--vectors" => o.vectors = Some(next().into()),
            "--trial-records" => o.trial_records = Some([(); 3].map(|()| number(next()))),
            "--program" => o.program = true,
            "--self-test" => o.self_test = true,
            "--partial" => o.partial = true,
            _ => usage(),
        }
    }
    o
}

fn main() {
    let o = options();
    if o.program {
        exit(if program::run(o.seed, o.partial) { 0 } else { 1 });
    }
    if o.self_test {
        exit(if self_test::run(o.seed, o.calls) { 0 } else { 1 });
    }
    if let Some(request) = o.trial_records {
        trial::write(request).unwrap_or_else(|error| not_written("driver", error));
        return;
    }
    if let Some(folder) = &o.vectors {
        vectors::write(folder, o.seed).unwrap_or_else(|error| not_written(folder.display(), error));
        return;
    }
    if let Some(n) = o.scenario {
        let mut run = Run::new(o.seed, None);
        run.scenario(n).unwrap_or_else(|failure| failed(o.seed, &failure));
        println!("scenario {n}: {} calls and {} previews, no difference", run.calls, run.previews.all());
        return;
    }
    cases::run();
    trial::run(o.seed).unwrap_or_else(|difference| differs(o.seed, &difference));
    tolls::run(o.seed).unwrap_or_else(|difference| differs(o.seed, &difference));
    let start = Instant::now();
    let made = sweep::run(o.seed).unwrap_or_else(|difference| differs(o.seed, &difference));
    let seconds = start.elapsed().as_secs_f64();
    println!("{} calls and {} previews on changed bytes and lengths, {seconds:.1} s", made.calls, made.previews);
    scenarios(&o);
}

fn not_written(place: impl Display, error: std::io::Error) -> ! {
    eprintln!("{place}: {error}");
    exit(1)
}

fn differs(seed: u64, difference: &str) -> ! {
    println!("DIFFERENCE, seed {seed}: {difference}");
    exit(1)
}

fn failed(seed: u64, failure: &Failure) -> ! {
    report::difference(seed, failure);
    exit(1)
}

/// The scenarios of the run, and whether they reached all that they have to.
fn scenarios(o: &Options) {
    let start = Instant::now();
    let (run, scenarios, failure) = all_scenarios(o, start);
    if let Some(failure) = failure {
        failed(o.seed, &failure);
    }
    let seconds = start.elapsed().as_secs_f64();
    run.table.print();
    println!("previews:");
    run.previews.print();
    run.situations.print();
    println!(
        "seed {}: {} calls and {} previews in {scenarios} scenarios ({} lists, {} kept calls at a second vault), {:.0} calls a second, \
         0 differences",
        o.seed,
        run.calls,
        run.previews.all(),
        run.lists,
        run.kept,
        run.calls as f64 / seconds
    );
    let unexpected = [run.table.unexpected(), run.previews.unexpected()].concat();
    if !unexpected.is_empty() {
        println!("not in docs/FORMATS.md: {}", unexpected.join(", "));
        exit(1);
    }
    let missing = [run.table.missing(), run.previews.missing(), run.situations.missing()].concat();
    if !missing.is_empty() && !o.partial {
        println!("not reached: {}", missing.join(", "));
        exit(1);
    }
}

/// Scenarios until there are calls enough, or a difference: the one of the lowest scenario that was found.
fn all_scenarios(o: &Options, start: Instant) -> (Run, u64, Option<Box<Failure>>) {
    const STEP: u64 = 250_000;
    let (next, calls, found) = (AtomicU64::new(0), AtomicU64::new(0), AtomicBool::new(false));
    let worker = || {
        let mut run = Run::new(o.seed, None);
        while calls.load(Ordering::SeqCst) < o.calls && !found.load(Ordering::SeqCst) {
            let before = run.calls;
            let scenario = next.fetch_add(1, Ordering::SeqCst);
            let ended = catch_unwind(AssertUnwindSafe(|| run.scenario(scenario)));
            let ended = ended.unwrap_or_else(|panic| {
                println!("PANIC: seed {}, scenario {scenario}", o.seed);
                resume_unwind(panic)
            });
            if let Err(failure) = ended {
                found.store(true, Ordering::SeqCst);
                return (run, Some(failure));
            }
            let made = run.calls - before;
            let all = calls.fetch_add(made, Ordering::SeqCst) + made;
            if all / STEP != (all - made) / STEP {
                println!("{all} calls, {:.1} s", start.elapsed().as_secs_f64());
            }
        }
        (run, None)
    };
    let mut whole = Run::new(o.seed, None);
    let mut failures = Vec::new();
    std::thread::scope(|scope| {
        let workers: Vec<_> = (0..o.jobs).map(|_| scope.spawn(&worker)).collect();
        for w in workers {
            let (run, failure) = w.join().expect("a thread that ends");
            whole.join(&run);
            failures.extend(failure);
        }
    });
    failures.sort_by_key(|f| f.scenario);
    (whole, next.load(Ordering::SeqCst), failures.into_iter().next())
}
