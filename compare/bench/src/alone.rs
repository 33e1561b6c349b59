//! What is timed without a call: one copy of an image, the making of trial records, and toll bounds.
use crate::cases::TOKEN;
use crate::{CASE, ROUND};
use model::tolls::Asked;
use model::{record, trial};
use std::hint::black_box;
use std::time::Instant;
use token_vault::exports::{toll_bounds, trial_records};

/// Trial records that are made at once.
const BLOCK: usize = 1_024;

/// Microseconds that a subject takes, in one round.
fn round(subject: &mut dyn FnMut()) -> f64 {
    let (start, mut times) = (Instant::now(), 0);
    while start.elapsed() < ROUND {
        (0..32).for_each(|_| subject());
        times += 32;
    }
    start.elapsed().as_secs_f64() * 1e6 / times as f64
}

/// Microseconds that each subject takes: the best of rounds in turn.
fn best<const N: usize>(mut subjects: [&mut dyn FnMut(); N]) -> [f64; N] {
    let mut best = [f64::MAX; N];
    let start = Instant::now();
    while start.elapsed() < CASE {
        for (subject, best) in subjects.iter_mut().zip(&mut best) {
            *best = best.min(round(subject));
        }
    }
    best
}

fn copy_time(image: &[u8]) -> f64 {
    let mut copy = image.to_vec();
    let [time] = best([&mut || black_box(&mut copy[..]).copy_from_slice(black_box(image))]);
    time
}

/// For one record of a block, made by the library and by the plain function of the model.
fn record_times() -> [f64; 2] {
    let (mut library, mut plain) = (vec![0; BLOCK * record::LENGTH], vec![0; BLOCK * record::LENGTH]);
    let (mut library_reached, mut plain_reached) = (0, 0);
    let mut by_library = || assert_eq!(trial_records(black_box(1), black_box(1), &mut library, &mut library_reached), 0);
    let mut by_function = || plain_reached = trial::fill(black_box(1), black_box(1), black_box(&mut plain));
    let times = best([&mut by_library, &mut by_function]);
    assert!((library, library_reached) == (plain, plain_reached), "trial records of the library and of the model");
    times.map(|time| time / BLOCK as f64)
}

/// For one request with amounts of 10 and tolls of 2 to 6, by the library and by the plain function of the model, which test the same.
fn bounds_times(image: &[u8], amounts: usize) -> [f64; 2] {
    let amounts = 10i128.to_le_bytes().repeat(amounts);
    let tolls = [2, 6];
    let [least, greatest] = tolls.map(i128::to_le_bytes);
    let asked = Asked { image, token: TOKEN, amounts: &amounts, tolls };
    let (mut holdings, mut plain) = ([[0; 16]; 2], Err(0));
    let mut by_library = || {
        let [lower, upper] = &mut holdings;
        assert_eq!(toll_bounds(black_box(image), TOKEN, black_box(&amounts), &least, &greatest, lower, upper), 0);
    };
    let mut by_function = || plain = black_box(asked).answer();
    let times = best([&mut by_library, &mut by_function]);
    assert_eq!(plain, Ok(holdings.map(i128::from_le_bytes)), "toll bounds of the library and of the model");
    times
}

fn print_bounds(images: [(&str, &[u8]); 2]) {
    for (kind, image) in images {
        for (count, amounts) in [("no amount", 0), ("16 amounts", 16)] {
            for (side, us) in ["vault", "plain Rust"].iter().zip(bounds_times(image, amounts)) {
                println!("  {:52}{us:8.2}{:9.0} requests/s", format!("toll bounds, {kind}, {count}: {side}"), 1e6 / us);
            }
        }
    }
}

pub fn print(images: [(&str, &[u8]); 2]) {
    println!("no call");
    println!("  {:52}{:8.2}", "one copy of an image, by the C library's memcpy", copy_time(images[1].1));
    let names = ["a trial record, by the vault, 1,024 at once", "a trial record, by a plain Rust function, as many"];
    for (name, us) in names.iter().zip(record_times()) {
        println!("  {name:52}{us:8.3}{:10.0} records/s", 1e6 / us);
    }
    print_bounds(images);
}
