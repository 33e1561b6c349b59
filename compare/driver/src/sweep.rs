//! Every byte of images, journals and record heads changed in turn, and every length around each limit; a part of it is previewed.
use crate::compare::{preview_of, Difference, Pair};
use crate::ffi;
use crate::generate;
use model::random::Random;
use model::vault::{Call, Vault};
use model::{image, journal};

/// How many calls and previews were made.
#[derive(Default)]
pub struct Made {
    pub calls: u64,
    pub previews: u64,
}

/// What was made, or the first call that differs, told in words.
pub fn run(seed: u64) -> Result<Made, String> {
    let mut r = Random::of(seed, u64::MAX);
    let mut made = Made::default();
    for _ in 0..4 {
        let image = generate::image(&mut r);
        image_bytes(&image, &mut made)?;
        journal_bytes(&mut r, &image, &mut made)?;
        record_bytes(&mut r, &image, &mut made)?;
        lengths(&mut r, &image, &mut made)?;
    }
    Ok(made)
}

/// A view that no rule of its own refuses.
fn view() -> (Vec<u8>, Vec<u8>) {
    ([&[27][..], &[0; 447]].concat(), vec![0; 896])
}

pub fn values(byte: u8) -> [u8; 5] {
    [byte ^ 1, byte ^ 0x80, byte.wrapping_add(2), 0, 0xff]
}

/// Begin answers 30 just where the image is not good, and so does the preview of a view, which is asked of one value in five.
fn image_bytes(start: &[u8], made: &mut Made) -> Result<(), String> {
    let mut vault = Vault { image: start.to_vec(), journal: vec![0; 48] };
    let (record, events) = view();
    let preview = Call::Preview { record, events };
    for at in 0..start.len() {
        for (i, value) in values(start[at]).into_iter().enumerate() {
            vault.image[at] = value;
            let number = ffi::call(&mut vault, &Call::Begin, true).number;
            let expected = if image::good(&vault.image) { 0 } else { 30 };
            made.calls += 1;
            if number != expected {
                return Err(format!("image byte {at} set to {value}: the vault {number}, the model {expected}"));
            }
            if i == at % 5 {
                let number = ffi::call(&mut vault, &preview, true).number;
                made.previews += 1;
                if number != expected {
                    return Err(format!("image byte {at} set to {value}, a preview: the vault {number}, the model {expected}"));
                }
            }
            vault.journal[0] = 0;
        }
        vault.image[at] = start[at];
    }
    if vault.image != start {
        return Err("begins and previews on changed bytes left another image".into());
    }
    Ok(())
}

/// A view answers 31 just where the journal is not good.
fn journal_bytes(r: &mut Random, image: &[u8], made: &mut Made) -> Result<(), String> {
    let (record, events) = view();
    let call = Call::Operation { record, events };
    for _ in 0..4 {
        let journal = generate::open_journal(r, image);
        let mut vault = Vault { image: image.to_vec(), journal: journal.clone() };
        for at in 0..journal.len().min(1_200) {
            for value in values(journal[at]) {
                vault.journal[at] = value;
                let number = ffi::call(&mut vault, &call, true).number;
                let expected = if journal::good(&vault.journal) { 0 } else { 31 };
                made.calls += 1;
                if number != expected {
                    return Err(format!("journal byte {at} set to {value}: the vault {number}, the model {expected}"));
                }
            }
            vault.journal[at] = journal[at];
        }
    }
    Ok(())
}

fn told(what: &str, d: Difference) -> String {
    format!("{what}: {} differs, the vault {}, the Rust side {}", d.what, d.vault_answer.number, d.rust_answer.number)
}

/// A call at both sides, one in four previewed first.
fn compared(pair: &mut Pair, call: &Call, made: &mut Made) -> Result<(), Difference> {
    let preview = preview_of(call).filter(|_| made.calls % 4 == 0);
    let previewed = preview.map(|preview| pair.call(&preview)).transpose();
    let previewed = previewed.map_err(|d| Difference { what: format!("its preview's {}", d.what), ..d })?;
    let answer = pair.call(call)?;
    made.calls += 1;
    if let Some(previewed) = previewed {
        pair.after_preview(&previewed, answer)?;
        made.previews += 1;
    }
    Ok(())
}

/// Each operation with each value of each field of the record's head, and of the items' addresses.
fn record_bytes(r: &mut Random, image: &[u8], made: &mut Made) -> Result<(), String> {
    for operation in 0..=31 {
        let record = generate::record(r, image, operation);
        for at in [1, 2, 3, 4, 5, 64, 88, 424] {
            for value in [0, 1, 2, 15, 16, 17, 47, 48, 62, 63, 64, 65, 127, 128, 255] {
                let mut record = record.clone();
                record[at] = value;
                let mut pair = Pair::new(image.to_vec(), None, None);
                let call = Call::Operation { record, events: vec![3; 896] };
                compared(&mut pair, &call, made)
                    .map_err(|d| told(&format!("operation {operation}, record byte {at} set to {value}"), d))?;
            }
        }
    }
    Ok(())
}

/// Records, event buffers, journals and images of every length around each limit.
fn lengths(r: &mut Random, start: &[u8], made: &mut Made) -> Result<(), String> {
    let mut try_one = |what: &str, length: usize, image: Vec<u8>, journal: Vec<u8>, record: Vec<u8>, events: Vec<u8>| {
        let mut pair = Pair::new(image, Some(journal), None);
        pair.fenced = true;
        let call = Call::Operation { record, events };
        compared(&mut pair, &call, made).map_err(|d| told(&format!("{what} of {length} bytes"), d))
    };
    let near = |limits: &[usize]| -> Vec<usize> {
        let mut all: Vec<usize> = limits.iter().flat_map(|l| l.saturating_sub(26)..l + 27).collect();
        all.dedup();
        all
    };
    let record = |r: &mut Random| {
        let operation = 1 + r.below(30) as u8;
        generate::record(r, start, operation)
    };
    let resized = |r: &mut Random, length: usize| {
        let mut bytes = record(r);
        bytes.resize(length, 0);
        bytes
    };
    for length in near(&[0, 64, 448, 896]) {
        let bytes = resized(r, length);
        try_one("record", length, start.to_vec(), vec![0; 48], bytes, vec![1; 896])?;
    }
    for length in near(&[0, 56, 448, 896, 952]) {
        let bytes = resized(r, 448);
        try_one("event buffer", length, start.to_vec(), vec![0; 48], bytes, vec![1; length])?;
    }
    for length in near(&[0, 24, 48, 72, 48_000, 48_024, 48_048]) {
        for open in [0, 1] {
            let mut journal = vec![0; length];
            if let Some(first) = journal.first_mut() {
                *first = open;
            }
            let bytes = resized(r, 448);
            try_one("journal", length, start.to_vec(), journal, bytes, vec![1; 896])?;
        }
    }
    for length in near(&[0, 16, 96, 3_680, image::LENGTH]) {
        let mut bytes = start.to_vec();
        bytes.resize(length, 0);
        let record = resized(r, 448);
        try_one("image", length, bytes, vec![0; 48], record, vec![1; 896])?;
    }
    Ok(())
}
