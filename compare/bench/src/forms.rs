//! The exports of libjournal_bench.a: the changed cells of two images by words and by bytes, and the journal's test.
use token_vault::layout::IMAGE_LENGTH;

pub type Image = [u8; IMAGE_LENGTH];

mod exports {
    use super::Image;

    extern "C" {
        pub fn journal_bench_by_words(old: *const Image, new: *const Image, places: *mut u8, length: usize) -> u32;
        pub fn journal_bench_by_bytes(old: *const Image, new: *const Image, places: *mut u8, length: usize) -> u32;
        pub fn journal_bench_good(journal: *const u8, length: usize) -> u32;
    }
}

/// The number of changed cells; their entries, of call 1, as far as there are places of 24 bytes.
pub fn by_words(old: &Image, new: &Image, places: &mut [u8]) -> u32 {
    // Safety: as declared in crates/journal_bench/src/lib.rt, which is proved for any bytes.
    unsafe { exports::journal_bench_by_words(old, new, places.as_mut_ptr(), places.len()) }
}

pub fn by_bytes(old: &Image, new: &Image, places: &mut [u8]) -> u32 {
    // Safety: as above.
    unsafe { exports::journal_bench_by_bytes(old, new, places.as_mut_ptr(), places.len()) }
}

pub fn good_journal(journal: &[u8]) -> bool {
    // Safety: as above.
    unsafe { exports::journal_bench_good(journal.as_ptr(), journal.len()) == 1 }
}
