//! The nine functions of the library over byte slices. Any bytes of any length get an answer: 0, or the number of a refusal.

/// The declarations of include/token_vault.h: a slice is a pointer and a length.
mod declared {
    extern "C" {
        pub fn token_vault_call(
            image: *mut u8,
            image_length: usize,
            journal: *mut u8,
            journal_length: usize,
            record: *const u8,
            record_length: usize,
            events: *mut u8,
            events_length: usize,
            value: *mut [u8; 16],
            event_count: *mut u32,
        ) -> u32;
        pub fn token_vault_call_without_journal(
            image: *mut u8,
            image_length: usize,
            record: *const u8,
            record_length: usize,
            events: *mut u8,
            events_length: usize,
            value: *mut [u8; 16],
            event_count: *mut u32,
        ) -> u32;
        pub fn token_vault_preview(
            image: *const u8,
            image_length: usize,
            record: *const u8,
            record_length: usize,
            events: *mut u8,
            events_length: usize,
            value: *mut [u8; 16],
            event_count: *mut u32,
        ) -> u32;
        pub fn token_vault_begin(image: *mut u8, image_length: usize, journal: *mut u8, journal_length: usize) -> u32;
        pub fn token_vault_commit(image: *mut u8, image_length: usize, journal: *mut u8, journal_length: usize) -> u32;
        pub fn token_vault_rollback(image: *mut u8, image_length: usize, journal: *mut u8, journal_length: usize) -> u32;
        pub fn token_vault_undo(image: *mut u8, image_length: usize, journal: *mut u8, journal_length: usize) -> u32;
        pub fn token_vault_trial_records(start: u64, first: u64, records: *mut u8, records_length: usize, reached: *mut u64) -> u32;
        pub fn token_vault_toll_bounds(
            image: *const u8,
            image_length: usize,
            token: u8,
            amounts: *const u8,
            amounts_length: usize,
            least_toll: *const [u8; 16],
            greatest_toll: *const [u8; 16],
            least_holding: *mut [u8; 16],
            greatest_holding: *mut [u8; 16],
        ) -> u32;
    }
}

// In every block below each pointer is that of a borrowed slice and stands with its length, or that of a borrowed number,
// whose length is fixed. Mutable borrows overlap no other, and all last for the call. The library keeps no pointer and asks
// for nothing else.

/// Makes the call of a record on an image, in the transaction of a journal. Value (16 bytes, two's complement, least
/// significant byte first) and event count are written for every answer.
pub fn call(image: &mut [u8], journal: &mut [u8], record: &[u8], events: &mut [u8], value: &mut [u8; 16], event_count: &mut u32) -> u32 {
    unsafe {
        declared::token_vault_call(
            image.as_mut_ptr(),
            image.len(),
            journal.as_mut_ptr(),
            journal.len(),
            record.as_ptr(),
            record.len(),
            events.as_mut_ptr(),
            events.len(),
            value,
            event_count,
        )
    }
}

/// Makes the call of a record on an image as with a closed journal.
pub fn call_without_journal(image: &mut [u8], record: &[u8], events: &mut [u8], value: &mut [u8; 16], event_count: &mut u32) -> u32 {
    unsafe {
        declared::token_vault_call_without_journal(
            image.as_mut_ptr(),
            image.len(),
            record.as_ptr(),
            record.len(),
            events.as_mut_ptr(),
            events.len(),
            value,
            event_count,
        )
    }
}

/// What `call_without_journal` would answer and write to the event buffer on a copy of the image, which stays as it is.
pub fn preview(image: &[u8], record: &[u8], events: &mut [u8], value: &mut [u8; 16], event_count: &mut u32) -> u32 {
    unsafe {
        declared::token_vault_preview(
            image.as_ptr(),
            image.len(),
            record.as_ptr(),
            record.len(),
            events.as_mut_ptr(),
            events.len(),
            value,
            event_count,
        )
    }
}

/// Opens a transaction.
pub fn begin(image: &mut [u8], journal: &mut [u8]) -> u32 {
    unsafe { declared::token_vault_begin(image.as_mut_ptr(), image.len(), journal.as_mut_ptr(), journal.len()) }
}

/// Keeps what the transaction did, and closes it.
pub fn commit(image: &mut [u8], journal: &mut [u8]) -> u32 {
    unsafe { declared::token_vault_commit(image.as_mut_ptr(), image.len(), journal.as_mut_ptr(), journal.len()) }
}

/// Undoes all that the transaction did, and closes it.
pub fn rollback(image: &mut [u8], journal: &mut [u8]) -> u32 {
    unsafe { declared::token_vault_rollback(image.as_mut_ptr(), image.len(), journal.as_mut_ptr(), journal.len()) }
}

/// Undoes the last call of the transaction.
pub fn undo(image: &mut [u8], journal: &mut [u8]) -> u32 {
    unsafe { declared::token_vault_undo(image.as_mut_ptr(), image.len(), journal.as_mut_ptr(), journal.len()) }
}

/// Fills a buffer with trial records, numbered from `first` on and drawn from `start` on. The generator's number after the
/// last draw is written for every answer; on a refusal, which is 32, it is `start`, and the buffer is as it was lent.
pub fn trial_records(start: u64, first: u64, records: &mut [u8], reached: &mut u64) -> u32 {
    unsafe { declared::token_vault_trial_records(start, first, records.as_mut_ptr(), records.len(), reached) }
}

/// What address 1 will hold of a token, at least and at most, once amounts are moved to it at a toll from the least to the
/// greatest. Each amount, toll and holding has 16 bytes, two's complement, least significant byte first. Both holdings are
/// written for every answer, and are 0 on a refusal.
pub fn toll_bounds(
    image: &[u8],
    token: u8,
    amounts: &[u8],
    least_toll: &[u8; 16],
    greatest_toll: &[u8; 16],
    least_holding: &mut [u8; 16],
    greatest_holding: &mut [u8; 16],
) -> u32 {
    unsafe {
        declared::token_vault_toll_bounds(
            image.as_ptr(),
            image.len(),
            token,
            amounts.as_ptr(),
            amounts.len(),
            least_toll,
            greatest_toll,
            least_holding,
            greatest_holding,
        )
    }
}
