//! Little-endian fields of byte lists.
pub fn get<const N: usize>(bytes: &[u8], at: usize) -> [u8; N] {
    bytes[at..at + N].try_into().expect("bytes within the list")
}

pub fn get16(bytes: &[u8], at: usize) -> u16 {
    u16::from_le_bytes(get(bytes, at))
}

pub fn get32(bytes: &[u8], at: usize) -> u32 {
    u32::from_le_bytes(get(bytes, at))
}

pub fn get64(bytes: &[u8], at: usize) -> u64 {
    u64::from_le_bytes(get(bytes, at))
}

pub fn amount(bytes: &[u8], at: usize) -> i128 {
    i128::from_le_bytes(get(bytes, at))
}

pub fn put(bytes: &mut [u8], at: usize, value: &[u8]) {
    bytes[at..at + value.len()].copy_from_slice(value);
}

pub fn put_amount(bytes: &mut [u8], at: usize, value: i128) {
    put(bytes, at, &value.to_le_bytes());
}

pub fn zero(bytes: &[u8]) -> bool {
    bytes.iter().fold(0, |all, b| all | b) == 0
}
