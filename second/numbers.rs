// Numbers in bytes: unsigned, most significant byte first.

pub fn number(bytes: &[u8]) -> u64 {
    let add = |sum, &byte| sum * 256 + u64::from(byte);
    bytes.iter().fold(0, add)
}

/// Appends a number in `width` bytes.
pub fn append(bytes: &mut Vec<u8>, width: usize, number: u64) {
    bytes.extend_from_slice(&number.to_be_bytes()[8 - width..]);
}
