//! Numbers low octet first, and octets in hex.

pub fn word_at(octets: &[u8], at: usize) -> u16 {
    u16::from_le_bytes([octets[at], octets[at + 1]])
}

pub fn long_at(octets: &[u8], at: usize) -> u64 {
    u64::from_le_bytes(array_at(octets, at))
}

pub fn array_at<const N: usize>(octets: &[u8], at: usize) -> [u8; N] {
    octets[at..at + N].try_into().expect("a part has its own length")
}

pub fn put_word(out: &mut Vec<u8>, word: u16) {
    out.extend_from_slice(&word.to_le_bytes());
}

pub fn hex(octets: &[u8]) -> String {
    octets.iter().map(|x| format!("{x:02x}")).collect()
}
