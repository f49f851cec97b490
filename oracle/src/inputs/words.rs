//! Numbers and octets as the inputs have them.
use crate::lines::packet;

/// Decimal, or hexadecimal behind 0x.
pub fn number<T: TryFrom<i64>>(word: &str) -> Option<T> {
    let value = match word.strip_prefix("0x") {
        Some(digits) => i64::from_str_radix(digits, 16),
        None => word.parse(),
    };
    value.ok()?.try_into().ok()
}

/// Hex pairs, with spaces between them or without; `00*26` is an octet 26 times.
pub fn octets(words: &[&str]) -> Option<Vec<u8>> {
    let mut list = Vec::new();
    for word in words {
        let (digits, times) = word.split_once('*').unwrap_or((word, "1"));
        list.extend(packet(digits.to_ascii_lowercase().as_bytes())?.repeat(number(times)?));
    }
    Some(list)
}

/// Octets as they are printed: pairs with spaces, and nine or more alike as `00*9`.
pub fn shown(octets: &[u8]) -> String {
    let alike = octets.chunk_by(|one, next| one == next);
    let words: Vec<String> = alike.map(|part| repeated(part[0], part.len())).collect();
    words.join(" ")
}

fn repeated(octet: u8, times: usize) -> String {
    if times > 8 {
        format!("{octet:02X}*{times}")
    } else {
        vec![format!("{octet:02X}"); times].join(" ")
    }
}

/// An answer that an entry tells, in the form of the answers that are given.
pub fn plain(answer: &str) -> String {
    let words: Vec<&str> = answer.split_whitespace().collect();
    octets(&words).map_or_else(|| words.join(" "), |octets| shown(&octets))
}
