//! Parameters of LE Create Connection (Core Vol 4 Part E section 7.8.12) at and beside the limits of its fields: each field
//! alone, all pairs of them, and at random.
use crate::random::Random;

struct Field {
    at: usize,
    width: usize,
    values: &'static [u16],
}

/// Around both limits, around the value that the other of the two has, and far off.
const SCAN_TIMES: &[u16] = &[0, 3, 4, 5, 0x0FFF, 0x1000, 0x1001, 0x3FFF, 0x4000, 0x4001, 0xFFFF];
const TYPES: &[u16] = &[0, 1, 2, 3, 4, 0xFF];
const INTERVALS: &[u16] = &[0, 5, 6, 7, 0x0C7F, 0x0C80, 0x0C81, 0xFFFF];
const FIELDS: [Field; 9] = [
    Field { at: 0, width: 2, values: SCAN_TIMES },
    Field { at: 2, width: 2, values: SCAN_TIMES },
    // the filter policy
    Field { at: 4, width: 1, values: &[0, 1, 2, 3, 0xFF] },
    // the peer's address type, and the own one
    Field { at: 5, width: 1, values: TYPES },
    Field { at: 12, width: 1, values: TYPES },
    Field { at: 13, width: 2, values: INTERVALS },
    Field { at: 15, width: 2, values: INTERVALS },
    // latency and timeout
    Field { at: 17, width: 2, values: &[0, 1, 0x01F3, 0x01F4, 0xFFFF] },
    Field { at: 19, width: 2, values: &[0, 9, 10, 11, 0x0C7F, 0x0C80, 0x0C81, 0xFFFF] },
];

/// Each field is right, and none but filter policy and address types is at a limit.
pub const RIGHT: [u8; 25] = [
    0x00, 0x10, 0x00, 0x10, 0x00, 0x00, 0x11, 0x22, 0x33, 0x44, 0x55, 0xC6, 0x00, 0x18, 0x00, 0x28, 0x00, 0x00, 0x00, 0x2A,
    0x00, 0x00, 0x00, 0x00, 0x00,
];

impl Field {
    fn put(&self, parameters: &mut [u8], value: u16) {
        parameters[self.at..self.at + self.width].copy_from_slice(&value.to_le_bytes()[..self.width]);
    }

    /// The parameters with each value in this field.
    fn put_each<'a>(&'a self, parameters: &'a [u8; 25]) -> impl Iterator<Item = [u8; 25]> + 'a {
        self.values.iter().map(|&value| {
            let mut changed = *parameters;
            self.put(&mut changed, value);
            changed
        })
    }
}

/// The right parameters with each value in one field, and with all pairs of values in two.
pub fn alone_and_in_pairs() -> Vec<[u8; 25]> {
    let mut list = Vec::new();
    for (n, field) in FIELDS.iter().enumerate() {
        for one in field.put_each(&RIGHT) {
            list.push(one);
            list.extend(FIELDS[n + 1..].iter().flat_map(|other| other.put_each(&one).collect::<Vec<_>>()));
        }
    }
    list
}

/// Scan times, filter policy, the peer and the own address type, all right.
pub fn right_scan_fields(random: &mut Random, peer: [u8; 6]) -> Vec<u8> {
    let interval = 4 + random.below(0x3FFD) as u16;
    let window = 4 + random.below(usize::from(interval) - 3) as u16;
    let mut p = [interval.to_le_bytes(), window.to_le_bytes()].concat();
    p.extend([random.below(2) as u8, random.below(4) as u8]);
    p.extend(peer);
    p.push(random.below(4) as u8);
    p
}

/// Puts none, one or two fields to or beside a limit, and at times the window just above the interval.
pub fn strain(random: &mut Random, parameters: &mut [u8]) {
    for _ in 0..random.below(3) {
        let field = &FIELDS[random.below(FIELDS.len())];
        let value = random.pick(field.values);
        field.put(parameters, value);
    }
    if random.once_in(16) {
        let interval = u16::from_le_bytes([parameters[0], parameters[1]]);
        FIELDS[1].put(parameters, interval.wrapping_add(1));
    }
}

#[cfg(test)]
mod tests {
    use super::*;

    #[test]
    fn counted() {
        let sizes: Vec<usize> = FIELDS.iter().map(|field| field.values.len()).collect();
        let all: usize = sizes.iter().sum();
        let pairs = (all * all - sizes.iter().map(|n| n * n).sum::<usize>()) / 2;
        assert_eq!((all, pairs, alone_and_in_pairs().len()), (68, 2_034, 2_102));
    }
}
