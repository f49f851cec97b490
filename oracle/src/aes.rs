//! AES-128 by FIPS 197, which the source takes from a crate that isn't at hand. Plain and slow on purpose: the state is sixteen
//! octets column by column, and the S-box is computed from its rule (section 5.1.1), not copied from a table.

/// Multiplication by x in GF(2^8) (section 4.2.1).
const fn times_x(a: u8) -> u8 {
    (a << 1) ^ (if a & 0x80 != 0 { 0x1B } else { 0 })
}

const fn times(mut a: u8, mut b: u8) -> u8 {
    let mut product = 0;
    while b != 0 {
        if b & 1 != 0 {
            product ^= a;
        }
        a = times_x(a);
        b >>= 1;
    }
    product
}

/// The inverse is the 254th power; 0 stays 0.
const fn inverse(a: u8) -> u8 {
    let mut power = 1;
    let mut i = 0;
    while i < 254 {
        power = times(power, a);
        i += 1;
    }
    power
}

const fn sbox() -> [u8; 256] {
    let mut table = [0; 256];
    let mut i = 0;
    while i < 256 {
        let b = inverse(i as u8);
        table[i] = b ^ b.rotate_left(1) ^ b.rotate_left(2) ^ b.rotate_left(3) ^ b.rotate_left(4) ^ 0x63;
        i += 1;
    }
    table
}

static SBOX: [u8; 256] = sbox();

/// Eleven round keys (section 5.2).
fn round_keys(key: &[u8; 16]) -> [[u8; 16]; 11] {
    let mut keys = [*key; 11];
    let mut constant = 1;
    for round in 1..11 {
        let last = keys[round - 1];
        let mut word = [last[13], last[14], last[15], last[12]].map(|x| SBOX[usize::from(x)]);
        word[0] ^= constant;
        constant = times_x(constant);
        for i in 0..16 {
            word[i % 4] ^= last[i];
            keys[round][i] = word[i % 4];
        }
    }
    keys
}

fn add(state: &mut [u8; 16], key: &[u8; 16]) {
    for (x, k) in state.iter_mut().zip(key) {
        *x ^= k;
    }
}

/// SubBytes and ShiftRows: row r of column c comes from column c + r.
fn substitute_and_shift(state: &[u8; 16]) -> [u8; 16] {
    std::array::from_fn(|i| SBOX[usize::from(state[(i + 4 * (i % 4)) % 16])])
}

fn mix_columns(state: &[u8; 16]) -> [u8; 16] {
    std::array::from_fn(|i| {
        let at = |row: usize| state[i / 4 * 4 + (i + row) % 4];
        times_x(at(0)) ^ times_x(at(1)) ^ at(1) ^ at(2) ^ at(3)
    })
}

pub fn encrypt_128(key: &[u8; 16], block: &[u8; 16]) -> [u8; 16] {
    let keys = round_keys(key);
    let mut state = *block;
    add(&mut state, &keys[0]);
    for key in &keys[1..10] {
        state = mix_columns(&substitute_and_shift(&state));
        add(&mut state, key);
    }
    state = substitute_and_shift(&state);
    add(&mut state, &keys[10]);
    state
}

#[cfg(test)]
mod tests {
    use super::*;

    fn octets(number: u128) -> [u8; 16] {
        number.to_be_bytes()
    }

    #[test]
    fn sbox_of_figure_7() {
        assert_eq!([SBOX[0x00], SBOX[0x53], SBOX[0xFF]], [0x63, 0xED, 0x16]);
    }

    #[test]
    fn key_expansion_of_appendix_a() {
        let keys = round_keys(&octets(0x2b7e1516_28aed2a6_abf71588_09cf4f3c));
        assert_eq!(keys[1], octets(0xa0fafe17_88542cb1_23a33939_2a6c7605));
        assert_eq!(keys[10], octets(0xd014f9a8_c9ee2589_e13f0cc8_b6630ca6));
    }

    #[test]
    fn cipher_of_appendix_b() {
        let key = octets(0x2b7e1516_28aed2a6_abf71588_09cf4f3c);
        let block = octets(0x3243f6a8_885a308d_313198a2_e0370734);
        assert_eq!(encrypt_128(&key, &block), octets(0x3925841d_02dc09fb_dc118597_196a0b32));
    }

    #[test]
    fn cipher_of_appendix_c() {
        let key = octets(0x00010203_04050607_08090a0b_0c0d0e0f);
        let block = octets(0x00112233_44556677_8899aabb_ccddeeff);
        assert_eq!(encrypt_128(&key, &block), octets(0x69c4e0d8_6a7b0430_d8cdb780_70b4c55a));
    }
}
