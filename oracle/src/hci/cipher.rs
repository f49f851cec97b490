//! AES-128, against `aes.rs`, which is tried with the vectors of FIPS 197.
use super::tape::Tape;
use super::{same, Compared};
use crate::aes;
use crate::port::calls;
use crate::port::plant::{self, Plant};

pub fn encrypt(plant: Option<Plant>, tape: &mut Tape) -> Compared {
    let mut block = || std::array::from_fn(|_| tape.octet());
    let (key, block): ([u8; 16], [u8; 16]) = (block(), block());
    let mut port = calls::hci::encrypt(&key, &block);
    plant::encrypted(plant, &mut port);
    same(aes::encrypt_128(&key, &block), port)?;
    Ok((1, 0))
}
