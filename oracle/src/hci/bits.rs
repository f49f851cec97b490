//! Opcodes, masks and bit maps.
use super::tape::Tape;
use super::{same, Compared};
use crate::ble::hci;
use crate::port::calls;
use crate::port::plant::Plant;
use crate::random::Random;

pub fn opcode(_: Option<Plant>, tape: &mut Tape) -> Compared {
    let (group, command) = (tape.word(), tape.word());
    same(hci::opcode(group, command), calls::hci::opcode(group, command))?;
    Ok((1, 0))
}

/// Each group with some of its commands, and numbers above both.
pub fn grid() -> impl Iterator<Item = Vec<u8>> {
    let above = [64, 65, 127, 128, 1_023, 1_024, 4_096, 32_768, 65_535];
    let groups = (0..64).chain(above);
    groups.flat_map(move |group: u16| {
        let commands = (0..1_024).step_by(13).chain([1_023]).chain(above);
        commands.map(move |command: u16| [group.to_le_bytes(), command.to_le_bytes()].concat())
    })
}

pub fn draw_opcode(random: &mut Random) -> Vec<u8> {
    random.near(&hci::ASYNC_OPCODES).to_le_bytes().to_vec()
}

pub fn is_async(_: Option<Plant>, tape: &mut Tape) -> Compared {
    let opcode = tape.word();
    same(hci::is_async(opcode), calls::hci::is_async(opcode))?;
    Ok((1, 0))
}

pub fn draw_mask(random: &mut Random) -> Vec<u8> {
    let any = random.number();
    let bit = random.pick(&[any as u32 % 64, any as u32 % 64, 63, 64, 65, 127, 128, any as u32, u32::MAX]);
    [&random.number().to_le_bytes()[..], &bit.to_le_bytes()].concat()
}

/// All bits of some masks, and the first ones that there aren't.
pub fn masks() -> impl Iterator<Item = Vec<u8>> {
    let masks = [0, 1, u64::MAX, 1 << 63, 0xAAAA_AAAA_AAAA_AAAA, hci::mask::DEFAULT];
    masks.into_iter().flat_map(|mask| (0..130u32).map(move |bit| [&mask.to_le_bytes()[..], &bit.to_le_bytes()].concat()))
}

/// Question 10 from bit 64: the source's shift would wrap.
pub fn mask_has(_: Option<Plant>, tape: &mut Tape) -> Compared {
    let (mask, bit) = (tape.number(8), tape.number(4) as u32);
    let port = calls::hci::mask_has(mask, bit);
    let expected = if bit < 64 { (0, hci::mask_has(mask, bit)) } else { (10, false) };
    same(expected, (port.number, port.has))?;
    Ok((1, u64::from(port.number != 0)))
}

pub fn draw_map(random: &mut Random) -> Vec<u8> {
    let length = random.pick(&[0, 1, 2, 8, 64, 65]);
    let any = random.number();
    let end = 8 * length as u64;
    let bit = random.pick(&[any % (end + 1), any % (end + 1), end.wrapping_sub(1), end, end + 1, any, u64::MAX]);
    let map = (0..length).map(|_| random.octet() & random.octet());
    bit.to_le_bytes().into_iter().chain(map).collect()
}

pub fn set_bit(_: Option<Plant>, tape: &mut Tape) -> Compared {
    const GUARD: [u8; 9] = [0; 9];
    let bit = tape.number(8) as usize;
    let mut source = tape.part(4_096).to_vec();
    let mut port = [&GUARD[..], &source, &GUARD].concat();
    hci::set_bit(&mut source, bit);
    calls::hci::set_bit(&mut port[GUARD.len()..GUARD.len() + source.len()], bit);
    same([&GUARD[..], &source, &GUARD].concat(), port)?;
    Ok((1, 0))
}
