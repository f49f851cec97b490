//! Bench lines: those of a run that the bench can be asked for, now and then with a character changed.
use super::themes::{Theme, DATA, ODD};
use super::world::{odd_packet, World};
use super::{commands, themes};
use crate::octets::{hex, word_at};
use crate::random::Random;
use crate::trial::kind;

/// acl_len of the bench's profile.
const ACL_LEN: u16 = 27;

/// Lines for the bench, and the room for what it prints.
pub fn bench_input(random: &mut Random, most: usize) -> (Vec<u8>, usize) {
    let theme = random.pick(&themes::THEMES);
    let world = World::new(random, theme.handles, ACL_LEN, false);
    let count = 1 + random.below(most);
    let mut input = String::new();
    for _ in 0..count {
        input += &line(random, &world, theme);
        input.push('\n');
    }
    let mut input = input.into_bytes();
    if random.once_in(4) {
        input.pop();
    }
    for _ in 0..random.pick(&[0, 0, 1, 2]) {
        change(random, &mut input);
    }
    let room = if random.once_in(20) { random.below(2_048) } else { 1_024 + count * 300 };
    (input, room)
}

fn line(random: &mut Random, world: &World, theme: &Theme) -> String {
    let packet = match theme.call(random) {
        kind::TAKE => return numbers(random, 'T', world, kind::TAKE),
        kind::COMPLETED | kind::DROP => return numbers(random, 'C', world, kind::COMPLETED),
        kind::OPEN | kind::ACCEPT | kind::UPDATE => return numbers(random, 'O', world, kind::OPEN),
        DATA => world.data(random),
        ODD => odd_packet(random),
        _ => {
            let opcode = theme.opcode(random);
            commands::command(random, world, opcode)
        }
    };
    let mut packet = packet;
    if random.once_in(300) {
        packet.resize(random.pick(&[1_023, 1_024, 1_025]), 0);
    }
    format!("P\t{}", hex(&packet))
}

/// A letter and the words of a record in decimal, now and then with zeros before them.
fn numbers(random: &mut Random, letter: char, world: &World, kind: u8) -> String {
    let octets = world.notice(random, kind);
    let mut line = letter.to_string();
    for at in (0..octets.len()).step_by(2) {
        let zeros = if random.once_in(20) { random.below(4) } else { 0 };
        line += &format!("\t{}{}", "0".repeat(zeros), word_at(&octets, at));
    }
    line
}

/// One character turned, removed or put in.
fn change(random: &mut Random, input: &mut Vec<u8>) {
    let at = random.below(input.len().max(1));
    let character = random.pick(b"\t\n\r 0159abfAFPTCOXD+-x\0\xFF");
    match random.below(3) {
        0 if at < input.len() => input[at] = character,
        1 if at < input.len() => {
            input.remove(at);
        }
        _ => input.insert(at, character),
    }
}
