//! `row_bitmap`, with question 2, and the default state.
use super::tape::{put_length, Tape};
use super::{same, Compared};
use crate::ble::controller::{row_bitmap, Controller};
use crate::ble::profile::BleProfile;
use crate::port::plant::{self, Plant};
use crate::port::{calls, raw, view};
use crate::questions::{rows_fit, Rows, MOST_ROWS};
use crate::random::Random;
use crate::setup::{bench_controller, commands, profile};

/// How long the three slices are, and the octet that decides their values.
pub fn draw(random: &mut Random) -> Vec<u8> {
    let few = random.below(40);
    let length = random.pick(&[few, few, few, few, MOST_ROWS - 1, MOST_ROWS, MOST_ROWS + 1]);
    let mut lengths = [length; 3];
    if random.once_in(6) {
        lengths[random.below(3)] = random.pick(&[few, length + 1, length.saturating_sub(1)]);
    }
    let mut tape = Vec::new();
    lengths.iter().for_each(|length| put_length(&mut tape, *length));
    tape.extend(random.octets::<2>());
    tape
}

pub fn bitmap(plant: Option<Plant>, tape: &mut Tape) -> Compared {
    let lengths = [(); 3].map(|()| tape.length().min(1_024));
    let mut random = Random::of_run(tape.number(2), 3);
    let opcodes: Vec<u16> = (0..lengths[0]).map(|_| random.word()).collect();
    let mut answers: Vec<u8> = (0..lengths[1]).map(|_| random.below(3) as u8).collect();
    let bits: Vec<u16> = (0..lengths[2]).map(|_| bit(&mut random)).collect();
    if !answers.is_empty() && random.once_in(8) {
        let at = random.below(answers.len());
        answers[at] = random.pick(&[2, 3, 255]);
    }
    let rows = Rows { opcodes: &opcodes, answers: &answers, bits: &bits };
    let mut port = calls::row_bitmap(&rows);
    plant::bitmap(plant, &mut port);
    let source = || row_bitmap(&BleProfile { controller: bench_controller(), commands: commands(&rows) });
    let expected = if rows_fit(&rows) { (0, source()) } else { (2, [0; 64]) };
    same(expected, (port.number, port.map))?;
    Ok((1, u64::from(port.number != 0)))
}

fn bit(random: &mut Random) -> u16 {
    let any = random.word();
    random.pick(&[any % 512, any % 512, 0, 511, 512, 2_047, 2_048, any, 0xFFFF])
}

/// The state that a unit starts with shows what the source's shows.
pub fn start(_: Option<Plant>, _: &mut Tape) -> Compared {
    let state: raw::State = calls::start();
    same(Controller::default(), view::controller(&state, &[], &profile(&bench_controller())))?;
    Ok((1, 0))
}
