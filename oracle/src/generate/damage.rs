//! Damage to a good run: octets turned, cut out, put in or doubled.
use crate::random::Random;
use crate::trial::{record_length, Trial};

pub fn damage(random: &mut Random, trial: &mut Trial) {
    match random.below(8) {
        0 => turn_anywhere(random, &mut trial.setup),
        1 => cut(random, &mut trial.input),
        2 => remove(random, &mut trial.input),
        3 => insert(random, &mut trial.input),
        4 => double(random, &mut trial.input),
        5 => turn_anywhere(random, &mut trial.input),
        // the frame of the records stays whole, so that the run goes on behind the damage
        _ => turn_within(random, &mut trial.input),
    }
}

fn turn(random: &mut Random, octet: &mut u8) {
    *octet = match random.below(4) {
        0 => random.octet(),
        1 => octet.wrapping_add(1),
        2 => octet.wrapping_sub(1),
        _ => *octet ^ (1 << random.below(8)),
    };
}

fn turn_anywhere(random: &mut Random, octets: &mut [u8]) {
    for _ in 0..1 + random.below(4) {
        if !octets.is_empty() {
            let at = random.below(octets.len());
            turn(random, &mut octets[at]);
        }
    }
}

fn turn_within(random: &mut Random, input: &mut [u8]) {
    let mut at = 0;
    while record_length(&input[at..]) > 0 {
        let end = at + record_length(&input[at..]);
        if end > at + 3 && random.once_in(4) {
            let octet = at + 3 + random.below(end - at - 3);
            turn(random, &mut input[octet]);
        }
        at = end;
    }
}

fn cut(random: &mut Random, input: &mut Vec<u8>) {
    input.truncate(random.below(input.len() + 1));
}

fn remove(random: &mut Random, input: &mut Vec<u8>) {
    let from = random.below(input.len() + 1);
    let to = input.len().min(from + 1 + random.below(8));
    input.drain(from..to);
}

fn insert(random: &mut Random, input: &mut Vec<u8>) {
    let at = random.below(input.len() + 1);
    let octets: Vec<u8> = (0..1 + random.below(8)).map(|_| random.octet()).collect();
    input.splice(at..at, octets);
}

fn double(random: &mut Random, input: &mut Vec<u8>) {
    let from = random.below(input.len() + 1);
    let to = input.len().min(from + 1 + random.below(64));
    let octets = input[from..to].to_vec();
    input.splice(from..from, octets);
}
