//! Runs with states that no calls led to, and calls with something that a question asks for changed.
use super::world::World;
use super::{trial_in_world, Size};
use crate::port::made;
use crate::random::Random;
use crate::trial::{kind, put_record, records, Trial};

/// A record has at most 65,535 octets, and a strange call's has some more than the call's own.
const LONGEST: usize = 65_000;

/// A run with such records between its own; many begin from a state that is handed in.
pub fn strange(random: &mut Random, size: Size) -> Trial {
    let (mut trial, world) = trial_in_world(random, size);
    let mut input = Vec::new();
    if random.once_in(2) {
        put_record(&mut input, kind::HAND_IN, &handed_in(random, &world));
    }
    // disturbed often, or hardly
    let disturbed_once_in = random.pick(&[1, 4, 1_000]);
    let strange_once_in = random.pick(&[1, 3, 1_000]);
    for record in records(&trial.input) {
        if random.once_in(60) {
            put_record(&mut input, kind::HAND_IN, &handed_in(random, &world));
        }
        if random.once_in(disturbed_once_in) {
            put_record(&mut input, kind::DISTURB, &random.octets::<8>());
        }
        if random.once_in(strange_once_in) && record[0] < kind::STATE && record.len() < LONGEST {
            let octets = [&random.octets::<8>()[..], &record[..1], &record[3..]].concat();
            put_record(&mut input, kind::STRANGE, &octets);
        }
        input.extend(record);
    }
    trial.input = input;
    trial
}

fn handed_in(random: &mut Random, world: &World) -> Vec<u8> {
    // the run's own handles first, then enough for all places
    let handles: Vec<u16> = world.handles.iter().copied().chain(1..=20).collect();
    made::put(random.octets(), &handles, &world.addresses)
}
