//! The smallest case found that still differs: fewer records, shorter packets, fewer rows, plainer octets.
use crate::compare::Case;
use crate::generate::plain_setup;
use crate::setup::{HEAD, ROW};
use crate::trial::{kind, records, Trial};

/// Whether a case still differs.
type Differs<'a> = dyn FnMut(&Case) -> bool + 'a;

/// Each round can make room for the next; a few are enough in practice.
const ROUNDS: usize = 6;

pub fn shrink(case: Case, differs: &mut Differs) -> Case {
    let mut smallest = case;
    for _ in 0..ROUNDS {
        let before = smallest.clone();
        smallest = match smallest {
            Case::Trial(trial) => Case::Trial(shrink_trial(trial, differs)),
            Case::Lines(input, room) => Case::Lines(shrink_lines(input, room, differs), room),
            Case::Function(at, octets) => {
                Case::Function(at, shrink_octets(octets, &mut |octets| differs(&Case::Function(at, octets.to_vec()))))
            }
        };
        if smallest == before {
            break;
        }
    }
    smallest
}

fn shrink_trial(trial: Trial, differs: &mut Differs) -> Trial {
    let trial = fewer_records(trial, differs);
    let trial = shorter_packets(trial, differs);
    let trial = plainer_octets(trial, differs);
    let trial = fewer_rows(trial, differs);
    let trial = plainer_setup(trial, differs);
    plainer_buffers(trial, differs)
}

/// As few items as can be found by leaving out half of them, a quarter and so on.
fn fewer<T: Clone>(mut items: Vec<T>, enough: &mut dyn FnMut(&[T]) -> bool) -> Vec<T> {
    let mut step = items.len().div_ceil(2);
    while step > 0 {
        let mut at = 0;
        while at < items.len() {
            let mut less = items.clone();
            less.drain(at..items.len().min(at + step));
            if enough(&less) {
                items = less;
            } else {
                at += step;
            }
        }
        step /= 2;
    }
    items
}

fn with_records(trial: &Trial, records: &[Vec<u8>]) -> Trial {
    Trial { input: records.concat(), ..trial.clone() }
}

/// First what follows the difference goes: answers depend on earlier records alone. Then any record.
fn fewer_records(trial: Trial, differs: &mut Differs) -> Trial {
    let all = records(&trial.input);
    let (mut low, mut high) = (0, all.len());
    while low < high {
        let middle = (low + high) / 2;
        if differs(&Case::Trial(with_records(&trial, &all[..middle]))) {
            high = middle;
        } else {
            low = middle + 1;
        }
    }
    let kept = fewer(all[..low].to_vec(), &mut |less| differs(&Case::Trial(with_records(&trial, less))));
    with_records(&trial, &kept)
}

/// One edit after the other to one record after the other, kept where the runs still differ.
fn edit_records(trial: Trial, differs: &mut Differs, edits: fn(&[u8]) -> Vec<Vec<u8>>) -> Trial {
    let mut list = records(&trial.input);
    for at in 0..list.len() {
        'again: loop {
            for edited in edits(&list[at]) {
                let mut other = list.clone();
                other[at] = edited;
                if differs(&Case::Trial(with_records(&trial, &other))) {
                    list = other;
                    continue 'again;
                }
            }
            break;
        }
    }
    with_records(&trial, &list)
}

fn shorter_packets(trial: Trial, differs: &mut Differs) -> Trial {
    edit_records(trial, differs, cuts)
}

/// A packet without its last half or its last octet, with its own length field lowered and without.
fn cuts(record: &[u8]) -> Vec<Vec<u8>> {
    let length = record.len().saturating_sub(3);
    if record[0] != kind::PACKET || length == 0 {
        return Vec::new();
    }
    let mut cuts = Vec::new();
    for less in [length / 2, 1] {
        let kept = &record[3..record.len() - less];
        cuts.push(packet_record(kept));
        let mut fitted = kept.to_vec();
        match kept.first() {
            Some(1) if kept.len() >= 4 => fitted[3] = fitted[3].wrapping_sub(less as u8),
            Some(2) if kept.len() >= 5 => {
                let said = u16::from_le_bytes([fitted[3], fitted[4]]).wrapping_sub(less as u16);
                fitted[3..5].copy_from_slice(&said.to_le_bytes());
            }
            _ => continue,
        }
        cuts.push(packet_record(&fitted));
    }
    cuts.retain(|cut| cut.len() < record.len());
    cuts
}

fn packet_record(packet: &[u8]) -> Vec<u8> {
    let mut record = Vec::new();
    crate::trial::put_record(&mut record, kind::PACKET, packet);
    record
}

fn plainer_octets(trial: Trial, differs: &mut Differs) -> Trial {
    edit_records(trial, differs, zeros)
}

/// The record with one octet set to zero.
fn zeros(record: &[u8]) -> Vec<Vec<u8>> {
    let places = (3..record.len()).filter(|at| record[*at] != 0);
    places
        .map(|at| {
            let mut other = record.to_vec();
            other[at] = 0;
            other
        })
        .collect()
}

fn fewer_rows(trial: Trial, differs: &mut Differs) -> Trial {
    if trial.setup.len() < HEAD {
        return trial;
    }
    let (head, rows) = trial.setup.split_at(HEAD);
    let with = |rows: &[&[u8]]| Trial { setup: [head, &rows.concat()].concat(), ..trial.clone() };
    let rows: Vec<&[u8]> = rows.chunks(ROW).collect();
    let kept = fewer(rows, &mut |less| differs(&Case::Trial(with(less))));
    with(&kept)
}

/// The octets of the bench's profile, where they do as well.
fn plainer_setup(mut trial: Trial, differs: &mut Differs) -> Trial {
    let plain = plain_setup();
    let places = trial.setup.len().min(HEAD);
    for (at, octet) in plain.iter().enumerate().take(places) {
        let mut other = trial.clone();
        other.setup[at] = *octet;
        if differs(&Case::Trial(other.clone())) {
            trial = other;
        }
    }
    trial
}

fn plainer_buffers(trial: Trial, differs: &mut Differs) -> Trial {
    let edits: [fn(&mut Trial); 4] = [|t| t.events = 71, |t| t.packets = 32_768, |t| t.pool = 32_768, |t| t.room = 1 << 20];
    let mut trial = trial;
    for edit in edits {
        let mut other = trial.clone();
        edit(&mut other);
        if differs(&Case::Trial(other.clone())) {
            trial = other;
        }
    }
    trial
}

fn shrink_lines(input: Vec<u8>, room: usize, differs: &mut Differs) -> Vec<u8> {
    let lines: Vec<Vec<u8>> = input.split_inclusive(|x| *x == b'\n').map(<[u8]>::to_vec).collect();
    let kept = fewer(lines, &mut |less| differs(&Case::Lines(less.concat(), room))).concat();
    fewer(kept, &mut |less| differs(&Case::Lines(less.to_vec(), room)))
}

/// Fewer octets, then zeros.
fn shrink_octets(octets: Vec<u8>, differs: &mut dyn FnMut(&[u8]) -> bool) -> Vec<u8> {
    let mut octets = fewer(octets, differs);
    for at in 0..octets.len() {
        let before = std::mem::take(&mut octets[at]);
        if !differs(&octets) {
            octets[at] = before;
        }
    }
    octets
}

#[cfg(test)]
mod tests {
    use super::*;
    use crate::compare::Sides;
    use crate::generate::{strange, trial, Size};
    use crate::hci;
    use crate::port::plant::Plant;
    use crate::random::Random;

    const SIZE: Size = Size { records: 200, long_packets: true, shown_once_in: &[1] };

    /// A planted difference is found in one of some cases; the smallest that still differs.
    fn smallest(plant: Plant, mut cases: impl Iterator<Item = Case>) -> Case {
        let mut sides = Sides::default();
        sides.port.plant = Some(plant);
        let case = cases.find(|case| sides.differs(case)).expect("one of so many cases differs");
        shrink(case, &mut |case| sides.differs(case))
    }

    /// A difference is shrunk to so many records.
    fn found(plant: Plant, most: usize, made: fn(&mut Random, Size) -> Trial) {
        let cases = (0..5_000).map(|run| Case::Trial(made(&mut Random::of_run(1, run), SIZE)));
        let Case::Trial(smallest) = smallest(plant, cases) else { panic!("a trial stays one") };
        assert!(records(&smallest.input).len() <= most, "{plant:?}: {smallest:?}");
    }

    #[test]
    fn in_calls() {
        found(Plant::Mask, 2, trial);
        found(Plant::Bit, 3, trial);
        found(Plant::Free, 1, trial);
        found(Plant::Pool, 1, trial);
        found(Plant::Behind, 2, trial);
        found(Plant::Place, 4, trial);
    }

    #[test]
    fn in_strange_calls() {
        found(Plant::Past, 3, strange);
        found(Plant::Together, 3, strange);
        found(Plant::Wrap, 4, strange);
    }

    #[test]
    fn in_functions() {
        for plant in [Plant::Acl, Plant::Writer, Plant::Stream, Plant::Bitmap, Plant::Aes] {
            let cases = hci::made(1, 20_000).map(|(at, octets)| Case::Function(at, octets));
            let Case::Function(_, octets) = smallest(plant, cases) else { panic!("a function stays one") };
            assert!(octets.len() <= 32, "{plant:?}: {octets:?}");
        }
    }
}
