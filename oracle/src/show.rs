//! A difference for a reader: setup, records in hex, and both answers to each.
use crate::compare::{Case, Difference};
use crate::octets::hex;
use crate::port::made;
use crate::setup::{self, HEAD, ROW};
use crate::trial::{answers, kind, records, Trial, KINDS};

pub fn show(case: &Case, difference: &Difference) {
    if let Some(words) = &difference.words {
        println!("{words}");
    }
    let port = &difference.port;
    match case {
        Case::Function(..) => {}
        Case::Trial(trial) => show_trial(trial, &difference.source, port),
        Case::Lines(input, room) => {
            println!("bench lines, room {room}:\n{}", String::from_utf8_lossy(input).escape_debug());
            println!("source: {}", String::from_utf8_lossy(&difference.source).escape_debug());
            println!("port:   {}", String::from_utf8_lossy(port).escape_debug());
        }
    }
}

fn show_trial(trial: &Trial, source: &[u8], port: &[u8]) {
    let (head, rows) = trial.setup.split_at(trial.setup.len().min(HEAD));
    println!("setup: {}", hex(head));
    for row in rows.chunks(ROW) {
        println!("  row: {}", hex(row));
    }
    let Trial { pool, events, packets, room, .. } = trial;
    println!("octets of pool {pool}, for events {events}, for packets {packets}, for answers {room}");
    let records = records(&trial.input);
    let sources = answers(&records, source);
    let ports = answers(&records, port);
    for (at, record) in records.iter().enumerate() {
        let name = KINDS.get(usize::from(record[0])).map_or("no record", |(name, _)| name);
        let (ours, theirs) = (answer(&sources, at), answer(&ports, at));
        println!("record: {} {name} {}", hex(&record[..record.len().min(3)]), hex(record.get(3..).unwrap_or(&[])));
        if record[0] == kind::HAND_IN {
            show_handed_in(trial, record);
        }
        if ours == theirs {
            println!("  both:   {ours}");
        } else {
            println!("  source: {ours}\n  port:   {theirs}\n  differ: {}", marks(&ours, &theirs));
        }
    }
    if sources.len() > records.len() || ports.len() > records.len() {
        println!("behind the last: source {}, port {}", answer(&sources, records.len()), answer(&ports, records.len()));
    }
}

/// The state that a record hands in, as the source has it.
fn show_handed_in(trial: &Trial, record: &[u8]) {
    let setup = setup::read(&trial.setup);
    let state = setup.and_then(|setup| made::controller(record.get(3..)?, &setup.profile, trial.pool));
    println!("  {state:?}");
}

fn answer(answers: &[&[u8]], at: usize) -> String {
    answers.get(at).map_or("none".to_string(), |octets| hex(octets))
}

/// A mark below each digit that differs.
fn marks(ours: &str, theirs: &str) -> String {
    let longest = ours.len().max(theirs.len());
    let same = |at| ours.as_bytes().get(at) == theirs.as_bytes().get(at);
    (0..longest).map(|at| if same(at) { ' ' } else { '^' }).collect()
}
