//! A run of calls as octets: what both sides are handed. A record is a kind, how many octets follow (two octets, low one first),
//! and those, which `call.rs` reads. `crates/replay/src` reads the same forms, all but the last three kinds.
use crate::octets::{put_word, word_at};

/// The kinds of records.
pub mod kind {
    pub const PACKET: u8 = 0;
    pub const TAKE: u8 = 1;
    pub const OPEN: u8 = 2;
    pub const COMPLETED: u8 = 3;
    pub const DROP: u8 = 4;
    pub const ACCEPT: u8 = 5;
    pub const UPDATE: u8 = 6;
    pub const KEY_REQUEST: u8 = 7;
    pub const COMPLETE_DISCONNECT: u8 = 8;
    pub const REMOTE_DISCONNECT: u8 = 9;
    pub const TIMEOUT: u8 = 10;
    pub const STATE: u8 = 11;
    pub const QUERIES: u8 = 12;
    /// What no call may show is changed in the port's state: `port/disturb.rs`.
    pub const DISTURB: u8 = 13;
    /// Both sides go on from a state that was made, not reached: `port/made.rs`.
    pub const HAND_IN: u8 = 14;
    /// A call with something that a question may ask for changed: `port/strange.rs`.
    pub const STRANGE: u8 = 15;
}

/// The calls by their names in the source, and how many octets follow in a record; some have any number.
pub const KINDS: [(&str, usize); 16] = [
    ("on_packet", ANY),
    ("take_transmit", 4),
    ("open_connection", 8),
    ("completed", 4),
    ("drop_in_flight", 2),
    ("accept_connection", 16),
    ("peer_update", 8),
    ("request_ltk", 12),
    ("complete_disconnect", 2),
    ("remote_disconnect", 3),
    ("advertising_timeout", 0),
    ("whole state", 0),
    ("queries", 2),
    ("states disturbed", SEED),
    ("states handed in", ANY),
    ("strange calls", ANY),
];

const ANY: usize = usize::MAX;
/// The octets of a number that decides what is changed or made.
pub const SEED: usize = 8;

/// The octets of the queries' answer: whether a link has the handle, whether a Disconnect waits and its reason, the lowest free
/// handle, and how many buffers are in use. Above the first octet's four low bits stands the number of a refusal.
pub const FOUND: usize = 7;

/// A run ends where less than this is left for its answers: the most that one record can give.
pub const ROOM: usize = 40_960;

#[derive(Clone, Debug, PartialEq, Eq)]
pub struct Trial {
    pub setup: Vec<u8>,
    /// Octets of pool, of event buffer, of buffer for taken packets, and of room for the answers.
    pub pool: usize,
    pub events: usize,
    pub packets: usize,
    pub room: usize,
    /// Records end to end.
    pub input: Vec<u8>,
}

/// Appends a record.
pub fn put_record(input: &mut Vec<u8>, kind: u8, octets: &[u8]) {
    input.push(kind);
    put_word(input, octets.len() as u16);
    input.extend_from_slice(octets);
}

/// The octets of the record at the front, 0 where it isn't whole.
pub fn record_length(input: &[u8]) -> usize {
    if input.len() < 3 {
        return 0;
    }
    let length = 3 + usize::from(word_at(input, 1));
    if length <= input.len() {
        length
    } else {
        0
    }
}

/// Whether a record of this kind, with so many octets behind its length, asks for something.
pub fn is_known(kind: u8, octets: usize) -> bool {
    KINDS.get(usize::from(kind)).is_some_and(|(_, n)| *n == ANY || *n == octets)
}

/// How a side answers a record: its kind, its octets, and what it gives is appended.
pub type Answering<'a> = dyn FnMut(u8, &[u8], &mut Vec<u8>) -> Result<(), String> + 'a;

impl Trial {
    /// Has a side answer one record after the other, as long as they are whole and known, and there is room for an answer. The
    /// error is the side's.
    pub fn run(&self, out: &mut Vec<u8>, answer: &mut Answering) -> Result<(), String> {
        let mut rest = &self.input[..];
        while self.room.saturating_sub(out.len()) >= ROOM {
            let length = record_length(rest);
            if length == 0 || !is_known(rest[0], length - 3) {
                break;
            }
            answer(rest[0], &rest[3..length], out)?;
            rest = &rest[length..];
        }
        Ok(())
    }
}

/// The records of some octets; what is left at the end stands as a last one.
pub fn records(mut input: &[u8]) -> Vec<Vec<u8>> {
    let mut list = Vec::new();
    while !input.is_empty() {
        let (record, rest) = match record_length(input) {
            0 => (input, &input[input.len()..]),
            n => input.split_at(n),
        };
        list.push(record.to_vec());
        input = rest;
    }
    list
}

/// The answers of a run, one for each of its records as long as there are whole ones; what is left stands as a last one.
pub fn answers<'a>(records: &[Vec<u8>], mut octets: &'a [u8]) -> Vec<&'a [u8]> {
    let mut list = Vec::new();
    for record in records {
        let Some(length) = answer_length(record[0], octets) else { break };
        let (answer, rest) = octets.split_at(length.min(octets.len()));
        list.push(answer);
        octets = rest;
    }
    if !octets.is_empty() {
        list.push(octets);
    }
    list
}

/// The octets of the answer at the front to a record of this kind; None where they don't tell.
fn answer_length(kind: u8, octets: &[u8]) -> Option<usize> {
    let header = match kind {
        kind::DISTURB | kind::HAND_IN | kind::STRANGE => return Some(0),
        kind::QUERIES => return (!octets.is_empty()).then_some(FOUND),
        kind::STATE => 2,
        _ => 4,
    };
    (octets.len() >= header).then(|| header + usize::from(word_at(octets, header - 2)))
}
