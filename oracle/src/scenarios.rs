//! What the speed mode times: a turn of a few calls, repeated in a state that each turn leaves as it was.
use crate::ble::profile::ControllerRow;
use crate::call::Call;
use crate::generate::{command_packet, modelled_setup};
use crate::random::Random;
use crate::setup::bench_controller;
use crate::trial::{kind, put_record, Trial, ROOM};

const ACL_LEN: u16 = 27;
const ACL_COUNT: u8 = 32;
const ACCEPT_LIST: u8 = 32;
const RESOLVING_LIST: u8 = 16;
/// Octets of all places for packets.
const POOL: usize = ACL_COUNT as usize * (ACL_LEN as usize + 5);
const EVENTS: usize = 71;
/// No answer of these calls is longer.
const ANSWER: usize = 128;

/// A turn's name, the links that it needs, and its records by the handle of the last link.
type Turn = (&'static str, u16, fn(u16) -> Vec<Record>);
type Record = (u8, Vec<u8>);
/// A state's links, and what else is filled. The turn may need more links.
type State = (u16, Filled);

#[derive(Clone, Copy)]
enum Filled {
    Nothing,
    /// The accept list, but for one entry, and the resolving list.
    Lists,
    /// The lists, and the buffers but for one.
    All,
}

const TURNS: [Turn; 6] = [
    ("read-2002", 0, |_| vec![command(0x2002, &[])]),
    ("read-1001", 0, |_| vec![command(0x1001, &[])]),
    ("set-0c01", 0, |_| vec![command(0x0C01, &[0xFF; 8])]),
    ("acl", 1, |last| vec![data(last), (kind::TAKE, words(last, 1)), (kind::COMPLETED, words(last, 1))]),
    ("accept-list", 0, |_| vec![command(0x2011, &entry(0xEE)), command(0x2012, &entry(0xEE))]),
    ("rssi-1405", 1, |last| vec![command(0x1405, &last.to_le_bytes())]),
];

const STATES: [State; 5] =
    [(0, Filled::Nothing), (4, Filled::Nothing), (16, Filled::Nothing), (0, Filled::Lists), (16, Filled::All)];

pub struct Scenario {
    pub name: String,
    /// Calls that bring the state about.
    state: Vec<Record>,
    turn: Vec<Record>,
}

/// Every turn in every state.
pub fn all() -> Vec<Scenario> {
    TURNS.iter().flat_map(|turn| STATES.iter().map(|state| scenario(*turn, *state))).collect()
}

pub fn named(name: &str) -> Option<Scenario> {
    all().into_iter().find(|scenario| scenario.name == name)
}

fn scenario((turn, needed, records): Turn, (links, filled): State) -> Scenario {
    let links = links.max(needed);
    let name = match (filled, links) {
        (Filled::All, _) => format!("{turn}-full"),
        (Filled::Lists, _) => format!("{turn}-lists"),
        (Filled::Nothing, 0) => format!("{turn}-empty"),
        (Filled::Nothing, 1) => format!("{turn}-1-link"),
        (Filled::Nothing, _) => format!("{turn}-{links}-links"),
    };
    let mut calls: Vec<Record> = (1..=links).map(open).collect();
    match filled {
        Filled::Nothing => {}
        Filled::Lists => calls.extend(lists()),
        Filled::All => calls.extend(lists().chain(packets(links))),
    }
    Scenario { name, state: calls, turn: records(links) }
}

/// Fills the lists, but for one entry of the accept list, which a turn uses.
fn lists() -> impl Iterator<Item = Record> {
    let accepted = (1..ACCEPT_LIST).map(|n| command(0x2011, &entry(n)));
    let identities = (1..=RESOLVING_LIST).map(|n| command(0x2027, &[&entry(n)[..], &[0; 32]].concat()));
    accepted.chain(identities)
}

/// Fills the buffers, but for one, which a turn uses. The packets wait evenly in all links.
fn packets(links: u16) -> impl Iterator<Item = Record> {
    (1..u16::from(ACL_COUNT)).map(move |n| data(1 + n % links))
}

impl Scenario {
    pub fn calls_a_turn(&self) -> usize {
        self.turn.len()
    }

    pub fn state(&self) -> Vec<Call<'_>> {
        calls(&self.state)
    }

    pub fn turn(&self) -> Vec<Call<'_>> {
        calls(&self.turn)
    }

    /// So many turns after the state is brought about. There is room for all answers.
    pub fn trial(&self, turns: usize) -> Trial {
        let mut input = Vec::new();
        put(&mut input, &self.state);
        for _ in 0..turns {
            put(&mut input, &self.turn);
        }
        let room = ROOM + ANSWER * (self.state.len() + turns * self.turn.len());
        Trial { setup: modelled_setup(&controller()), pool: POOL, events: EVENTS, packets: POOL, room, input }
    }
}

fn calls(records: &[Record]) -> Vec<Call<'_>> {
    records.iter().map(|(kind, octets)| Call::read(*kind, octets).expect("the records are calls")).collect()
}

fn put(input: &mut Vec<u8>, records: &[Record]) {
    for (kind, octets) in records {
        put_record(input, *kind, octets);
    }
}

fn controller() -> ControllerRow {
    ControllerRow {
        acl_len: ACL_LEN,
        acl_count: ACL_COUNT,
        accept_list_size: ACCEPT_LIST,
        resolving_list_size: RESOLVING_LIST,
        ..bench_controller()
    }
}

fn command(opcode: u16, parameters: &[u8]) -> Record {
    (kind::PACKET, command_packet(opcode, parameters))
}

/// A data packet that fills its buffer.
fn data(handle: u16) -> Record {
    let mut packet = vec![0x02];
    packet.extend(words(handle, ACL_LEN));
    packet.resize(5 + usize::from(ACL_LEN), 0x77);
    (kind::PACKET, packet)
}

fn open(handle: u16) -> Record {
    (kind::OPEN, [words(handle, 24), words(0, 42)].concat())
}

fn words(first: u16, second: u16) -> Vec<u8> {
    [first.to_le_bytes(), second.to_le_bytes()].concat()
}

/// An address type and an address, which is random and static: another for each number, and as unlike as those of devices are.
/// With this seed one entry has the mark of another, as many as chance gives; docs/SPEED.md says what other seeds gave.
fn entry(number: u8) -> [u8; 7] {
    let [a, b, c, d, e, f] = Random::of_run(6, u64::from(number)).octets();
    [1, a, b, c, d, e, f | 0xC0]
}

#[cfg(test)]
mod tests {
    use super::*;
    use crate::counts::Counts;
    use crate::source;
    use crate::trial::{answers, records};

    fn answered(trial: &Trial) -> Vec<Vec<u8>> {
        let mut out = Vec::new();
        source::run(trial, &mut out, &mut Counts::off());
        let list = answers(&records(&trial.input), &out);
        list.iter().map(|answer| answer.to_vec()).collect()
    }

    /// Accepted, and a command's event has status 0.
    fn went_well(answer: &[u8]) -> bool {
        let is_command = answer.get(4..6) == Some(&[0x04, 0x0E]);
        answer[0] == 0 && (!is_command || answer[10] == 0)
    }

    #[test]
    fn turns_go_well_and_repeat() {
        for scenario in all() {
            let list = answered(&scenario.trial(100));
            assert_eq!(list.len(), scenario.state.len() + 100 * scenario.calls_a_turn(), "{}", scenario.name);
            assert!(list.iter().all(|answer| went_well(answer)), "{}", scenario.name);
            let turns: Vec<_> = list[scenario.state.len()..].chunks(scenario.calls_a_turn()).collect();
            assert!(turns.iter().all(|turn| *turn == turns[0]), "{}", scenario.name);
        }
    }

    #[test]
    fn data_is_taken() {
        let list = answered(&named("acl-full").expect("there is one").trial(1));
        let lengths: Vec<usize> = list[list.len() - 3..].iter().map(Vec::len).collect();
        assert_eq!(lengths, [4, 4 + 32, 4 + 8]);
    }

    /// Behind the full state: one entry and one packet more, then none.
    #[test]
    fn full_but_for_one() {
        let mut trial = named("set-0c01-full").expect("there is one").trial(0);
        let more = [command(0x2011, &entry(60)), command(0x2011, &entry(61)), command(0x2027, &[9; 39]), data(1), data(1)];
        put(&mut trial.input, &more);
        put(&mut trial.input, &(1..=16).map(|handle| (kind::TAKE, words(handle, 99))).collect::<Vec<_>>());
        let room = trial.room + 4_096;
        let list = answered(&Trial { room, ..trial });
        let (before, taken) = list.split_at(list.len() - 16);
        assert_eq!(taken.iter().map(|answer| answer[1]).sum::<u8>(), ACL_COUNT);
        let statuses: Vec<u8> = before[before.len() - 5..before.len() - 2].iter().map(|answer| answer[10]).collect();
        assert_eq!(statuses, [0x00, 0x07, 0x12]);
    }
}
