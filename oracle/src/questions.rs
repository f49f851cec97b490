//! Document 01's questions, read plainly and decided on what the port is handed.
use crate::call::Call;
use crate::port::raw::{Profile, State, Waiting};

/// The most rows, the octets that every event buffer has to have, and the places for links.
pub const MOST_ROWS: usize = 256;
pub const EVENT_ROOM: usize = 71;
pub const LINKS: usize = 16;

/// The slices of the rows: opcodes, answers and bit numbers.
#[derive(Clone, Copy)]
pub struct Rows<'a> {
    pub opcodes: &'a [u16],
    pub answers: &'a [u8],
    pub bits: &'a [u16],
}

/// What a call is handed: pool and room are the octets of the pool and of the buffer for events or packets.
#[derive(Clone, Copy)]
pub struct Handed<'a> {
    pub profile: &'a Profile,
    pub rows: Rows<'a>,
    pub state: &'a State,
    pub pool: usize,
    pub room: usize,
}

/// The questions about the things that a call takes, in order.
pub fn asked(call: &Call) -> &'static [u8] {
    match call {
        Call::Packet(_) => &[1, 2, 3, 4, 5],
        Call::Take { .. } => &[1, 3, 4, 7],
        Call::Open { .. } => &[1, 3, 6],
        Call::Drop { .. } => &[1, 3],
        Call::Accept { .. } => &[1, 3, 5, 6],
        _ => &[1, 3, 5],
    }
}

/// The number of the first of these questions with a "no", 0 where there is none.
pub fn first_no<'a>(call: &Call, handed: &Handed, mut questions: impl Iterator<Item = &'a u8>) -> u8 {
    questions.find(|number| !answer(**number, call, handed)).copied().unwrap_or(0)
}

fn answer(number: u8, call: &Call, Handed { profile, rows, state, pool, room }: &Handed) -> bool {
    match (number, call) {
        (1, _) => within_limits(profile),
        (2, _) => rows_fit(rows),
        (3, _) => holds_together(state, profile),
        (4, _) => *pool >= pool_octets(profile),
        (5, _) => *room >= EVENT_ROOM,
        (6, Call::Open { handle, .. } | Call::Accept { handle, .. }) => {
            let links = &state.links;
            links.count < LINKS || links.connections.iter().any(|link| link.handle == *handle)
        }
        (7, Call::Take { handle, most }) => {
            let waiting = waiting(state).iter().filter(|packet| packet.handle == *handle);
            waiting.take(*most).map(|packet| usize::from(packet.len)).sum::<usize>() <= *room
        }
        _ => true,
    }
}

/// Question 1.
pub fn within_limits(profile: &Profile) -> bool {
    (27..=1_019).contains(&profile.acl_len)
        && (1..=32).contains(&profile.acl_count)
        && profile.accept_list_size <= 32
        && profile.resolving_list_size <= 16
}

/// Question 2.
pub fn rows_fit(Rows { opcodes, answers, bits }: &Rows) -> bool {
    let count = opcodes.len();
    answers.len() == count && bits.len() == count && count <= MOST_ROWS && answers.iter().all(|answer| *answer <= 2)
}

/// The octets of a place of the pool.
pub fn place_octets(profile: &Profile) -> usize {
    usize::from(profile.acl_len) + 5
}

/// What question 4 asks for.
pub fn pool_octets(profile: &Profile) -> usize {
    usize::from(profile.acl_count) * place_octets(profile)
}

/// Question 3.
pub fn holds_together(state: &State, profile: &Profile) -> bool {
    let State { settings, advertising, accept_list, resolving_list, links, recent, .. } = state;
    let counts = accept_list.count <= usize::from(profile.accept_list_size).min(32)
        && resolving_list.count <= usize::from(profile.resolving_list_size).min(16)
        && links.count <= LINKS
        && links.waiting_count <= 32
        && recent.count <= 32;
    counts
        && settings.advertising_family <= 2
        && settings.test <= 2
        && advertising.data_len <= 31
        && advertising.scan_response_len <= 31
        && links.waiting_count + usize::from(links.in_flight) <= usize::from(profile.acl_count)
        && differ(&links.connections[..links.count], |link| link.handle)
        && differ(accept_list.octets.as_chunks::<7>().0.split_at(accept_list.count).0, |entry| *entry)
        && differ(resolving_list.octets.as_chunks::<8>().0.split_at(resolving_list.count).0, identity)
        && packets_hold(state, profile)
}

/// Each waiting packet alone owns a place, fits it, and waits in a link.
fn packets_hold(state: &State, profile: &Profile) -> bool {
    let links = &state.links.connections[..state.links.count];
    let holds = |packet: &Waiting| {
        packet.place < profile.acl_count
            && (5..=place_octets(profile)).contains(&usize::from(packet.len))
            && links.iter().any(|link| link.handle == packet.handle)
    };
    waiting(state).iter().all(holds) && differ(waiting(state), |packet| packet.place)
}

/// The packets that wait, of a state whose count fits.
pub fn waiting(state: &State) -> &[Waiting] {
    &state.links.waiting[..state.links.waiting_count]
}

/// An identity is a type and an address; the privacy mode is no part of it.
fn identity(entry: &[u8; 8]) -> [u8; 7] {
    std::array::from_fn(|at| entry[at])
}

fn differ<T, K: PartialEq>(list: &[T], key: impl Fn(&T) -> K) -> bool {
    (0..list.len()).all(|at| list[..at].iter().all(|earlier| key(earlier) != key(&list[at])))
}
