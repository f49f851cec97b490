//! The calls of a controller: their arguments besides profile, rows, state, pool and buffers, as records have them.
use crate::octets::{array_at, word_at};
use crate::trial::kind;

/// Interval, latency and timeout are the values of a link.
#[derive(Clone, Copy, Debug)]
pub enum Call<'a> {
    Packet(&'a [u8]),
    Take { handle: u16, most: usize },
    Open { handle: u16, values: [u16; 3] },
    Completed { handle: u16, count: u16 },
    Drop { count: u16 },
    Accept { handle: u16, peer_type: u8, peer: [u8; 6], values: [u16; 3], accuracy: u8 },
    Update { handle: u16, values: [u16; 3] },
    KeyRequest { handle: u16, random: [u8; 8], diversifier: u16 },
    CompleteDisconnect { handle: u16 },
    RemoteDisconnect { handle: u16, reason: u8 },
    Timeout,
}

impl Call<'_> {
    /// The call of a record that has as many octets as its kind wants; None for kinds that are no calls.
    pub fn read(kind: u8, p: &[u8]) -> Option<Call<'_>> {
        let handle = if p.len() >= 2 { word_at(p, 0) } else { 0 };
        let values = |at: usize| [0, 2, 4].map(|more| word_at(p, at + more));
        Some(match kind {
            kind::PACKET => Call::Packet(p),
            kind::TAKE => Call::Take { handle, most: most(word_at(p, 2)) },
            kind::OPEN => Call::Open { handle, values: values(2) },
            kind::COMPLETED => Call::Completed { handle, count: word_at(p, 2) },
            kind::DROP => Call::Drop { count: handle },
            kind::ACCEPT => Call::Accept { handle, peer_type: p[2], peer: array_at(p, 3), values: values(9), accuracy: p[15] },
            kind::UPDATE => Call::Update { handle, values: values(2) },
            kind::KEY_REQUEST => Call::KeyRequest { handle, random: array_at(p, 2), diversifier: word_at(p, 10) },
            kind::COMPLETE_DISCONNECT => Call::CompleteDisconnect { handle },
            kind::REMOTE_DISCONNECT => Call::RemoteDisconnect { handle, reason: p[2] },
            kind::TIMEOUT => Call::Timeout,
            _ => return None,
        })
    }
}

/// The largest word stands for the largest number: more packets than that never wait.
fn most(word: u16) -> usize {
    if word == u16::MAX {
        usize::MAX
    } else {
        usize::from(word)
    }
}
