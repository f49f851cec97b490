//! The calls of a unit: its state, packets of its host, packets for the air, what the air side tells, and what may be
//! asked. Each comment names the questions that a call goes through, in order. For firmware.
//!
//! Why each block is safe: a slice or an array behind a reference is a pointer that is not null, aligned, and valid for
//! its length; a `&mut` overlaps nothing else that is handed in; and any octets are a state and a profile.
use crate::raw::{self, *};
use crate::Rows;

/// The state that a unit starts with.
#[inline]
pub fn start() -> State {
    // SAFETY: nothing is handed in.
    unsafe { raw::wegrulsta_start() }
}

/// What a unit hands over with each packet of its host.
#[derive(Clone, Copy, Debug)]
pub struct Given<'a> {
    /// The public address, low octet first.
    pub address: &'a [u8; 6],
    /// What LE Rand answers with.
    pub random: u64,
    /// One whole packet of any kind.
    pub packet: &'a [u8],
}

/// A packet of the host. Questions 1, 2, 3, 4, 5.
#[inline]
pub fn packet(profile: &Profile, rows: Rows, state: &State, pool: &mut [u8], given: Given, out: &mut [u8]) -> Told {
    // SAFETY: as at the top.
    unsafe {
        raw::wegrulsta_packet(
            *profile,
            rows.opcodes.as_ptr(),
            rows.opcodes.len(),
            rows.answers.as_ptr(),
            rows.answers.len(),
            rows.bits.as_ptr(),
            rows.bits.len(),
            *state,
            pool.as_mut_ptr(),
            pool.len(),
            given.address,
            given.random,
            given.packet.as_ptr(),
            given.packet.len(),
            out.as_mut_ptr(),
            out.len(),
        )
    }
}

/// Takes up to `max` packets of a link, oldest first, end to end to the front of `out`. Questions 1, 3, 4, 7.
#[inline]
pub fn take(profile: &Profile, state: &State, pool: &[u8], handle: u16, max: usize, out: &mut [u8]) -> Took {
    // SAFETY: as at the top.
    unsafe { raw::wegrulsta_take(*profile, *state, pool.as_ptr(), pool.len(), handle, max, out.as_mut_ptr(), out.len()) }
}

/// What holds of a link: `interval` in 1.25 ms, `timeout` in 10 ms.
#[derive(Clone, Copy, Debug, PartialEq, Eq)]
pub struct Timing {
    pub interval: u16,
    pub latency: u16,
    pub timeout: u16,
}

/// The central of a link.
#[derive(Clone, Copy, Debug, PartialEq, Eq)]
pub struct Peer {
    /// 0 is a public address, any other octet a random one.
    pub address_type: u8,
    /// Low octet first.
    pub address: [u8; 6],
    pub clock_accuracy: u8,
}

/// A link opened, and the host is told nothing of it. Questions 1, 3, 6.
#[inline]
pub fn open(profile: &Profile, state: &State, handle: u16, timing: Timing) -> Changed {
    // SAFETY: no pointer is handed in.
    unsafe { raw::wegrulsta_open(*profile, *state, handle, timing.interval, timing.latency, timing.timeout) }
}

/// A central's request to connect was accepted: advertising ends, a link opens. Questions 1, 3, 5, 6.
#[inline]
pub fn accept(profile: &Profile, state: &State, handle: u16, peer: &Peer, timing: Timing, out: &mut [u8]) -> Told {
    // SAFETY: as at the top.
    unsafe {
        raw::wegrulsta_accept(
            *profile,
            *state,
            handle,
            peer.address_type,
            &peer.address,
            timing.interval,
            timing.latency,
            timing.timeout,
            peer.clock_accuracy,
            out.as_mut_ptr(),
            out.len(),
        )
    }
}

/// The central applied a connection update. Questions 1, 3, 5.
#[inline]
pub fn update(profile: &Profile, state: &State, handle: u16, timing: Timing, out: &mut [u8]) -> Told {
    // SAFETY: as at the top.
    unsafe {
        raw::wegrulsta_update(
            *profile,
            *state,
            handle,
            timing.interval,
            timing.latency,
            timing.timeout,
            out.as_mut_ptr(),
            out.len(),
        )
    }
}

/// A central starts encryption, and the host is asked for the key. Questions 1, 3, 5.
#[inline]
pub fn request_key(profile: &Profile, state: &State, handle: u16, random: &[u8; 8], ediv: u16, out: &mut [u8]) -> Told {
    // SAFETY: as at the top.
    unsafe { raw::wegrulsta_request_key(*profile, *state, handle, random, ediv, out.as_mut_ptr(), out.len()) }
}

/// So many packets of a link that were taken went out. Questions 1, 3, 5.
#[inline]
pub fn completed(profile: &Profile, state: &State, handle: u16, count: u16, out: &mut [u8]) -> Told {
    // SAFETY: as at the top.
    unsafe { raw::wegrulsta_completed(*profile, *state, handle, count, out.as_mut_ptr(), out.len()) }
}

/// So many packets that were taken are gone with their link: directly after the call that ended it. Questions 1, 3.
#[inline]
pub fn drop_in_flight(profile: &Profile, state: &State, count: u16) -> Changed {
    // SAFETY: no pointer is handed in.
    unsafe { raw::wegrulsta_drop(*profile, *state, count) }
}

/// The peer ended the link, or it was lost, for this reason. Questions 1, 3, 5.
#[inline]
pub fn remote_disconnect(profile: &Profile, state: &State, handle: u16, reason: u8, out: &mut [u8]) -> Told {
    // SAFETY: as at the top.
    unsafe { raw::wegrulsta_remote_disconnect(*profile, *state, handle, reason, out.as_mut_ptr(), out.len()) }
}

/// The peer acknowledged the host's Disconnect. Questions 1, 3, 5.
#[inline]
pub fn complete_disconnect(profile: &Profile, state: &State, handle: u16, out: &mut [u8]) -> Told {
    // SAFETY: as at the top.
    unsafe { raw::wegrulsta_complete_disconnect(*profile, *state, handle, out.as_mut_ptr(), out.len()) }
}

/// High duty cycle directed advertising ended unanswered. Questions 1, 3, 5.
#[inline]
pub fn advertising_timeout(profile: &Profile, state: &State, out: &mut [u8]) -> Told {
    // SAFETY: as at the top.
    unsafe { raw::wegrulsta_advertising_timeout(*profile, *state, out.as_mut_ptr(), out.len()) }
}

/// Whether a link has this handle. Questions 1, 3.
#[inline]
pub fn has_connection(profile: &Profile, state: &State, handle: u16) -> Connected {
    // SAFETY: no pointer is handed in.
    unsafe { raw::wegrulsta_has_connection(*profile, *state, handle) }
}

/// The reason of the host's Disconnect of this link, while the peer has not acknowledged it. Questions 1, 3.
#[inline]
pub fn terminating(profile: &Profile, state: &State, handle: u16) -> Terminating {
    // SAFETY: no pointer is handed in.
    unsafe { raw::wegrulsta_terminating(*profile, *state, handle) }
}

/// The lowest handle from 1 that no link has. Questions 1, 3.
#[inline]
pub fn free_handle(profile: &Profile, state: &State) -> FreeHandle {
    // SAFETY: no pointer is handed in.
    unsafe { raw::wegrulsta_free_handle(*profile, *state) }
}

/// How many buffers are in use: packets that wait, and those in flight. Questions 1, 3.
#[inline]
pub fn buffers_in_use(profile: &Profile, state: &State) -> InUse {
    // SAFETY: no pointer is handed in.
    unsafe { raw::wegrulsta_buffers_in_use(*profile, *state) }
}

/// The Supported_Commands bit map of the rows that are not unknown; for the profile. Question 2.
#[inline]
pub fn row_bitmap(rows: Rows) -> Bitmap {
    // SAFETY: as at the top.
    unsafe {
        raw::wegrulsta_row_bitmap(
            rows.opcodes.as_ptr(),
            rows.opcodes.len(),
            rows.answers.as_ptr(),
            rows.answers.len(),
            rows.bits.as_ptr(),
            rows.bits.len(),
        )
    }
}
