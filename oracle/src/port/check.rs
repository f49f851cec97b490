//! What has to hold of every answer of the port, whatever the source says.
use super::raw::{Profile, State, Waiting};
use super::Answered;
use crate::call::Call;
use crate::questions::{holds_together, place_octets, waiting};

/// A state with its pool.
type Held<'a> = (&'a State, &'a [u8]);

/// A refused call gives the state back as it was, leaves the pool, and says that it wrote and took nothing.
pub fn refused(state: &State, pool: &[u8], answered: &Answered, pool_after: &[u8]) -> Result<(), String> {
    let number = answered.number;
    if answered.state != *state {
        return Err(format!("refused with {number}, and the state changed"));
    }
    if pool_after != pool {
        return Err(format!("refused with {number}, and the pool changed"));
    }
    if answered.written != 0 || answered.taken != 0 {
        return Err(format!("refused with {number}, and octets or packets are said to be given"));
    }
    Ok(())
}

/// An accepted call gives a state that holds together. A packet that it queued lies in a place that was free, no other octet of
/// the pool has changed, and each packet that waits still has its octets.
pub fn accepted(call: &Call, profile: &Profile, before: Held, after: Held) -> Result<(), String> {
    if !holds_together(after.0, profile) {
        return Err("the state it gives doesn't hold together".to_string());
    }
    let size = place_octets(profile);
    let queued = queued(call, before.0, after.0);
    match queued {
        Some((packet, octets)) => check_stored(packet, octets, size, before, after)?,
        None if before.1 != after.1 => return Err("nothing was queued, and the pool changed".to_string()),
        None => {}
    }
    if !still_wait(size, before, after, usize::from(queued.is_some())) {
        return Err("a packet that waits is no longer at its place".to_string());
    }
    check_flags(before.0, after.0)
}

/// The packet that a call has queued, with its octets: the last one, where there is one more than before.
fn queued<'a>(call: &Call<'a>, before: &State, after: &'a State) -> Option<(&'a Waiting, &'a [u8])> {
    match call {
        Call::Packet(octets @ [2, ..]) if after.links.waiting_count == before.links.waiting_count + 1 => {
            waiting(after).last().map(|packet| (packet, *octets))
        }
        _ => None,
    }
}

fn check_stored(packet: &Waiting, octets: &[u8], size: usize, before: Held, after: Held) -> Result<(), String> {
    if waiting(before.0).iter().any(|earlier| earlier.place == packet.place) {
        return Err(format!("place {} was owned by another packet", packet.place));
    }
    let (start, length) = (size * usize::from(packet.place), usize::from(packet.len));
    if after.1.get(start..start + length) != octets.get(..length) {
        return Err("the queued packet's octets are not at its place".to_string());
    }
    let end = start + length;
    if before.1[..start] != after.1[..start] || before.1[end..] != after.1[end..] {
        return Err("octets of the pool beside the queued packet changed".to_string());
    }
    Ok(())
}

/// The packets that waited before and still do, those queued apart: each with its link and octets, in the same order.
fn still_wait(size: usize, before: Held, after: Held, queued: usize) -> bool {
    let waiting_after = waiting(after.0);
    let mut earlier = waiting(before.0).iter();
    waiting_after[..waiting_after.len() - queued].iter().all(|packet| {
        let octets = octets_of(packet, size, after.1);
        earlier.any(|other| other.handle == packet.handle && octets_of(other, size, before.1) == octets)
    })
}

/// None where the pool has no such place, which question 4 is not asked about by all calls.
pub fn octets_of<'a>(packet: &Waiting, size: usize, pool: &'a [u8]) -> Option<&'a [u8]> {
    let start = size * usize::from(packet.place);
    pool.get(start..start + usize::from(packet.len))
}

/// A flag that a call has set is 0 or 1; others keep their octet.
fn check_flags(before: &State, after: &State) -> Result<(), String> {
    let was = |handle| before.links.connections[..before.links.count].iter().find(|link| link.handle == handle);
    let links = after.links.connections[..after.links.count].iter();
    let of_links = links.map(|link| (was(link.handle).map_or(0, |link| link.ltk_requested), link.ltk_requested));
    let of_state = [
        (before.settings.address_resolution, after.settings.address_resolution),
        (before.advertising.enabled, after.advertising.enabled),
        (before.scanning.initiating, after.scanning.initiating),
    ];
    match of_links.chain(of_state).find(|(was, is)| *is > 1 && was != is) {
        Some((was, is)) => Err(format!("a flag was {was} and is {is}")),
        None => Ok(()),
    }
}
