//! The structs that cross between Rust and the archives, as `wegrulsta.h` has them, and the numbers in them. For `raw.rs`,
//! which hands them on; `layout.rs` asserts how they lie in memory.

/// Which events the host has enabled.
#[repr(C)]
#[derive(Clone, Copy, Debug, PartialEq, Eq)]
pub struct Masks {
    pub event: u64,
    pub event_page2: u64,
    pub le_event: u64,
}

/// What the host has set that no link and no list holds.
#[repr(C)]
#[derive(Clone, Copy, Debug, PartialEq, Eq)]
pub struct Settings {
    pub random_address: [u8; 6],
    /// 0 is no, any other octet yes.
    pub address_resolution: u8,
    /// Seconds.
    pub rpa_timeout: u16,
    pub suggested_data_length: [u16; 2],
    pub default_phy: [u8; 3],
    pub host_flow_control: u8,
    /// 0 none, 1 legacy, 2 extended.
    pub advertising_family: u8,
    /// 0 none, 1 receiver, 2 transmitter.
    pub test: u8,
    /// In 0.1 dB.
    pub rf_path_compensation: [u16; 2],
}

/// Legacy advertising.
#[repr(C)]
#[derive(Clone, Copy, Debug, PartialEq, Eq)]
pub struct Advertising {
    pub params: [u8; 15],
    pub data: [u8; 31],
    pub data_len: u8,
    pub scan_response: [u8; 31],
    pub scan_response_len: u8,
    /// 0 is no, any other octet yes.
    pub enabled: u8,
}

/// Scanning and initiating.
#[repr(C)]
#[derive(Clone, Copy, Debug, PartialEq, Eq)]
pub struct Scanning {
    pub params: [u8; 7],
    pub enable: [u8; 2],
    /// 0 is no, any other octet yes.
    pub initiating: u8,
    pub initiator_filter: u8,
}

/// Entries of seven octets: address type and address.
#[repr(C)]
#[derive(Clone, Copy, Debug, PartialEq, Eq)]
pub struct AcceptList {
    pub octets: [u8; 224],
    pub count: usize,
}

/// Identities of eight octets: address type, address, privacy mode.
#[repr(C)]
#[derive(Clone, Copy, Debug, PartialEq, Eq)]
pub struct ResolvingList {
    pub octets: [u8; 128],
    pub count: usize,
}

/// A link.
#[repr(C)]
#[derive(Clone, Copy, Debug, PartialEq, Eq)]
pub struct Connection {
    pub handle: u16,
    /// In 1.25 ms.
    pub interval: u16,
    pub latency: u16,
    /// In 10 ms.
    pub timeout: u16,
    pub tx_octets: u16,
    pub tx_time: u16,
    /// In 10 ms.
    pub auth_payload_timeout: u16,
    pub tx_phy: u8,
    pub rx_phy: u8,
    /// The reason of a Disconnect that the peer has not acknowledged yet; 0 for none.
    pub terminating: u8,
    /// 0 is no, any other octet yes.
    pub ltk_requested: u8,
}

/// A waiting packet: its link, how many octets it has, and the place of the pool that holds them.
#[repr(C)]
#[derive(Clone, Copy, Debug, PartialEq, Eq)]
pub struct Waiting {
    pub handle: u16,
    pub len: u16,
    pub place: u8,
}

/// The links, the packets that wait in them, oldest first, and how many are in flight.
#[repr(C)]
#[derive(Clone, Copy, Debug, PartialEq, Eq)]
pub struct Links {
    pub connections: [Connection; 16],
    pub count: usize,
    pub waiting: [Waiting; 32],
    pub waiting_count: usize,
    pub in_flight: u16,
}

/// Counters that a reset keeps.
#[repr(C)]
#[derive(Clone, Copy, Debug, PartialEq, Eq)]
pub struct Counters {
    pub commands: u64,
    pub unknown_commands: u64,
    pub acl_packets: u64,
    pub acl_dropped: u64,
}

/// The last answers, oldest first, three octets each: opcode, low octet first, and status.
#[repr(C)]
#[derive(Clone, Copy, Debug, PartialEq, Eq)]
pub struct Recent {
    pub octets: [u8; 96],
    pub count: usize,
}

/// The state of a controller. Any octets are a state; question 3 decides whether it holds together.
#[repr(C)]
#[derive(Clone, Copy, Debug, PartialEq, Eq)]
pub struct State {
    pub masks: Masks,
    pub settings: Settings,
    pub advertising: Advertising,
    pub scanning: Scanning,
    pub accept_list: AcceptList,
    pub resolving_list: ResolvingList,
    pub links: Links,
    pub counters: Counters,
    pub recent: Recent,
}

/// What the controller reports about itself, and how large its buffers and lists are.
#[repr(C)]
#[derive(Clone, Copy, Debug, PartialEq, Eq)]
pub struct Profile {
    pub hci_version: u8,
    pub hci_subversion: u16,
    pub lmp_version: u8,
    pub company: u16,
    pub lmp_subversion: u16,
    pub supported_commands: [u8; 64],
    pub lmp_features: [u8; 8],
    pub le_features: u64,
    pub supported_states: [u8; 8],
    pub acl_len: u16,
    pub acl_count: u8,
    pub accept_list_size: u8,
    pub resolving_list_size: u8,
    pub adv_tx_power: i8,
    pub tx_power_min: i8,
    pub tx_power_max: i8,
    pub max_tx_octets: u16,
    pub max_tx_time: u16,
    pub max_adv_data_len: u16,
    pub adv_sets: u8,
    pub num_command_packets: u8,
}

/// What a call gives that may tell the host something: 0 or the number of a refusal, the state after it, and how many
/// octets of events stand at the front of the buffer.
#[repr(C)]
#[derive(Clone, Copy, Debug, PartialEq, Eq)]
pub struct Told {
    pub state: State,
    pub written: usize,
    pub number: u8,
}

/// What a call gives that has no buffer.
#[repr(C)]
#[derive(Clone, Copy, Debug, PartialEq, Eq)]
pub struct Changed {
    pub state: State,
    pub number: u8,
}

/// What a take gives: also how many packets it took.
#[repr(C)]
#[derive(Clone, Copy, Debug, PartialEq, Eq)]
pub struct Took {
    pub state: State,
    pub count: usize,
    pub written: usize,
    pub number: u8,
}

#[repr(C)]
#[derive(Clone, Copy, Debug, PartialEq, Eq)]
pub struct Connected {
    pub number: u8,
    pub connected: bool,
}

/// The reason of a Disconnect that waits for the peer, 0 where none does.
#[repr(C)]
#[derive(Clone, Copy, Debug, PartialEq, Eq)]
pub struct Terminating {
    pub number: u8,
    pub reason: u8,
}

#[repr(C)]
#[derive(Clone, Copy, Debug, PartialEq, Eq)]
pub struct FreeHandle {
    pub number: u8,
    pub handle: u16,
}

#[repr(C)]
#[derive(Clone, Copy, Debug, PartialEq, Eq)]
pub struct InUse {
    pub number: u8,
    pub count: usize,
}

#[repr(C)]
#[derive(Clone, Copy, Debug, PartialEq, Eq)]
pub struct Bitmap {
    pub number: u8,
    pub map: [u8; 64],
}

/// What a writer gives: 0, 8 or 9, and how many octets it wrote to the front of the buffer.
#[repr(C)]
#[derive(Clone, Copy, Debug, PartialEq, Eq)]
pub struct Wrote {
    pub number: u8,
    pub written: usize,
}

/// 0 or 10, and whether the mask has the bit.
#[repr(C)]
#[derive(Clone, Copy, Debug, PartialEq, Eq)]
pub struct MaskHas {
    pub number: u8,
    pub has: bool,
}

/// A packet read as a command; `kind` is `WHOLE`, `SHORT_HEADER`, `ANOTHER_KIND` or `SHORT_BODY`.
#[repr(C)]
#[derive(Clone, Copy, Debug, PartialEq, Eq)]
pub struct ReadCommand {
    pub kind: u8,
    pub len: u8,
    pub opcode: u16,
}

/// A packet read as ACL data; `kind` as above. The flags are bits 12 and 13 of the packet's word, and bits 14 and 15.
#[repr(C)]
#[derive(Clone, Copy, Debug, PartialEq, Eq)]
pub struct ReadAcl {
    pub kind: u8,
    pub boundary: u8,
    pub broadcast: u8,
    pub handle: u16,
    pub len: u16,
}

pub const WHOLE: u8 = 0;
pub const SHORT_HEADER: u8 = 1;
pub const ANOTHER_KIND: u8 = 2;
pub const SHORT_BODY: u8 = 3;

/// The packet at the front of some octets; `kind` is `PACKETS`, `MORE` or `UNDEFINED`.
#[repr(C)]
#[derive(Clone, Copy, Debug, PartialEq, Eq)]
pub struct PacketLength {
    pub kind: u8,
    pub indicator: u8,
    pub len: usize,
}

/// A stream over a lent buffer: its first `ready` octets are the packets of the last feed, the next `held` wait for their
/// rest.
#[repr(C)]
#[derive(Clone, Copy, Debug, PartialEq, Eq)]
pub struct Stream {
    pub ready: usize,
    pub held: usize,
}

/// What feeding a stream gives; `kind` is `PACKETS`, `UNDEFINED` or `NO_ROOM`.
#[repr(C)]
#[derive(Clone, Copy, Debug, PartialEq, Eq)]
pub struct StreamFed {
    pub stream: Stream,
    pub kind: u8,
    pub indicator: u8,
}

pub const PACKETS: u8 = 0;
pub const MORE: u8 = 1;
pub const UNDEFINED: u8 = 2;
pub const NO_ROOM: u8 = 3;
