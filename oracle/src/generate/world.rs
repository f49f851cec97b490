//! The handles and addresses of a run, few enough that calls meet again what earlier ones left; data packets and notices.
use crate::random::Random;
use crate::trial::kind;

pub struct World {
    pub handles: Vec<u16>,
    pub addresses: Vec<[u8; 6]>,
    pub acl_len: u16,
    /// Whether data packets may be longer than any buffer.
    pub long_packets: bool,
}

impl World {
    pub fn new(random: &mut Random, handles: usize, acl_len: u16, long_packets: bool) -> World {
        let count = 1 + random.below(handles);
        let addresses = random.pick(&[2, 5, 40]);
        World {
            handles: (0..count).map(|n| any_handle(random, n as u16)).collect(),
            addresses: (0..addresses).map(|_| any_address(random)).collect(),
            acl_len,
            long_packets,
        }
    }

    /// Mostly one in use; else one with flag bits that only an ACL word may have, a neighbour, or any.
    pub fn handle(&self, random: &mut Random) -> u16 {
        let handle = random.pick(&self.handles);
        match random.below(24) {
            0 => handle | 0x2000,
            1 => handle ^ random.pick(&[0x1000, 0x4000, 0x8000, 0xF000]),
            2 => random.near(&[handle]),
            3 => random.word(),
            _ => handle,
        }
    }

    /// Mostly one of the first few, so that it comes again; all of them fill the longest list.
    pub fn address(&self, random: &mut Random) -> [u8; 6] {
        match random.below(30) {
            0 => any_address(random),
            1..=15 => self.addresses[random.below(self.addresses.len().min(4))],
            _ => random.pick(&self.addresses),
        }
    }

    /// A data packet around its limits: the length said, the octets that are there, the flags.
    pub fn data(&self, random: &mut Random) -> Vec<u8> {
        let flags = random.pick(&[0, 0, 0, 0, 0, 1, 2, 3, 4, 15]);
        let word = (self.handle(random) & 0x0FFF) | (flags << 12);
        let said = match random.below(8) {
            0 => random.near(&[self.acl_len]),
            1 => self.acl_len,
            2 if self.long_packets => random.near(&[0, 27, 251, 1019]),
            3 if self.long_packets && random.once_in(200) => random.word(),
            _ => random.below(usize::from(self.acl_len.min(40)) + 1) as u16,
        };
        let there = match random.below(20) {
            0 => said.saturating_sub(1),
            1 => said.saturating_add(random.below(4) as u16),
            2 => random.below(6) as u16,
            _ => said,
        };
        let mut packet = vec![0x02];
        packet.extend(word.to_le_bytes());
        packet.extend(said.to_le_bytes());
        // a record has at most 65,535 octets
        packet.extend((0..there.min(65_530)).map(|_| random.octet()));
        if random.once_in(40) {
            packet.truncate(random.below(6));
        }
        packet
    }

    /// The octets of a notice, a take or queries.
    pub fn notice(&self, random: &mut Random, kind: u8) -> Vec<u8> {
        let mut out = self.handle(random).to_le_bytes().to_vec();
        match kind {
            kind::TAKE => out.extend(random.pick(&[0u16, 1, 1, 2, 3, 32, 65_535]).to_le_bytes()),
            kind::COMPLETED => out.extend(random.pick(&[0u16, 1, 1, 2, 4, 33, 65_535]).to_le_bytes()),
            kind::DROP => out = random.pick(&[0u16, 1, 1, 2, 33, 65_535]).to_le_bytes().to_vec(),
            kind::OPEN | kind::UPDATE => out.extend(link_values(random)),
            kind::ACCEPT => {
                out.push(random.pick(&[0, 1, 2, 255]));
                out.extend(self.address(random));
                out.extend(link_values(random));
                out.push(random.octet());
            }
            kind::KEY_REQUEST => out.extend(random.octets::<10>()),
            kind::REMOTE_DISCONNECT => out.push(random.octet()),
            kind::COMPLETE_DISCONNECT | kind::QUERIES => {}
            _ => out.clear(),
        }
        out
    }
}

/// Interval, latency and timeout: small ones, around which the commands' limits lie, the ends, or any.
fn link_values(random: &mut Random) -> Vec<u8> {
    let interval = random.pick(&[0, 6, 8, 9, 24, 24, 0x0C80, 65_535]);
    let latency = random.pick(&[0, 0, 1, 2, 499, 65_535]);
    let any = random.word();
    let timeout = random.pick(&[10, 42, 0x0C80, any]);
    [interval, latency, timeout].iter().flat_map(|v: &u16| v.to_le_bytes()).collect()
}

fn any_handle(random: &mut Random, n: u16) -> u16 {
    match random.below(12) {
        0 => random.pick(&[0, 0x0EFF, 0x0F00, 0x0FFF]),
        1 => random.pick(&[0x1000, 0x2001, 0xFFFF]),
        2 => random.word() & 0x0FFF,
        _ => n + 1,
    }
}

/// All zero, in one octet different from zero, or any.
fn any_address(random: &mut Random) -> [u8; 6] {
    let mut address = [0; 6];
    match random.below(8) {
        0 => {}
        1..=3 => address[random.below(6)] = random.octet(),
        _ => address = random.octets(),
    }
    address
}

pub fn command_packet(opcode: u16, parameters: &[u8]) -> Vec<u8> {
    let mut packet = vec![0x01];
    packet.extend(opcode.to_le_bytes());
    packet.push(parameters.len() as u8);
    packet.extend(parameters);
    packet
}

/// No packet at all, one of another indicator, or one cut within its header.
pub fn odd_packet(random: &mut Random) -> Vec<u8> {
    let length = random.pick(&[0, 1, 2, 3, 4, 5, 6, 40]);
    let mut packet: Vec<u8> = (0..length).map(|_| random.octet()).collect();
    if let Some(first) = packet.first_mut() {
        *first = random.pick(&[0, 1, 1, 2, 2, 3, 4, 5, 255]);
    }
    packet
}
