//! Commands with parameters around the limits of each (Core Vol 4 Part E section 7).
use super::create_connection;
use super::world::{command_packet, World};
use crate::opcodes::size_of;
use crate::random::Random;

/// A command packet: mostly with the size of its opcode, else around it; now and then with octets past its length, or short.
pub fn command(random: &mut Random, world: &World, opcode: u16) -> Vec<u8> {
    let mut parameters = parameters(random, world, opcode);
    if random.once_in(12) {
        resize(random, &mut parameters);
    }
    let mut packet = command_packet(opcode, &parameters);
    if random.once_in(30) {
        packet.extend((0..1 + random.below(3)).map(|_| random.octet()));
    }
    if random.once_in(60) {
        packet.truncate(random.below(packet.len() + 1));
    }
    packet
}

fn resize(random: &mut Random, parameters: &mut Vec<u8>) {
    let n = parameters.len();
    let length = match random.below(6) {
        0 => 0,
        1 => 255,
        2 => random.below(256),
        3 => n.saturating_sub(1),
        _ => n + 1,
    };
    parameters.resize(length.min(255), random.octet());
}

/// Parameters of the opcode's size, most of which pass its checks.
fn parameters(random: &mut Random, world: &World, opcode: u16) -> Vec<u8> {
    let mut p = Vec::new();
    match opcode {
        0x0C01 => p.extend(mask(random, 0x1FFF_FFFF_FFFF, &[4, 7, 11, 61])),
        0x2001 => p.extend(mask(random, 0x1F, &[0, 2, 3, 4, 6, 9, 11, 40])),
        0x0C63 => p.extend(mask(random, 0, &[25])),
        0x0C31 => p.push(random.up_to(3)),
        0x0C35 => host_report(random, world, &mut p),
        0x2005 => p.extend(world.address(random)),
        0x2006..=0x200D => on_air(random, world, opcode, &mut p),
        0x2011 | 0x2012 => p.extend(identity(random, world, &[0, 1, 1, 0xFF, 0xFF, 2, 0xFE])),
        0x2024 => data_length(random, &mut p),
        0x2027 | 0x2028 | 0x202B | 0x202C => p.extend(identity(random, world, &[0, 1, 1, 0, 2, 0xFF])),
        0x202D => p.push(random.up_to(1)),
        0x202E => p.extend(random.around(1, 0x0E10).to_le_bytes()),
        0x2031 => p.extend([random.up_to(3), phys(random), phys(random)]),
        0x201D | 0x201E | 0x2033 | 0x2034 => test(random, opcode, &mut p),
        0x204D => {
            for _ in 0..2 {
                let value = random.around(0, 0x0500);
                p.extend(random.pick(&[value, value.wrapping_neg(), 0xFB00, 0xFAFF, 0x0500, 0x0501]).to_le_bytes());
            }
        }
        0x204E => {
            p.extend(identity(random, world, &[0, 1, 1, 0, 2]));
            p.push(random.up_to(1));
        }
        _ => of_link(random, world, opcode, &mut p),
    }
    // 0x0C35 has the size that its count says
    let size = if opcode == 0x0C35 { p.len() } else { usize::from(size_of(opcode)) };
    p.resize_with(size, || random.octet());
    p
}

/// Commands that begin with a handle, and those without any parameter that matters.
fn of_link(random: &mut Random, world: &World, opcode: u16, p: &mut Vec<u8>) {
    if size_of(opcode) < 2 {
        return;
    }
    p.extend(world.handle(random).to_le_bytes());
    match opcode {
        0x0406 => p.push(random.pick(&[0x05, 0x13, 0x14, 0x15, 0x1A, 0x29, 0x3B, 0x13, 0x13, 0x00, 0x16, 0x3C])),
        0x0C2D => p.push(random.up_to(1)),
        // timeout × 8 against interval × (1 + latency): both sides of the links' own values
        0x0C7C => {
            let timeout = random.near(&[1, 3, 6, 9, 1_200, 1_500, 3_000, 65_535]);
            p.extend(timeout.to_le_bytes());
        }
        0x2013 | 0x2020 => connection_values(random, p),
        0x2022 => data_length(random, p),
        0x2032 => p.extend([random.up_to(3), phys(random), phys(random)]),
        _ => {}
    }
}

fn on_air(random: &mut Random, world: &World, opcode: u16, p: &mut Vec<u8>) {
    match opcode {
        0x2006 => {
            let (low, high) = ordered(random.around(0x20, 0x4000), random.around(0x20, 0x4000), random.once_in(10));
            p.extend(low.to_le_bytes());
            p.extend(high.to_le_bytes());
            p.extend([random.up_to(4), random.up_to(3), random.up_to(1)]);
            p.extend(world.address(random));
            p.extend([random.pick(&[1, 2, 4, 7, 7, 7, 0, 8]), random.up_to(3)]);
        }
        0x2008 | 0x2009 => p.push(random.pick(&[0, 1, 3, 30, 31, 31, 32, 33, 255])),
        0x200A => p.push(random.up_to(1)),
        0x200B => {
            let (window, interval) = ordered(random.around(4, 0x4000), random.around(4, 0x4000), random.once_in(10));
            p.push(random.up_to(1));
            p.extend(interval.to_le_bytes());
            p.extend(window.to_le_bytes());
            p.extend([random.up_to(3), random.up_to(3)]);
        }
        0x200C => p.extend([random.up_to(1), random.up_to(1)]),
        0x200D => {
            let peer = world.address(random);
            p.extend(create_connection::right_scan_fields(random, peer));
            connection_values(random, p);
            create_connection::strain(random, p);
        }
        _ => {}
    }
}

fn ordered(a: u16, b: u16, swapped: bool) -> (u16, u16) {
    if (a <= b) == swapped {
        (b, a)
    } else {
        (a, b)
    }
}

/// Interval from and to, latency and timeout: every second time right ones, else around the limits.
fn connection_values(random: &mut Random, p: &mut Vec<u8>) {
    let values = if random.once_in(2) {
        let max = 6 + random.below(60) as u16;
        [6 + random.below(usize::from(max) - 5) as u16, max, random.below(4) as u16, 100 + random.below(3_101) as u16]
    } else {
        limiting_values(random)
    };
    for value in values {
        p.extend(value.to_le_bytes());
    }
}

/// Timeout × 4 close to (1 + latency) × interval on both sides, or anything.
fn limiting_values(random: &mut Random) -> [u16; 4] {
    let max = match random.below(3) {
        0 => random.around(6, 0x0C80),
        _ => random.around(6, 60),
    };
    let min = random.pick(&[6, 5, max, max, max.wrapping_add(1), max / 2]);
    let few = random.below(20) as u16;
    let latency = random.pick(&[0, 0, 1, 2, 0x1F3, 0x1F4, few]);
    let limit = (u32::from(latency) + 1) * u32::from(max) / 4;
    let close = u16::try_from(limit).unwrap_or(0x0C80);
    let timeout = match random.below(4) {
        0 => random.near(&[close]),
        1 => close.wrapping_add(1),
        2 => random.near(&[10, 0x0C80]),
        _ => random.around(10, 0x0C80),
    };
    [min, max, latency, timeout]
}

/// Octets and time.
fn data_length(random: &mut Random, p: &mut Vec<u8>) {
    let octets = random.around(0x1B, 0xFB);
    let time = random.around(0x0148, 0x4290);
    p.extend(random.pick(&[octets, octets, 27, 251]).to_le_bytes());
    p.extend(random.pick(&[time, time, 328, 2_120]).to_le_bytes());
}

/// Channel, then length, modulation, payload or PHY.
fn test(random: &mut Random, opcode: u16, p: &mut Vec<u8>) {
    let phy = random.pick(&[1, 1, 2, 3, 4, 0, 5]);
    p.push(random.up_to(0x27));
    match opcode {
        0x201E => p.extend([random.octet(), random.up_to(7)]),
        0x2033 => p.extend([phy, random.up_to(1)]),
        0x2034 => p.extend([random.octet(), random.up_to(7), phy]),
        _ => {}
    }
}

fn phys(random: &mut Random) -> u8 {
    random.pick(&[0, 1, 2, 3, 4, 5, 6, 7, 8, 255, 1, 2, 3])
}

fn identity(random: &mut Random, world: &World, types: &[u8]) -> [u8; 7] {
    let mut entry = [0; 7];
    entry[0] = random.pick(types);
    entry[1..].copy_from_slice(&world.address(random));
    entry
}

/// All, none, the default, or these with a bit that matters turned.
fn mask(random: &mut Random, default: u64, bits: &[u32]) -> [u8; 8] {
    let any = random.number();
    let mask = random.pick(&[u64::MAX, u64::MAX, 0, default, default | 1 << 61, any]);
    let bit = 1u64 << random.pick(bits);
    let turned = random.pick(&[0, bit]);
    (mask ^ turned).to_le_bytes()
}

/// 0x0C35: a count and pairs, now and then one more or one less than said.
fn host_report(random: &mut Random, world: &World, p: &mut Vec<u8>) {
    let said = random.below(4);
    let there = random.pick(&[said, said, said + 1, said.saturating_sub(1)]);
    p.push(said as u8);
    for _ in 0..there {
        p.extend(world.handle(random).to_le_bytes());
        p.extend([1, 0]);
    }
}
