//! A unit in Rust, and a fixed run of it: what `../c/unit.c`, `rows.c`, `calls.c` and `script.c` do, without a device
//! mode. Prints the same lines as they do, those of `../expected`. For firmware engineers: `Unit` is the part to read
//! first.
use std::io::Write;
use wegrulsta::{
    Changed, Given, Peer, Profile, Refusal, Rows, State, Stream, Timing, Told, Wrote, ACCEPT_ENTRIES, BITMAP_OCTETS,
    EVENT_OCTETS, IDENTITIES, LINKS, LONGEST_PACKET, MODELLED, NO_BIT, PACKETS,
};

const ACL_LEN: u16 = 251;
const ACL_COUNT: u8 = 8;
const POOL: usize = wegrulsta::pool(ACL_COUNT, ACL_LEN);

/// Low octet first.
const ADDRESS: [u8; 6] = [0x0B, 0x51, 0x00, 0xEE, 0xFF, 0xC0];

/// Every opcode that the controller knows, with its bit of Supported_Commands (Core Vol 4 Part E section 6.27).
#[rustfmt::skip]
const TABLE: [(u16, u16); 71] = [
    (0x0406, 5), (0x041D, 23), (0x0C01, 46), (0x0C03, 47), (0x0C2D, 82), (0x0C31, 85), (0x0C33, 86), (0x0C35, 87),
    (0x0C63, 178), (0x0C7B, 260), (0x0C7C, 261), (0x1001, 115), (0x1002, NO_BIT), (0x1003, 117), (0x1009, 121), (0x1405, 125),
    (0x2001, 200), (0x2002, 201), (0x2003, 202), (0x2005, 204), (0x2006, 205), (0x2007, 206), (0x2008, 207), (0x2009, 208),
    (0x200A, 209), (0x200B, 210), (0x200C, 211), (0x200D, 212), (0x200E, 213), (0x200F, 214), (0x2010, 215), (0x2011, 216),
    (0x2012, 217), (0x2013, 218), (0x2014, 219), (0x2015, 220), (0x2016, 221), (0x2017, 222), (0x2018, 223), (0x2019, 224),
    (0x201A, 225), (0x201B, 226), (0x201C, 227), (0x201D, 228), (0x201E, 229), (0x201F, 230), (0x2020, 268), (0x2021, 269),
    (0x2022, 270), (0x2023, 271), (0x2024, 272), (0x2027, 275), (0x2028, 276), (0x2029, 277), (0x202A, 278), (0x202B, 279),
    (0x202C, 280), (0x202D, 281), (0x202E, 282), (0x202F, 283), (0x2030, 284), (0x2031, 285), (0x2032, 286), (0x2033, 287),
    (0x2034, 288), (0x203A, 294), (0x203B, 295), (0x204B, 311), (0x204C, 312), (0x204D, 313), (0x204E, 314),
];

/// One column of the table, 0 the opcodes and 1 the bits.
const fn column(which: usize) -> [u16; TABLE.len()] {
    let mut column = [0; TABLE.len()];
    let mut i = 0;
    while i < TABLE.len() {
        column[i] = if which == 0 { TABLE[i].0 } else { TABLE[i].1 };
        i += 1;
    }
    column
}

const OPCODES: [u16; TABLE.len()] = column(0);
const BITS: [u16; TABLE.len()] = column(1);
const ROWS: Rows = Rows { opcodes: &OPCODES, answers: &[MODELLED; TABLE.len()], bits: &BITS };

fn profile(supported_commands: [u8; BITMAP_OCTETS]) -> Profile {
    Profile {
        hci_version: 0x0D,
        hci_subversion: 0,
        lmp_version: 0x0D,
        company: 0xFFFF,
        lmp_subversion: 0,
        supported_commands,
        lmp_features: [0, 0, 0, 0, 0x60, 0, 0, 0],
        le_features: 0x0171,
        supported_states: [0xFF, 0xFF, 0xFF, 0xFF, 0xFF, 0x03, 0, 0],
        acl_len: ACL_LEN,
        acl_count: ACL_COUNT,
        accept_list_size: ACCEPT_ENTRIES as u8,
        resolving_list_size: IDENTITIES as u8,
        adv_tx_power: 0,
        tx_power_min: -20,
        tx_power_max: 8,
        max_tx_octets: 251,
        max_tx_time: 2120,
        max_adv_data_len: 31,
        adv_sets: 1,
        num_command_packets: 1,
    }
}

/// What firmware keeps around the controller.
struct Unit {
    profile: Profile,
    state: State,
    stream: Stream,
    /// Lent to the stream; as long as this, it never answers that there is no room.
    received: [u8; LONGEST_PACKET],
    pool: [u8; POOL],
    /// By handle, packets taken and not settled; `free_handle` gives 1 to 16.
    in_air: [u16; LINKS + 1],
}

impl Unit {
    fn new() -> Result<Unit, Refusal> {
        Ok(Unit {
            profile: profile(wegrulsta::row_bitmap(ROWS).answer()?),
            state: wegrulsta::start(),
            stream: wegrulsta::stream_start(),
            received: [0; LONGEST_PACKET],
            pool: [0; POOL],
            in_air: [0; LINKS + 1],
        })
    }

    /// Keeps the state that a call gave and sends the host what it wrote. A refused call wrote nothing and gave the state
    /// back.
    fn keep(&mut self, told: &Told, events: &[u8]) {
        self.state = told.state;
        print_packets('E', &events[..told.written]);
        self.print_called(told.number);
    }

    fn keep_changed(&mut self, changed: &Changed) {
        self.state = changed.state;
        self.print_called(changed.number);
    }

    fn print_called(&self, number: u8) {
        println!("D\t{number}\t{}", wegrulsta::buffers_in_use(&self.profile, &self.state).count);
    }

    /// Octets of the host, as they come. False where framing is lost.
    fn receive(&mut self, mut octets: &[u8]) -> bool {
        while !octets.is_empty() {
            let room = self.received.len() - self.stream.held;
            let (piece, rest) = octets.split_at(octets.len().min(room));
            let fed = wegrulsta::stream_feed(self.stream, &mut self.received, piece);
            self.stream = fed.stream;
            if fed.kind != PACKETS {
                return false;
            }
            self.hand_over();
            octets = rest;
        }
        true
    }

    /// The whole packets of the last feed. Only Reset ends links by a packet, and it ends all.
    fn hand_over(&mut self) {
        let mut at = 0;
        loop {
            let packet = wegrulsta::stream_packet(self.stream, &self.received, at);
            if packet.is_empty() {
                return;
            }
            print_octets('P', packet);
            at += packet.len();
            let mut events = [0; EVENT_OCTETS];
            let given = Given { address: &ADDRESS, random: 0x0123_4567_89AB_CDEF, packet };
            let told = wegrulsta::packet(&self.profile, ROWS, &self.state, &mut self.pool, given, &mut events);
            self.keep(&told, &events);
            if self.state.links.count == 0 {
                self.in_air = [0; LINKS + 1];
            }
        }
    }

    /// A central asked for a link while the unit advertised. The link's handle, or why there is none; then nothing has
    /// changed.
    fn connect(&mut self, peer: &Peer, timing: Timing) -> Result<u16, Refusal> {
        let mut events = [0; EVENT_OCTETS];
        let handle = wegrulsta::free_handle(&self.profile, &self.state).answer()?;
        let told = wegrulsta::accept(&self.profile, &self.state, handle, peer, timing, &mut events);
        self.keep(&told, &events);
        told.octets().map(|_| handle)
    }

    /// The link has a connection event: up to so many packets, of so many octets together, go on the air.
    fn send(&mut self, handle: u16, most: usize, room: usize) {
        let mut packets = [0; POOL];
        let took = wegrulsta::take(&self.profile, &self.state, &self.pool, handle, most, &mut packets[..room]);
        self.state = took.state;
        self.in_air[usize::from(handle)] += took.count as u16;
        print_packets('X', &packets[..took.written]);
        self.print_called(took.number);
    }

    /// The peer acknowledged so many packets of the link, no more than are in the air.
    fn sent(&mut self, handle: u16, count: u16) {
        let mut events = [0; EVENT_OCTETS];
        let told = wegrulsta::completed(&self.profile, &self.state, handle, count, &mut events);
        self.in_air[usize::from(handle)] -= count;
        self.keep(&told, &events);
    }

    /// What the link had in the air will not go out any more. To be made directly after the call that ended the link.
    fn settle(&mut self, handle: u16) {
        let gone = core::mem::take(&mut self.in_air[usize::from(handle)]);
        if gone > 0 {
            let changed = wegrulsta::drop_in_flight(&self.profile, &self.state, gone);
            self.keep_changed(&changed);
        }
    }

    /// The peer ended the link, or it was lost.
    fn link_lost(&mut self, handle: u16, reason: u8) {
        let mut events = [0; EVENT_OCTETS];
        let told = wegrulsta::remote_disconnect(&self.profile, &self.state, handle, reason, &mut events);
        self.keep(&told, &events);
        self.settle(handle);
    }

    /// The peer acknowledged that the host ends the link. False where the host does not.
    fn disconnect_acknowledged(&mut self, handle: u16) -> Result<bool, Refusal> {
        let mut events = [0; EVENT_OCTETS];
        if wegrulsta::terminating(&self.profile, &self.state, handle).answer()?.is_none() {
            return Ok(false);
        }
        let told = wegrulsta::complete_disconnect(&self.profile, &self.state, handle, &mut events);
        self.keep(&told, &events);
        self.settle(handle);
        Ok(true)
    }
}

fn print_octets(letter: char, octets: &[u8]) {
    print!("{letter}\t");
    for octet in octets {
        print!("{octet:02x}");
    }
    println!();
}

/// Packets that stand end to end, a line for each.
fn print_packets(letter: char, mut octets: &[u8]) {
    while !octets.is_empty() {
        let front = wegrulsta::packet_length(octets);
        if front.kind != PACKETS {
            return println!("no packet");
        }
        let (packet, rest) = octets.split_at(front.len);
        print_octets(letter, packet);
        octets = rest;
    }
}

fn print_wrote(name: &str, number: u8, octets: &[u8]) {
    print!("{name}\t{number}\t");
    octets.iter().for_each(|octet| print!("{octet:02x}"));
    println!();
}

/// The calls that a unit may do without, each made once and printed: its name, its number or kind, and what it gave.
fn print_writers() {
    let mut load = [0; 256];
    load[..2].copy_from_slice(&[0xAA, 0xBB]);
    let mut out = [0; 16];
    let mut print = |name: &str, write: &dyn Fn(&mut [u8]) -> Wrote| {
        let wrote = write(&mut out);
        print_wrote(name, wrote.number, &out[..wrote.written]);
    };
    print("write_event", &|out| wegrulsta::write_event(0x10, &load[..1], out));
    print("write_event", &|out| wegrulsta::write_event(0x10, &load, out));
    print("write_event", &|out| wegrulsta::write_event(0x10, &load[..14], out));
    print("write_acl", &|out| wegrulsta::write_acl(0xF001, 2, &load[..2], out));
    print("write_command_complete", &|out| wegrulsta::write_command_complete(1, 0x0C03, &load[2..3], out));
    print("write_command_status", &|out| wegrulsta::write_command_status(1, 0x0C, 0x0406, out));
    print("write_completed_packets", &|out| wegrulsta::write_completed_packets(&[1, 2], &[3, 4, 5], out));
    print("write_le_meta", &|out| wegrulsta::write_le_meta(0x01, &load[..2], out));
}

fn print_readers() {
    let (command, data) = ([0x01, 0x0A, 0x20, 0x01, 0x01], [0x02, 0x01, 0x60, 0x02, 0x00, 0xAA, 0xBB]);
    for count in 3..=5 {
        let c = wegrulsta::read_command(&command[..count]);
        println!("read_command\t{}\t{}\t{:04x}", c.kind, c.len, c.opcode);
    }
    for count in [4, 7] {
        let a = wegrulsta::read_acl(&data[..count]);
        println!("read_acl\t{}\t{}\t{}\t{}\t{}", a.kind, a.boundary, a.broadcast, a.handle, a.len);
    }
    println!("read_acl\t{}", wegrulsta::read_acl(&command).kind);
    for octets in [&[], &data[..], &data[5..]] {
        let front = wegrulsta::packet_length(octets);
        println!("packet_length\t{}\t{}\t{}", front.kind, front.indicator, front.len);
    }
}

fn print_bits() {
    println!("opcode\t{:04x}", wegrulsta::opcode(0x03, 0x0003));
    println!("is_async\t{}\t{}", u8::from(wegrulsta::is_async(0x0406)), u8::from(wegrulsta::is_async(0x0C03)));
    for bit in 62..=64 {
        let has = wegrulsta::mask_has(1 << 63, bit);
        println!("mask_has\t{}\t{}", has.number, u8::from(has.has));
    }
    let mut map = [0; 2];
    wegrulsta::set_bit(&mut map, 9);
    wegrulsta::set_bit(&mut map, 16);
    println!("set_bit\t{:02x}{:02x}", map[0], map[1]);
    let (key, block) = (core::array::from_fn(|i| i as u8), core::array::from_fn(|i| 0x11 * i as u8));
    print_wrote("encrypt", 0, &wegrulsta::encrypt(&key, &block));
}

/// A state may be written by whoever keeps it: here the masks are.
fn print_notices() -> Result<(), Refusal> {
    let mut out = [0; EVENT_OCTETS];
    let profile = profile(wegrulsta::row_bitmap(ROWS).answer()?);
    let mut state = wegrulsta::start();
    state.masks.event = u64::MAX;
    let opened = wegrulsta::open(&profile, &state, 5, Timing { interval: 24, latency: 0, timeout: 42 });
    println!("open\t{}", opened.number);
    let has = wegrulsta::has_connection(&profile, &opened.state, 5);
    println!("has_connection\t{}\t{}", has.number, u8::from(has.connected));
    let timing = Timing { interval: 30, latency: 1, timeout: 50 };
    let told = wegrulsta::update(&profile, &opened.state, 5, timing, &mut out);
    print_wrote("update", told.number, &out[..told.written]);
    let told = wegrulsta::request_key(&profile, &told.state, 5, &[1, 2, 3, 4, 5, 6, 7, 8], 0x1234, &mut out);
    print_wrote("request_key", told.number, &out[..told.written]);
    let told = wegrulsta::advertising_timeout(&profile, &told.state, &mut out);
    print_wrote("advertising_timeout", told.number, &out[..told.written]);
    Ok(())
}

/// The packets' octets end to end, in pieces of 1, 2, 3, 5, 8, 13, 1, .. octets.
fn host_sends(unit: &mut Unit, packets: &[&str]) {
    let hex = packets.concat();
    let octets: Vec<u8> =
        (0..hex.len()).step_by(2).map(|i| u8::from_str_radix(&hex[i..i + 2], 16).expect("hexadecimal")).collect();
    let mut rest = &octets[..];
    for piece in [1, 2, 3, 5, 8, 13].into_iter().cycle() {
        if rest.is_empty() {
            return;
        }
        let (now, later) = rest.split_at(rest.len().min(piece));
        if !unit.receive(now) {
            println!("framing is lost");
        }
        rest = later;
    }
}

const SAMPLE: &str = "P\t01030c00\nP\t01022000\nO\t1\t24\t0\t42\nP\t0201000100aa\nP\t0201000100bb\nP\t0201000100cc\n\
                      T\t1\t1\nC\t1\t1\n";

const BRING_UP: [&str; 12] = [
    "01030c00",                                                                 // Reset
    "01011000",                                                                 // Read Local Version Information
    "01031000",                                                                 // Read Local Supported Features
    "01091000",                                                                 // Read BD_ADDR
    "01022000",                                                                 // LE Read Buffer Size
    "01010c0890e8040200800020",                                                 // Set Event Mask, as Linux does
    "010120081f00000000000000",                                                 // LE Set Event Mask
    "01182000",                                                                 // LE Rand
    "01050c00",                                                                 // an opcode without a row
    "0106200f000800080000000000000000000700",                                   // LE Set Advertising Parameters
    "010820200302010600000000000000000000000000000000000000000000000000000000", // LE Set Advertising Data
    "010a200101",                                                               // LE Set Advertising Enable
];

fn main() -> Result<(), Refusal> {
    let peer = Peer { address_type: 1, address: [0xA1, 0xA2, 0xA3, 0xA4, 0xA5, 0xC6], clock_accuracy: 0 };
    let timing = Timing { interval: 24, latency: 0, timeout: 42 };
    let mut out = [0; 4096];
    std::io::stdout().write_all(wegrulsta::bench(SAMPLE.as_bytes(), &mut out)).expect("standard output");
    print_writers();
    print_readers();
    print_bits();
    print_notices()?;
    let mut unit = Unit::new()?;
    host_sends(&mut unit, &BRING_UP);
    println!("A\tcentral connects");
    let handle = unit.connect(&peer, timing)?;
    host_sends(&mut unit, &["02010007000300040002b900", "02010003000a0b0c", "0201200100dd"]);
    println!("A\ttwo packets, no room");
    unit.send(handle, 2, 19);
    println!("A\ttwo packets");
    unit.send(handle, 2, 20);
    println!("A\tone acknowledged");
    unit.sent(handle, 1);
    host_sends(&mut unit, &["0201000200eeff"]);
    println!("A\tcentral leaves");
    unit.link_lost(handle, 0x13);
    host_sends(&mut unit, &["010a200101"]);
    println!("A\tcentral connects");
    let handle = unit.connect(&peer, timing)?;
    host_sends(&mut unit, &["010514020100", "01060403010013"]);
    println!("A\tdisconnect acknowledged");
    unit.disconnect_acknowledged(handle)?;
    host_sends(&mut unit, &["010a200101"]);
    println!("A\tcentral connects");
    let handle = unit.connect(&peer, timing)?;
    host_sends(&mut unit, &["0201000200eeff"]);
    println!("A\tone packet");
    unit.send(handle, 1, 100);
    host_sends(&mut unit, &["01030c00"]);
    Ok(())
}
