//! Bench lines by the source, as document 01 and `crates/records/specs/Lines.antt` and `Bench.antt` say.
use crate::ble::controller::Controller;
use crate::ble::hci;
use crate::ble::profile::{Answering, BleProfile, CommandRow};
use crate::call::Call;
use crate::counts::Counts;
use crate::octets::{hex, put_word};
use crate::opcodes::OPCODES;
use crate::setup::bench_controller;
use crate::source::{self, Given};
use crate::trial::kind;

/// The longest line: a packet of 1,024 octets.
pub const LONGEST: usize = 2_050;
const LONGEST_PACKET: usize = 2_048;
const HEADER: &[u8] = b"H\t1\n";
/// The run ends where less than this is left for a line's answer.
const ROOM: usize = 512;

/// Each opcode that `param_len` names is modelled, 0x2036 unmodelled, 0x0C05 unknown.
pub fn bench_profile() -> BleProfile {
    let row = |opcode, answer| CommandRow { opcode, answer, supported: None };
    let mut commands: Vec<_> = OPCODES.iter().map(|(op, _)| row(*op, Answering::Modeled)).collect();
    commands.push(row(0x2036, Answering::Unmodeled));
    commands.push(row(0x0C05, Answering::Unknown));
    BleProfile { controller: bench_controller(), commands }
}

/// All that is printed for an input, into `out`.
pub fn run(input: &[u8], room: usize, out: &mut Vec<u8>, counts: &mut Counts) {
    out.clear();
    if room < HEADER.len() {
        return;
    }
    out.extend(HEADER);
    BleProfile::set(bench_profile());
    let mut controller = Controller::default();
    for line in lines(input) {
        let Some((kind, p)) = read(line) else { return };
        if room - out.len() < ROOM {
            return;
        }
        print(&mut controller, kind, &p, out, counts);
    }
}

/// What follows the last newline is a line too, unless it is empty.
fn lines(input: &[u8]) -> impl Iterator<Item = &[u8]> {
    let whole = input.strip_suffix(b"\n").unwrap_or(input);
    let none = input.is_empty();
    whole.split(|x| *x == b'\n').filter(move |_| !none)
}

fn print(c: &mut Controller, kind: u8, p: &[u8], out: &mut Vec<u8>, counts: &mut Counts) {
    let call = Call::read(kind, p).expect("a line asks for a call");
    let number = source::refusal(c, &Given::BENCH, &call);
    let octets = if number == 0 { source::call(c, &Given::BENCH, &call).octets } else { Vec::new() };
    let letter = if kind == kind::TAKE { 'X' } else { 'E' };
    let mut rest = &octets[..];
    while let Ok(Some(length)) = hci::h4_packet_len(rest) {
        let (packet, after) = rest.split_at(length);
        out.extend(format!("{letter}\t{}\n", hex(packet)).as_bytes());
        rest = after;
    }
    out.extend(format!("D\t{number}\t{}\n", c.acl_buffers_in_use()).as_bytes());
    counts.line(kind, p, number, &octets);
}

/// The call that a line asks for, as a record's kind and octets; None where the line is no record.
fn read(line: &[u8]) -> Option<(u8, Vec<u8>)> {
    if line.len() > LONGEST {
        return None;
    }
    let fields: Vec<&[u8]> = line.split(|x| *x == b'\t').collect();
    let (kind, count) = match fields[0] {
        b"P" if fields.len() == 2 => return Some((kind::PACKET, packet(fields[1])?)),
        b"T" => (kind::TAKE, 2),
        b"C" => (kind::COMPLETED, 2),
        b"O" => (kind::OPEN, 4),
        _ => return None,
    };
    if fields.len() != 1 + count {
        return None;
    }
    let mut p = Vec::new();
    for field in &fields[1..] {
        put_word(&mut p, number(field)?);
    }
    Some((kind, p))
}

/// Decimal digits, one at least, up to 65,535; zeros in front are digits.
fn number(field: &[u8]) -> Option<u16> {
    if field.is_empty() || !field.iter().all(u8::is_ascii_digit) {
        return None;
    }
    let value = field.iter().fold(0u32, |n, x| (10 * n + u32::from(x - b'0')).min(65_536));
    u16::try_from(value).ok()
}

/// Lower-case hex pairs.
pub fn packet(field: &[u8]) -> Option<Vec<u8>> {
    let pairs = field.chunks_exact(2);
    if field.len() > LONGEST_PACKET || !pairs.remainder().is_empty() {
        return None;
    }
    pairs.map(|pair| Some(16 * digit(pair[0])? + digit(pair[1])?)).collect()
}

fn digit(x: u8) -> Option<u8> {
    match x {
        b'0'..=b'9' => Some(x - b'0'),
        b'a'..=b'f' => Some(x - b'a' + 10),
        _ => None,
    }
}

#[cfg(test)]
mod tests {
    use super::*;

    fn printed(input: &str) -> String {
        let mut out = Vec::new();
        run(input.replace(' ', "\t").as_bytes(), 4096, &mut out, &mut Counts::off());
        String::from_utf8(out).expect("lines are ASCII").replace('\t', " ")
    }

    #[test]
    fn example_of_document_01() {
        let input = "P 01030c00\nP 01022000\nO 1 24 0 42\nP 0201000100aa\nP 0201000100bb\nP 0201000100cc\nT 1 1\nC 1 1\n";
        let output = "H 1\nE 040e0405030c00\nD 0 0\nE 040e07050220001b0002\nD 0 0\nD 0 0\nD 0 1\nD 0 2\nD 0 2\n\
                      X 0201000100aa\nD 0 2\nE 0413050101000100\nD 0 1\n";
        assert_eq!(printed(input), output);
    }

    #[test]
    fn other_lines_end_the_run() {
        for line in ["", "P", "P 0", "P 0A", "P 01 02", "T 1", "T 1 65536", "T  1", "C 1 +1", "O 1 2 3", "X 1 1", "P 00\r"] {
            assert_eq!(printed(&format!("{line}\nP \n")), "H 1\n", "{line:?}");
        }
        assert_eq!(printed("P \nT 00001 065535"), "H 1\nD 0 0\nD 0 0\n");
    }
}
