//! The functions of hci.rs as steps.
use super::words::{number, octets, shown};
use crate::ble::hci::{self, Acl, Command};
use crate::octets::word_at;

/// What a function answers; None where the words are no step.
pub fn answers(name: &str, words: &[&str]) -> Option<Vec<String>> {
    if let Some(packet) = written(name, words) {
        return Some(vec![shown(&packet)]);
    }
    let answer = match (name, words) {
        ("opcode", [group, command]) => Some(format!("0x{:04X}", hci::opcode(number(group)?, number(command)?))),
        ("mask_has", [mask, bit]) => {
            let has = hci::mask_has(number(mask)?, number(bit)?);
            Some(if has { "yes" } else { "no" }.to_string())
        }
        ("Command::parse", p) => {
            Command::parse(&octets(p)?).map(|read| format!("opcode 0x{:04X}, {} octets", read.opcode, read.params.len()))
        }
        ("Acl::parse", p) => Acl::parse(&octets(p)?).map(|read| format!("handle {}, {} octets", read.handle, read.len)),
        _ => return None,
    };
    Some(answer.into_iter().collect())
}

/// The packet of a writer.
fn written(name: &str, words: &[&str]) -> Option<Vec<u8>> {
    Some(match (name, words) {
        ("event", [code, p @ ..]) => hci::event(number(code)?, &octets(p)?),
        ("command_complete", [count, opcode, p @ ..]) => hci::command_complete(number(count)?, number(opcode)?, &octets(p)?),
        ("le_meta", [code, p @ ..]) => hci::le_meta(number(code)?, &octets(p)?),
        ("acl", [handle, boundary, p @ ..]) => hci::acl(number(handle)?, number(boundary)?, &octets(p)?),
        ("number_of_completed_packets", p) => {
            let pairs: Vec<_> = octets(p)?.chunks_exact(4).map(|pair| (word_at(pair, 0), word_at(pair, 2))).collect();
            hci::number_of_completed_packets(&pairs)
        }
        _ => return None,
    })
}
