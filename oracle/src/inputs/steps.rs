//! The steps of one entry, on a controller, a profile and a stream of its own.
use super::functions;
use super::words::{number, octets, shown};
use crate::ble::controller::{row_bitmap, Connection, Controller};
use crate::ble::hci::H4Stream;
use crate::ble::profile::{Answering, BleProfile, CommandRow};
use crate::call::Call;
use crate::lines::bench_profile;
use crate::octets::put_word;
use crate::source::{self, Given};
use crate::trial::kind;

/// The calls, and how many octets each of their arguments has: numbers up to two, else octets as they stand.
const CALLS: [(&str, u8, &[usize]); 10] = [
    ("take", kind::TAKE, &[2, 2]),
    ("open", kind::OPEN, &[2, 2, 2, 2]),
    ("completed", kind::COMPLETED, &[2, 2]),
    ("drop", kind::DROP, &[2]),
    ("accept", kind::ACCEPT, &[2, 1, 6, 2, 2, 2, 1]),
    ("update", kind::UPDATE, &[2, 2, 2, 2]),
    ("request-ltk", kind::KEY_REQUEST, &[2, 8, 2]),
    ("complete-disconnect", kind::COMPLETE_DISCONNECT, &[2]),
    ("remote-disconnect", kind::REMOTE_DISCONNECT, &[2, 1]),
    ("advertising-timeout", kind::TIMEOUT, &[]),
];

pub struct Run {
    controller: Controller,
    profile: BleProfile,
    stream: H4Stream,
}

impl Run {
    pub fn new() -> Run {
        Run { controller: Controller::default(), profile: bench_profile(), stream: H4Stream::new() }
    }

    /// What the source answers: events, packets or a value. The error says what the state has, or that there is no
    /// such step.
    pub fn step(&mut self, line: &str) -> Result<Vec<String>, String> {
        let words: Vec<&str> = line.split_whitespace().collect();
        let (name, rest) = words.split_first().expect("a step has words");
        BleProfile::set(self.profile.clone());
        if let Some(answers) = self.call(name, rest).or_else(|| functions::answers(name, rest)) {
            return Ok(answers);
        }
        if self.set(&words).is_some() {
            return Ok(Vec::new());
        }
        let (last, words) = words.split_last().expect("a step has words");
        match (self.state(words), value(last)) {
            (Some(state), Some(told)) if state == told => Ok(Vec::new()),
            (Some(state), Some(_)) => Err(format!("it is {state}")),
            _ => Err("no step, or no such link".to_string()),
        }
    }

    fn call(&mut self, name: &str, words: &[&str]) -> Option<Vec<String>> {
        let packets = match name {
            "packet" => self.packets(kind::PACKET, &octets(words)?),
            "feed" => match self.stream.feed(&octets(words)?) {
                Ok(packets) => packets,
                Err(octet) => return Some(vec![format!("lost at {octet:02X}")]),
            },
            "row_bitmap" if words.is_empty() => vec![row_bitmap(&self.profile).to_vec()],
            _ => {
                let (kind, p) = arguments(name, words)?;
                self.packets(kind, &p)
            }
        };
        Some(packets.iter().map(|packet| shown(packet)).collect())
    }

    fn packets(&mut self, kind: u8, p: &[u8]) -> Vec<Vec<u8>> {
        let call = Call::read(kind, p).expect("a step asks for a call");
        let reply = source::call(&mut self.controller, &Given::BENCH, &call);
        H4Stream::new().feed(&reply.octets).expect("the source gives whole packets")
    }

    /// A field of the profile, or a row.
    fn set(&mut self, words: &[&str]) -> Option<()> {
        match *words {
            ["profile", name, value] => self.set_field(name, value),
            ["row", opcode, answer] => self.set_row(number(opcode)?, answer, None),
            ["row", opcode, answer, bit] => self.set_row(number(opcode)?, answer, Some(number(bit)?)),
            _ => None,
        }
    }

    fn set_field(&mut self, name: &str, value: &str) -> Option<()> {
        let k = &mut self.profile.controller;
        match name {
            "hci_version" => k.hci_version = number(value)?,
            "hci_subversion" => k.hci_subversion = number(value)?,
            "lmp_version" => k.lmp_version = number(value)?,
            "company" => k.company = number(value)?,
            "lmp_subversion" => k.lmp_subversion = number(value)?,
            "le_features" => k.le_features = number(value)?,
            "acl_len" => k.acl_len = number(value)?,
            "acl_count" => k.acl_count = number(value)?,
            "accept_list_size" => k.accept_list_size = number(value)?,
            "resolving_list_size" => k.resolving_list_size = number(value)?,
            "adv_tx_power" => k.adv_tx_power = number(value)?,
            "tx_power_min" => k.tx_power_min = number(value)?,
            "tx_power_max" => k.tx_power_max = number(value)?,
            "max_tx_octets" => k.max_tx_octets = number(value)?,
            "max_tx_time" => k.max_tx_time = number(value)?,
            "max_adv_data_len" => k.max_adv_data_len = number(value)?,
            "adv_sets" => k.adv_sets = number(value)?,
            "num_command_packets" => k.num_command_packets = number(value)?,
            _ => return None,
        }
        Some(())
    }

    /// In place of the rows that the opcode has.
    fn set_row(&mut self, opcode: u16, answer: &str, bit: Option<u16>) -> Option<()> {
        let answer = match answer {
            "modelled" => Some(Answering::Modeled),
            "unmodelled" => Some(Answering::Unmodeled),
            "unknown" => Some(Answering::Unknown),
            "none" => None,
            _ => return None,
        };
        let supported = bit.map(|bit| ((bit / 8) as u8, (bit % 8) as u8));
        self.profile.commands.retain(|row| row.opcode != opcode);
        self.profile.commands.extend(answer.map(|answer| CommandRow { opcode, supported, answer }));
        Some(())
    }

    /// A number of the state, 1 for yes.
    fn state(&self, words: &[&str]) -> Option<i64> {
        let c = &self.controller;
        Some(match *words {
            ["in-use"] => c.acl_buffers_in_use() as i64,
            ["acl_packets"] => c.acl_packets as i64,
            ["acl_dropped"] => c.acl_dropped as i64,
            ["commands"] => c.commands as i64,
            ["advertising"] => c.advertising.enabled.into(),
            ["initiating"] => c.initiating.into(),
            ["family"] => c.advertising_family.into(),
            ["host_flow_control"] => c.host_flow_control.into(),
            ["held"] => self.stream.buffered() as i64,
            ["connected", handle] => c.has_connection(number(handle)?).into(),
            ["link", handle, name] => {
                let handle = number(handle)?;
                field(c.connections.iter().find(|link| link.handle == handle)?, name)?
            }
            _ => return None,
        })
    }
}

fn field(link: &Connection, name: &str) -> Option<i64> {
    Some(match name {
        "interval" => link.interval.into(),
        "latency" => link.latency.into(),
        "timeout" => link.timeout.into(),
        "tx_octets" => link.tx_octets.into(),
        "tx_time" => link.tx_time.into(),
        "tx_phy" => link.tx_phy.into(),
        "rx_phy" => link.rx_phy.into(),
        "terminating" => link.terminating.unwrap_or(0).into(),
        "ltk_requested" => link.ltk_requested.into(),
        "auth_payload_timeout" => link.auth_payload_timeout.into(),
        "waiting" => link.tx.len() as i64,
        _ => return None,
    })
}

/// A call's kind, and its arguments as a record has them.
fn arguments(name: &str, words: &[&str]) -> Option<(u8, Vec<u8>)> {
    let (_, kind, sizes) = CALLS.iter().find(|(call, ..)| *call == name)?;
    if words.len() != sizes.len() {
        return None;
    }
    let mut p = Vec::new();
    for (word, size) in words.iter().zip(*sizes) {
        match size {
            1 => p.push(number(word)?),
            2 => put_word(&mut p, number(word)?),
            _ => p.extend(octets(&[word]).filter(|octets| octets.len() == *size)?),
        }
    }
    Some((*kind, p))
}

fn value(word: &str) -> Option<i64> {
    match word {
        "yes" => Some(1),
        "no" => Some(0),
        _ => number(word),
    }
}
