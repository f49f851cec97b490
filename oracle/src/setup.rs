//! What a run is set up with, read from octets: a profile, the public address, the random number and the rows.
//! `crates/replay/src` reads the same form.
use crate::ble::profile::{Answering, BleProfile, CommandRow, ControllerRow};
use crate::octets::{array_at, long_at, word_at};
use crate::port::raw::Profile;
use crate::questions::{pool_octets, within_limits, Rows, MOST_ROWS};
use crate::trial::Trial;

/// Octets before the rows, of which the profile's own are 112, and octets of a row.
pub const HEAD: usize = 126;
pub const ROW: usize = 5;

pub struct Setup {
    /// As the source has it.
    pub loaded: BleProfile,
    /// As the port has it, and the rows in three slices.
    pub profile: Profile,
    pub opcodes: Vec<u16>,
    pub answers: Vec<u8>,
    pub bits: Vec<u16>,
    pub address: [u8; 6],
    pub random: [u8; 8],
}

impl Setup {
    pub fn rows(&self) -> Rows<'_> {
        Rows { opcodes: &self.opcodes, answers: &self.answers, bits: &self.bits }
    }
}

/// None where the octets are too few or a row is cut short. Limits are passed as they stand: questions ask for them.
pub fn read(octets: &[u8]) -> Option<Setup> {
    let rows = octets.get(HEAD..)?.chunks_exact(ROW);
    if !rows.remainder().is_empty() {
        return None;
    }
    let controller = controller(octets);
    let opcodes: Vec<u16> = rows.clone().map(|row| word_at(row, 0)).collect();
    let answers: Vec<u8> = rows.clone().map(|row| row[2]).collect();
    let bits: Vec<u16> = rows.map(|row| word_at(row, 3)).collect();
    let profile = profile(&controller);
    let commands = commands(&Rows { opcodes: &opcodes, answers: &answers, bits: &bits });
    let loaded = BleProfile { controller, commands };
    Some(Setup { loaded, profile, opcodes, answers, bits, address: array_at(octets, 112), random: array_at(octets, 118) })
}

/// Whether `crates/replay` answers a run at all: its setup can be read and keeps the limits of profile, rows and pool.
pub fn is_replayed(trial: &Trial) -> bool {
    read(&trial.setup).is_some_and(|setup| {
        within_limits(&setup.profile) && setup.opcodes.len() <= MOST_ROWS && trial.pool >= pool_octets(&setup.profile)
    })
}

/// The rows as the source has them, as many as all slices have; an answer above 2 is unknown, and no call is made with it.
pub fn commands(rows: &Rows) -> Vec<CommandRow> {
    let list = rows.opcodes.iter().zip(rows.answers).zip(rows.bits);
    list.map(|((opcode, answer), bit)| CommandRow {
        opcode: *opcode,
        answer: match answer {
            0 => Answering::Modeled,
            1 => Answering::Unmodeled,
            _ => Answering::Unknown,
        },
        supported: u8::try_from(bit / 8).ok().map(|octet| (octet, (bit % 8) as u8)),
    })
    .collect()
}

/// A profile of another type with the same fields.
macro_rules! same_fields {
    ($from:expr, $to:ident) => {
        same_fields!($from, $to,
            hci_version hci_subversion lmp_version company lmp_subversion supported_commands lmp_features le_features
            supported_states acl_len acl_count accept_list_size resolving_list_size adv_tx_power tx_power_min tx_power_max
            max_tx_octets max_tx_time max_adv_data_len adv_sets num_command_packets)
    };
    ($from:expr, $to:ident, $($field:ident)*) => {
        $to { $($field: $from.$field),* }
    };
}

/// The port's profile of the source's.
pub fn profile(row: &ControllerRow) -> Profile {
    same_fields!(row, Profile)
}

/// The source's profile of the port's.
pub fn controller_row(profile: &Profile) -> ControllerRow {
    same_fields!(profile, ControllerRow)
}

fn controller(octets: &[u8]) -> ControllerRow {
    ControllerRow {
        hci_version: octets[0],
        hci_subversion: word_at(octets, 1),
        lmp_version: octets[3],
        company: word_at(octets, 4),
        lmp_subversion: word_at(octets, 6),
        supported_commands: array_at(octets, 8),
        lmp_features: array_at(octets, 72),
        le_features: long_at(octets, 80),
        supported_states: array_at(octets, 88),
        acl_len: word_at(octets, 96),
        acl_count: octets[98],
        accept_list_size: octets[99],
        resolving_list_size: octets[100],
        adv_tx_power: octets[101] as i8,
        tx_power_min: octets[102] as i8,
        tx_power_max: octets[103] as i8,
        max_tx_octets: word_at(octets, 104),
        max_tx_time: word_at(octets, 106),
        max_adv_data_len: word_at(octets, 108),
        adv_sets: octets[110],
        num_command_packets: octets[111],
    }
}

/// The profile's octets, address and random number of a setup without rows.
pub fn head(k: &ControllerRow, address: [u8; 6], random: [u8; 8]) -> Vec<u8> {
    let mut out = vec![k.hci_version];
    out.extend(k.hci_subversion.to_le_bytes());
    out.push(k.lmp_version);
    out.extend(k.company.to_le_bytes());
    out.extend(k.lmp_subversion.to_le_bytes());
    out.extend(k.supported_commands);
    out.extend(k.lmp_features);
    out.extend(k.le_features.to_le_bytes());
    out.extend(k.supported_states);
    out.extend(k.acl_len.to_le_bytes());
    out.extend([k.acl_count, k.accept_list_size, k.resolving_list_size]);
    out.extend([k.adv_tx_power as u8, k.tx_power_min as u8, k.tx_power_max as u8]);
    out.extend(k.max_tx_octets.to_le_bytes());
    out.extend(k.max_tx_time.to_le_bytes());
    out.extend(k.max_adv_data_len.to_le_bytes());
    out.extend([k.adv_sets, k.num_command_packets]);
    out.extend(address);
    out.extend(random);
    out
}

/// The bench's profile of document 01: 27 octets, 2 buffers, both lists 2.
pub fn bench_controller() -> ControllerRow {
    ControllerRow {
        hci_version: 0,
        hci_subversion: 0,
        lmp_version: 0,
        company: 0,
        lmp_subversion: 0,
        supported_commands: [0; 64],
        lmp_features: [0; 8],
        le_features: 0x100,
        supported_states: [0; 8],
        acl_len: 27,
        acl_count: 2,
        accept_list_size: 2,
        resolving_list_size: 2,
        adv_tx_power: 0,
        tx_power_min: 0,
        tx_power_max: 9,
        max_tx_octets: 251,
        max_tx_time: 2120,
        max_adv_data_len: 0,
        adv_sets: 0,
        num_command_packets: 5,
    }
}
