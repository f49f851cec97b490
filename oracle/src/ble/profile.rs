//! What `controller.rs` uses of the source's `profile.rs`. There a profile is parsed from `ble.toml`, which isn't at hand; here
//! it is the one that the run at hand was set up with.
use std::cell::Cell;
use std::ptr;

#[derive(Clone, Debug, PartialEq, Eq)]
pub struct ControllerRow {
    pub hci_version: u8,
    pub hci_subversion: u16,
    pub lmp_version: u8,
    pub company: u16,
    pub lmp_subversion: u16,
    pub supported_commands: [u8; 64],
    pub lmp_features: [u8; 8],
    pub le_features: u64,
    pub supported_states: [u8; 8],
    pub acl_len: u16,
    pub acl_count: u8,
    pub accept_list_size: u8,
    pub resolving_list_size: u8,
    pub adv_tx_power: i8,
    pub tx_power_min: i8,
    pub tx_power_max: i8,
    pub max_tx_octets: u16,
    pub max_tx_time: u16,
    pub max_adv_data_len: u16,
    pub adv_sets: u8,
    pub num_command_packets: u8,
}

#[derive(Copy, Clone, Debug, PartialEq, Eq)]
pub enum Answering {
    Modeled,
    Unmodeled,
    Unknown,
}

#[derive(Clone, Debug, PartialEq, Eq)]
pub struct CommandRow {
    pub opcode: u16,
    pub supported: Option<(u8, u8)>,
    pub answer: Answering,
}

#[derive(Clone, Debug, PartialEq, Eq)]
pub struct BleProfile {
    pub controller: ControllerRow,
    pub commands: Vec<CommandRow>,
}

thread_local! {
    /// The profile of the run at hand, boxed.
    static LOADED: Cell<*mut BleProfile> = const { Cell::new(ptr::null_mut()) };
}

impl BleProfile {
    /// The source calls this wherever it needs the profile, and wants it to live for ever.
    pub fn load() -> &'static BleProfile {
        let loaded = LOADED.get();
        assert!(!loaded.is_null(), "a profile is set before each run");
        // SAFETY: the box lives until the next `set`, and no call of the source keeps a reference beyond its end.
        unsafe { &*loaded }
    }

    /// Sets what `load` gives from now on. Never within a call of the source.
    pub fn set(profile: BleProfile) {
        let before = LOADED.replace(Box::into_raw(Box::new(profile)));
        if !before.is_null() {
            // SAFETY: it came from `Box::into_raw` in an earlier `set`, and nothing refers to it between two runs. Leaking it
            // instead would cost gigabytes in a long comparison.
            drop(unsafe { Box::from_raw(before) });
        }
    }
}
