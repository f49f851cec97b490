//! What a run dwells on. Calls spread evenly over everything would seldom fill a list or come back to a link.
use crate::ble::hci;
use crate::opcodes::OPCODES;
use crate::random::Random;
use crate::trial::kind::{
    ACCEPT, COMPLETED, COMPLETE_DISCONNECT, DROP, KEY_REQUEST, OPEN, PACKET, REMOTE_DISCONNECT, TAKE, TIMEOUT, UPDATE,
};

/// Besides the kinds of records: a data packet, and a packet that is neither a command nor data, or cut short.
pub const DATA: u8 = 100;
pub const ODD: u8 = 101;

pub struct Theme {
    /// What is called, and how often compared with the others; PACKET is a command.
    calls: &'static [(u8, usize)],
    /// None: any of the table.
    opcodes: &'static [u16],
    /// How many handles are in use at most.
    pub handles: usize,
}

pub const THEMES: [&Theme; 10] =
    [&ANYTHING, &LINKS, &TRAFFIC, &TRAFFIC, &FULL_BUFFERS, &LISTS, &AIR, &TEST, &LINK_COMMANDS, &OPCODES_ANYWHERE];

const ANYTHING: Theme = Theme {
    calls: &[
        (PACKET, 6),
        (DATA, 3),
        (ODD, 1),
        (TAKE, 1),
        (OPEN, 2),
        (COMPLETED, 1),
        (DROP, 1),
        (ACCEPT, 1),
        (UPDATE, 1),
        (KEY_REQUEST, 1),
        (COMPLETE_DISCONNECT, 1),
        (REMOTE_DISCONNECT, 1),
        (TIMEOUT, 1),
    ],
    opcodes: &[],
    handles: 6,
};

/// Opened until all sixteen places are taken.
const LINKS: Theme = Theme {
    calls: &[(OPEN, 4), (ACCEPT, 4), (COMPLETE_DISCONNECT, 1), (REMOTE_DISCONNECT, 1), (DATA, 2), (PACKET, 2), (TAKE, 1)],
    opcodes: &[0x0406, 0x2030, 0x0C7B, 0x0C01, 0x2001, 0x1405, 0x200A],
    handles: 24,
};

const TRAFFIC: Theme = Theme {
    calls: &[(DATA, 8), (TAKE, 4), (COMPLETED, 3), (DROP, 1), (OPEN, 1), (REMOTE_DISCONNECT, 1), (PACKET, 1)],
    opcodes: &[0x2002, 0x0C35, 0x0406],
    handles: 4,
};

/// Data until all buffers are in use.
const FULL_BUFFERS: Theme =
    Theme { calls: &[(DATA, 18), (TAKE, 1), (OPEN, 1), (COMPLETED, 1), (REMOTE_DISCONNECT, 1)], opcodes: &[], handles: 5 };

/// Both lists, and what locks them.
const LISTS: Theme = Theme {
    calls: &[(PACKET, 9), (TIMEOUT, 1)],
    opcodes: &[
        0x2011, 0x2011, 0x2011, 0x2011, 0x2011, 0x2011, 0x2012, 0x2012, 0x2027, 0x2027, 0x2027, 0x2027, 0x2027, 0x2028, 0x204E,
        0x204E, 0x202D, 0x202D, 0x200A, 0x200A, 0x200C, 0x200C, 0x200D, 0x200E, 0x200E, 0x2006, 0x200B, 0x2010, 0x2028, 0x2028,
    ],
    handles: 2,
};

/// Advertising of both families, scanning and initiating; resets so that the families change.
const AIR: Theme = Theme {
    calls: &[(PACKET, 8), (ACCEPT, 1), (TIMEOUT, 1)],
    opcodes: &[
        0x2005, 0x2005, 0x2006, 0x2006, 0x2006, 0x2007, 0x2008, 0x2008, 0x2009, 0x2009, 0x200A, 0x200A, 0x200A, 0x200B, 0x200B,
        0x200C, 0x200C, 0x200D, 0x200D, 0x200D, 0x200E, 0x200E, 0x203A, 0x203B, 0x2036, 0x205C, 0x0C03, 0x0C03, 0x0C01, 0x2001,
    ],
    handles: 3,
};

/// Tests start from an idle state alone.
const TEST: Theme = Theme {
    calls: &[(PACKET, 10), (COMPLETE_DISCONNECT, 1), (ACCEPT, 1)],
    opcodes: &[
        0x201D, 0x201D, 0x201E, 0x201E, 0x2033, 0x2033, 0x2034, 0x2034, 0x201F, 0x201F, 0x201F, 0x201F, 0x0C03, 0x204C, 0x204D,
        0x204D, 0x204B, 0x2031, 0x2024, 0x202E, 0x200C,
    ],
    handles: 1,
};

const LINK_COMMANDS: Theme = Theme {
    calls: &[(PACKET, 10), (KEY_REQUEST, 2), (UPDATE, 1), (OPEN, 1), (ACCEPT, 1), (COMPLETE_DISCONNECT, 1)],
    opcodes: &[
        0x0406, 0x041D, 0x0C2D, 0x0C7B, 0x0C7C, 0x0C7C, 0x1405, 0x2013, 0x2013, 0x2015, 0x2016, 0x2019, 0x201A, 0x201A, 0x201B,
        0x2020, 0x2020, 0x2021, 0x2022, 0x2022, 0x2030, 0x2032, 0x2032, 0x0C01, 0x2001, 0x0C63,
    ],
    handles: 4,
};

const OPCODES_ANYWHERE: Theme = Theme { calls: &[(PACKET, 1)], opcodes: &[0], handles: 2 };

impl Theme {
    /// A kind of record, DATA or ODD.
    pub fn call(&self, random: &mut Random) -> u8 {
        let mut left = random.below(self.calls.iter().map(|(_, weight)| weight).sum());
        for (call, weight) in self.calls {
            if left < *weight {
                return *call;
            }
            left -= weight;
        }
        PACKET
    }

    pub fn opens_links(&self) -> bool {
        self.calls.iter().any(|(call, _)| *call == OPEN)
    }

    /// Mostly of the theme; now and then any of the table, or of all 65,536.
    pub fn opcode(&self, random: &mut Random) -> u16 {
        if self.opcodes == [0] || random.once_in(50) {
            return opcode_anywhere(random);
        }
        if self.opcodes.is_empty() || random.once_in(10) {
            return random.pick(&OPCODES).0;
        }
        random.pick(self.opcodes)
    }
}

/// Asynchronous ones, vendor's, the extended advertising family's and its neighbours, those of the table and theirs, or any.
fn opcode_anywhere(random: &mut Random) -> u16 {
    match random.below(6) {
        0 => random.pick(&hci::ASYNC_OPCODES),
        1 => random.near(&[0xFC00, 0xFFFF, 0xFC01]),
        2 => random.near(&[0x2036, 0x204A, 0x205C, 0x205D, 0x2040]),
        3 => random.pick(&OPCODES).0,
        4 => random.pick(&OPCODES).0.wrapping_add(1),
        _ => random.word(),
    }
}
