//! Profiles around their limits, rows of every answer, and buffers that just fit or just don't.
use crate::ble::hci;
use crate::ble::profile::ControllerRow;
use crate::octets::word_at;
use crate::opcodes::OPCODES;
use crate::questions::MOST_ROWS;
use crate::random::Random;
use crate::setup::{self, HEAD};

/// A row as the setup has it: opcode, answer, bit number.
type Row = (u16, u8, u16);

/// A setup and its acl_len. One in some hundred passes a limit or has octets cut.
pub fn setup(random: &mut Random, long_packets: bool) -> (Vec<u8>, u16) {
    let controller = controller(random, long_packets);
    let mut setup = setup::head(&controller, random.octets(), random.octets());
    for row in rows(random) {
        put_row(&mut setup, row);
    }
    if random.once_in(300) {
        setup.truncate(random.pick(&[0, 111, HEAD - 1, HEAD, HEAD + 1, setup.len() - 1]));
    }
    (setup, controller.acl_len)
}

/// The bench's profile, with each opcode of the table modelled.
pub fn plain_setup() -> Vec<u8> {
    modelled_setup(&setup::bench_controller())
}

/// A profile, with each opcode of the table modelled.
pub fn modelled_setup(controller: &ControllerRow) -> Vec<u8> {
    let mut setup = setup::head(controller, [1, 2, 3, 4, 5, 6], [9; 8]);
    for (opcode, _) in OPCODES {
        put_row(&mut setup, (opcode, 0, 0xFFFF));
    }
    setup
}

fn put_row(setup: &mut Vec<u8>, (opcode, answer, bit): Row) {
    setup.extend(opcode.to_le_bytes());
    setup.push(answer);
    setup.extend(bit.to_le_bytes());
}

fn controller(random: &mut Random, long_packets: bool) -> ControllerRow {
    let features = random.number();
    let any_len = 27 + random.below(993) as u16;
    let long = long_packets && random.once_in(6);
    let acl_len = if long { random.pick(&[251, 1018, 1019, any_len]) } else { random.pick(&[27, 27, 28, 40]) };
    let mut row = ControllerRow {
        hci_version: random.octet(),
        hci_subversion: random.word(),
        lmp_version: random.octet(),
        company: random.word(),
        lmp_subversion: random.word(),
        supported_commands: random.octets(),
        lmp_features: random.octets(),
        le_features: random.pick(&[0, 1 << 8, 1 << 11, 1 << 8 | 1 << 11, features]),
        supported_states: random.octets(),
        acl_len,
        acl_count: random.pick(&[1, 2, 2, 3, 8, 31, 32]),
        accept_list_size: random.pick(&[0, 1, 2, 5, 31, 32]),
        resolving_list_size: random.pick(&[0, 1, 2, 5, 15, 16]),
        adv_tx_power: random.octet() as i8,
        tx_power_min: random.octet() as i8,
        tx_power_max: random.pick(&[-128, -1, 0, 19, 20, 21, 127]),
        max_tx_octets: random.pick(&[0, 27, 28, 250, 251, 252, 65_535]),
        max_tx_time: random.pick(&[0, 327, 328, 2_120, 17_040, 65_535]),
        max_adv_data_len: random.word(),
        adv_sets: random.octet(),
        num_command_packets: random.pick(&[0, 1, 5, 255]),
    };
    if random.once_in(300) {
        pass_a_limit(random, &mut row);
    }
    row
}

fn pass_a_limit(random: &mut Random, row: &mut ControllerRow) {
    match random.below(4) {
        0 => row.acl_len = random.pick(&[0, 26, 1_020, 65_535]),
        1 => row.acl_count = random.pick(&[0, 33, 255]),
        2 => row.accept_list_size = random.pick(&[33, 255]),
        _ => row.resolving_list_size = random.pick(&[17, 255]),
    }
}

/// Most runs have each opcode of the table modelled; the others have rows left out, answered otherwise, twice or of opcodes
/// beyond the table, up to 256.
fn rows(random: &mut Random) -> Vec<Row> {
    let mut rows: Vec<Row> = OPCODES.iter().map(|(op, _)| (*op, 0, bit(random))).collect();
    if random.once_in(3) {
        rows.retain(|_| !random.once_in(10));
        for row in &mut rows {
            row.1 = random.pick(&[0, 0, 0, 0, 0, 0, 0, 0, 1, 2]);
        }
        for _ in 0..random.below(60) {
            let row = any_row(random);
            let at = random.below(rows.len() + 1);
            rows.insert(at, row);
        }
    }
    match random.below(200) {
        0 => rows.clear(),
        1 => rows.resize_with(MOST_ROWS, || any_row(random)),
        2 => rows.resize_with(MOST_ROWS + 1, || any_row(random)),
        3 => {
            let at = random.below(rows.len());
            rows[at].1 = random.pick(&[3, 4, 255]);
        }
        _ => {}
    }
    rows
}

fn any_row(random: &mut Random) -> Row {
    let opcode = match random.below(5) {
        0 => random.pick(&hci::ASYNC_OPCODES),
        1 => random.near(&[0xFC00, 0xFFFF]),
        2 => random.near(&[0x2036, 0x2039, 0x204A, 0x205C]),
        3 => random.word(),
        _ => random.pick(&OPCODES).0,
    };
    (opcode, random.below(3) as u8, bit(random))
}

fn bit(random: &mut Random) -> u16 {
    let any = random.word();
    random.pick(&[0xFFFF, 0, 511, 512, any % 512, any])
}

/// Octets of pool, event buffer and buffer for packets.
pub fn buffers(random: &mut Random, setup: &[u8]) -> [usize; 3] {
    let (place, count) = match setup.get(98) {
        Some(count) => (usize::from(word_at(setup, 96)) + 5, usize::from(*count)),
        None => (32, 2),
    };
    let needed = place * count;
    let pool =
        if random.once_in(200) { needed.saturating_sub(1) } else { random.pick(&[needed, needed, needed + 1, needed + 500]) };
    let events = if random.once_in(40) { random.pick(&[0, 7, 70]) } else { random.pick(&[71, 71, 72, 255]) };
    let packets = if random.once_in(4) {
        random.pick(&[0, 4, 5, 6, place - 1, place, place + 1, 2 * place - 1, 2 * place])
    } else {
        needed
    };
    [pool, events, packets]
}
