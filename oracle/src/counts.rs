//! What was compared, and the table of it.
use crate::ble::hci;
use crate::hci::{Function, FUNCTIONS};
use crate::opcodes::OPCODES;
use crate::trial::{kind, KINDS};

/// Of one kind of call.
#[derive(Clone, Copy, Default)]
struct Calls {
    calls: u64,
    refused: u64,
    /// Accepted calls with events or packets.
    answered: u64,
}

pub struct Counts {
    kinds: [Calls; KINDS.len()],
    refusals: [u64; 11],
    /// By opcode: all commands, and those answered with status 0.
    commands: Vec<[u64; 2]>,
    statuses: [u64; 256],
    /// Packets by their first octet: commands, short commands, data, others.
    packets: [u64; 4],
    lines: u64,
    /// Strange calls by their number.
    strange: [u64; 11],
    /// Functions of hci.rs: calls, and refused ones.
    functions: [(u64, u64); FUNCTIONS.len()],
    /// Runs by the name of how they were made.
    runs: Vec<(&'static str, u64)>,
}

impl Counts {
    pub fn new() -> Counts {
        Counts { commands: vec![[0; 2]; 65_536], ..Counts::off() }
    }

    /// For runs that aren't part of the comparison: opcodes aren't counted, which would need room for all.
    pub fn off() -> Counts {
        Counts {
            kinds: Default::default(),
            refusals: [0; 11],
            commands: Vec::new(),
            statuses: [0; 256],
            packets: [0; 4],
            lines: 0,
            strange: [0; 11],
            functions: [(0, 0); FUNCTIONS.len()],
            runs: Vec::new(),
        }
    }

    /// A run that was made in this way.
    pub fn run(&mut self, name: &'static str) {
        match self.runs.iter_mut().find(|(n, _)| *n == name) {
            Some((_, count)) => *count += 1,
            None => self.runs.push((name, 1)),
        }
    }

    /// A state shown, disturbed or handed in, queries or a strange call made.
    pub fn asked(&mut self, kind: u8) {
        self.kinds[usize::from(kind)].calls += 1;
    }

    /// A strange call that answered with this number.
    pub fn strange(&mut self, number: u8) {
        self.strange[usize::from(number)] += 1;
        self.kinds[usize::from(kind::STRANGE)].refused += u64::from(number != 0);
    }

    /// Calls of a function of hci.rs, and refused ones.
    pub fn function(&mut self, at: usize, (calls, refused): (u64, u64)) {
        let function = &mut self.functions[at];
        *function = (function.0 + calls, function.1 + refused);
    }

    pub fn line(&mut self, kind: u8, p: &[u8], number: u8, octets: &[u8]) {
        self.lines += 1;
        self.call(kind, p, number, octets);
    }

    /// A call of this kind with these octets, its refusal number and what it wrote.
    pub fn call(&mut self, kind: u8, p: &[u8], number: u8, octets: &[u8]) {
        let calls = &mut self.kinds[usize::from(kind)];
        calls.calls += 1;
        calls.refused += u64::from(number != 0);
        calls.answered += u64::from(!octets.is_empty());
        self.refusals[usize::from(number)] += 1;
        if kind == kind::PACKET && number == 0 && !self.commands.is_empty() {
            self.packet(p, octets);
        }
    }

    fn packet(&mut self, p: &[u8], octets: &[u8]) {
        let command = hci::Command::parse(p);
        let class = match (p.first(), &command) {
            (Some(&hci::H4_COMMAND), Some(_)) => 0,
            (Some(&hci::H4_COMMAND), None) => 1,
            (Some(&hci::H4_ACL), _) => 2,
            _ => 3,
        };
        self.packets[class] += 1;
        let Some(command) = command else { return };
        let status = match octets {
            [_, hci::event::COMMAND_COMPLETE, _, _, _, _, status, ..] => Some(*status),
            [_, hci::event::COMMAND_STATUS, _, status, ..] => Some(*status),
            _ => None,
        };
        let row = &mut self.commands[usize::from(command.opcode)];
        row[0] += 1;
        row[1] += u64::from(status == Some(0));
        if let Some(status) = status {
            self.statuses[usize::from(status)] += 1;
        }
    }

    /// Calls made, states and queries not counted.
    pub fn calls(&self) -> u64 {
        self.kinds[..usize::from(kind::STATE)].iter().map(|k| k.calls).sum()
    }

    pub fn print(&self) {
        println!("{:<22}{:>12}{:>12}{:>12}", "call", "compared", "refused", "with octets");
        for ((name, _), k) in KINDS.iter().zip(&self.kinds) {
            println!("{name:<22}{:>12}{:>12}{:>12}", k.calls, k.refused, k.answered);
        }
        println!("{:<22}{:>12}", "calls in all", self.calls());
        println!("{:<22}{:>12}", "of these, bench lines", self.lines);
        let [commands, short, data, others] = self.packets;
        println!("\npackets: {commands} commands, {short} short commands, {data} data, {others} others");
        self.print_commands();
        println!("calls by refusal number, 0 where they pass: {}", by_number(&self.refusals));
        println!("strange calls by number, 0 where they pass: {}", by_number(&self.strange));
        let runs: Vec<_> = self.runs.iter().map(|(name, n)| format!("{n} {name}")).collect();
        println!("runs: {}", runs.join(", "));
        if self.functions.iter().any(|(calls, _)| *calls > 0) {
            self.print_functions();
        }
    }

    fn print_functions(&self) {
        println!("\n{:<30}{:>12}{:>18}", "function", "compared", "refused, no room");
        for (Function { name, .. }, (calls, refused)) in FUNCTIONS.iter().zip(&self.functions) {
            println!("{name:<30}{calls:>12}{refused:>18}");
        }
        let calls: u64 = self.functions.iter().map(|(calls, _)| calls).sum();
        println!("{:<30}{calls:>12}", "functions in all");
    }

    /// The opcode of the table with the fewest commands answered with status 0, of those that can be, and how many.
    pub fn fewest_succeeded(&self) -> (u64, u16) {
        // resolvable addresses are never given, and the host's own report is silent
        let can = OPCODES.iter().map(|(op, _)| *op).filter(|op| ![0x0C35, 0x202B, 0x202C].contains(op));
        can.map(|op| (self.commands[usize::from(op)][1], op)).min().expect("there are opcodes")
    }

    fn print_commands(&self) {
        let made = OPCODES.map(|(op, _)| (self.commands[usize::from(op)][0], op));
        let (least, least_op) = made.iter().min().expect("there are opcodes");
        let (fewest, fewest_op) = self.fewest_succeeded();
        let others = self.commands.iter().filter(|n| n[0] > 0).count() - made.iter().filter(|(n, _)| *n > 0).count();
        println!(
            "commands: {} opcodes of the table, at least {least} each ({least_op:#06x}), at least {fewest} of each that can \
             with status 0 ({fewest_op:#06x}); {others} other opcodes",
            made.len(),
        );
        let statuses = self.statuses.iter().enumerate().filter(|(_, n)| **n > 0);
        let statuses: Vec<_> = statuses.map(|(status, n)| format!("{status:#04x}: {n}")).collect();
        println!("statuses: {}", statuses.join(", "));
        let [made, succeeded] = self.commands[0x200D];
        println!("0x200d, which amendment E4 stands before: {made}, {succeeded} with status 0");
    }
}

/// Each number with how often it came.
fn by_number(counts: &[u64]) -> String {
    let met = counts.iter().enumerate().filter(|(_, count)| **count > 0);
    let list: Vec<_> = met.map(|(number, count)| format!("{number}: {count}")).collect();
    list.join(", ")
}
