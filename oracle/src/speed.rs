//! How long a call takes on both sides, by scenario. Each is called as its user calls it, without records in between: the port
//! with its state by value, which the call gives back, and buffers that are lent; the source by its own functions, which
//! allocate what they give. Buffers, packets and state are made ready before the clock starts.
//!
//! A scenario runs with n turns and with 2 n, each several times. The difference of the two shortest times is the time of n
//! turns.
use crate::ble::controller::Controller;
use crate::ble::profile::BleProfile;
use crate::call::Call;
use crate::clock;
use crate::compare::{Case, Sides};
use crate::counts::Counts;
use crate::port::calls;
use crate::questions::Handed;
use crate::scenarios::{self, Scenario};
use crate::setup::{self, Setup};
use crate::source::{self, Given};
use crate::trial::{answers, records, Trial};
use std::hint::black_box;
use std::time::Duration;

const TURNS: usize = 4_000;
/// Turns in which both sides have to give the same answers.
const CHECKED: usize = 50;
/// How often each is timed unless said otherwise.
pub const TIMES: usize = 7;

#[derive(Clone, Copy)]
pub enum Side {
    Source,
    Port,
}

impl Side {
    pub fn named(name: &str) -> Option<Side> {
        match name {
            "source" => Some(Side::Source),
            "port" => Some(Side::Port),
            _ => None,
        }
    }
}

/// How long so many turns take, from the scenario's state.
pub fn time(side: Side, scenario: &Scenario, turns: usize) -> Duration {
    let trial = scenario.trial(0);
    let setup = setup::read(&trial.setup).expect("a scenario has a setup");
    match side {
        Side::Source => time_source(scenario, &setup, turns),
        Side::Port => time_port(scenario, &setup, &trial, turns),
    }
}

fn time_source(scenario: &Scenario, setup: &Setup, turns: usize) -> Duration {
    BleProfile::set(setup.loaded.clone());
    let given = Given { address: setup.address, random: setup.random, ..Given::BENCH };
    let mut controller = Controller::default();
    for call in scenario.state() {
        source::call(&mut controller, &given, &call);
    }
    let turn = scenario.turn();
    clock::measured(|| repeat(&mut controller, &turn, turns, setup.address)).1
}

/// The calls of a turn, over and over, by the source's own functions.
fn repeat(c: &mut Controller, turn: &[Call], turns: usize, address: [u8; 6]) {
    for _ in 0..turns {
        for call in turn {
            match *call {
                Call::Packet(packet) => drop(black_box(c.on_packet(address, packet, &mut |octets| octets.fill(0)))),
                Call::Take { handle, most } => drop(black_box(c.take_transmit(handle, most))),
                Call::Completed { handle, count } => drop(black_box(c.completed(handle, count))),
                _ => unreachable!("no turn has other calls"),
            }
        }
    }
}

fn time_port(scenario: &Scenario, setup: &Setup, trial: &Trial, turns: usize) -> Duration {
    let mut pool = vec![0; trial.pool];
    let mut out = vec![0; trial.packets.max(trial.events)];
    let start = calls::start();
    let handed = Handed { profile: &setup.profile, rows: setup.rows(), state: &start, pool: pool.len(), room: out.len() };
    let state = calls::repeat(&scenario.state(), 1, &handed, &setup.address, &mut pool, &mut out);
    let handed = Handed { state: &state, ..handed };
    let turn = scenario.turn();
    clock::measured(|| black_box(calls::repeat(&turn, turns, &handed, &setup.address, &mut pool, &mut out))).1
}

/// Both sides have to give the same answers, to all records: else the times would be of different things.
fn check(scenario: &Scenario) -> Result<(), String> {
    let name = &scenario.name;
    let trial = scenario.trial(CHECKED);
    let mut octets = Vec::new();
    source::run(&trial, &mut octets, &mut Counts::off());
    let records = records(&trial.input);
    if answers(&records, &octets).len() != records.len() {
        return Err(format!("{name}: not all records are answered"));
    }
    match Sides::default().compare(&Case::Trial(trial), &mut Counts::off()) {
        Some(difference) => Err(format!("{name}: {}", difference.words.unwrap_or("the answers differ".to_string()))),
        None => Ok(()),
    }
}

/// A scenario, and its shortest times with n and with 2 n turns, of the source and of the port.
struct Row {
    scenario: Scenario,
    best: [[Duration; 2]; 2],
}

impl Row {
    fn time(&mut self, side: Side) {
        for (turns, best) in [TURNS, 2 * TURNS].into_iter().zip(&mut self.best[side as usize]) {
            *best = time(side, &self.scenario, turns).min(*best);
        }
    }

    fn print(&self) {
        let Scenario { name, .. } = &self.scenario;
        let calls = self.scenario.calls_a_turn();
        let a_call = |[once, twice]: [Duration; 2]| (twice.as_secs_f64() - once.as_secs_f64()) * 1e9 / (TURNS * calls) as f64;
        let [source, port] = self.best.map(a_call);
        println!("{name:<24}{calls:>12}{source:>10.1}{port:>10.1}{:>14.2}", port / source);
    }
}

/// A row for each scenario. The times of one lie apart, with those of all others between, so that a slow moment of the machine
/// doesn't meet all of them; the side that goes first changes.
pub fn print(times: usize) -> Result<(), String> {
    let mut rows = Vec::new();
    for scenario in scenarios::all() {
        check(&scenario)?;
        rows.push(Row { scenario, best: [[Duration::MAX; 2]; 2] });
    }
    let mut sides = [Side::Source, Side::Port];
    for _ in 0..times {
        for row in &mut rows {
            sides.iter().for_each(|side| row.time(*side));
        }
        sides.reverse();
    }
    println!("nanoseconds a call; {TURNS} turns, best of {times}");
    println!("{:<24}{:>12}{:>10}{:>10}{:>14}", "scenario", "calls a turn", "source", "port", "port / source");
    rows.iter().for_each(Row::print);
    Ok(())
}

/// The scenarios' names, and how many calls a turn of each has.
pub fn list() {
    for scenario in scenarios::all() {
        println!("{} {}", scenario.name, scenario.calls_a_turn());
    }
}
