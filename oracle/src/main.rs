//! Compares the port with the source that it was ported from, call by call. README.md says how to run it.
mod aes;
mod amendments;
mod ble;
mod call;
mod clock;
mod compare;
mod counts;
mod dump;
mod exhaust;
mod generate;
mod hci;
mod inputs;
mod lines;
mod octets;
mod opcodes;
mod port;
mod questions;
mod random;
mod sample;
mod scenarios;
mod setup;
mod show;
mod shrink;
mod snap;
mod source;
mod speed;
mod trial;

// the source names the crates it leans on by this name
extern crate self as pemu_core;

use compare::{Case, Sides};
use counts::Counts;
use generate::Size;
use port::plant::Plant;
use random::Random;
use speed::Side;
use std::io::{self, Read, Write};
use std::path::Path;
use std::process::ExitCode;
use std::time::{Duration, Instant};
use std::{env, fs::File};

const CALLS: u64 = 10_000_000;
const SECONDS: u64 = 1_800;
const SEED: u64 = 1;
/// Each function of hci.rs is compared once for so many calls, at random, and so many times at most.
const CALLS_FOR_EACH: u64 = 64;
const MOST_TIMES: u64 = 1_000_000;
const USAGE: &str = "usage: oracle [calls] [seconds] [seed] | oracle sample FOLDER | oracle lines
     | oracle departures | oracle conditions
     | oracle speed [times] | oracle speed-once source|port SCENARIO TURNS | oracle scenarios";

fn main() -> ExitCode {
    let words: Vec<String> = env::args().skip(1).collect();
    let words: Vec<&str> = words.iter().map(String::as_str).collect();
    match words[..] {
        ["sample", folder] => write_sample(Path::new(folder)),
        ["lines"] => print_lines(),
        ["departures"] => return inputs::print(inputs::DEPARTURES),
        ["conditions"] => return inputs::print(inputs::CONDITIONS),
        ["scenarios"] => speed::list(),
        ["speed"] => return print_speed(speed::TIMES),
        ["speed", times] => return times.parse().map_or_else(|_| usage(), print_speed),
        ["speed-once", side, scenario, turns] => return speed_once(side, scenario, turns),
        _ => return compare(&words),
    }
    ExitCode::SUCCESS
}

fn usage() -> ExitCode {
    eprintln!("{USAGE}");
    ExitCode::from(2)
}

fn print_speed(times: usize) -> ExitCode {
    say_who_answers(&Sides::default());
    match speed::print(times.max(1)) {
        Ok(()) => ExitCode::SUCCESS,
        Err(words) => {
            eprintln!("{words}");
            ExitCode::FAILURE
        }
    }
}

/// One side once, for a tool that counts.
fn speed_once(side: &str, scenario: &str, turns: &str) -> ExitCode {
    let (Some(side), Some(scenario), Ok(turns)) = (Side::named(side), scenarios::named(scenario), turns.parse()) else {
        return usage();
    };
    if matches!(side, Side::Port) {
        say_who_answers(&Sides::default());
    }
    speed::time(side, &scenario, turns);
    ExitCode::SUCCESS
}

fn write_sample(folder: &Path) {
    let file = |name| io::BufWriter::new(File::create(folder.join(name)).expect("the sample's files can be written"));
    let counts = sample::write(&mut file("stdin"), &mut file("stdout")).expect("the sample's files can be written");
    counts.print();
}

/// Bench lines from standard input, by the source.
fn print_lines() {
    let mut input = Vec::new();
    io::stdin().read_to_end(&mut input).expect("standard input can be read");
    let mut out = Vec::new();
    lines::run(&input, usize::MAX, &mut out, &mut Counts::off());
    io::stdout().write_all(&out).expect("standard output can be written");
}

/// How long to go on.
struct Limits {
    calls: u64,
    end: Instant,
    seed: u64,
}

fn compare(words: &[&str]) -> ExitCode {
    let numbers: Option<Vec<u64>> = words.iter().map(|word| word.parse().ok()).collect();
    let Some(numbers) = numbers.filter(|numbers| numbers.len() <= 3) else {
        return usage();
    };
    let number = |at: usize, otherwise| numbers.get(at).copied().unwrap_or(otherwise);
    let start = Instant::now();
    let end = start + Duration::from_secs(number(1, SECONDS));
    let limits = Limits { calls: number(0, CALLS), end, seed: number(2, SEED) };
    let mut sides = Sides::default();
    if let Ok(name) = env::var("ORACLE_PLANT") {
        sides.port.plant = Plant::named(&name);
        if sides.port.plant.is_none() {
            eprintln!("ORACLE_PLANT is none of {}", Plant::names());
            return ExitCode::from(2);
        }
    }
    say_who_answers(&sides);
    let mut counts = Counts::new();
    if let Some((case, run)) = run_all(&mut sides, &mut counts, &limits) {
        let case = shrink::shrink(case, &mut |case| sides.differs(case));
        println!("a difference, in {run}, seed {}; shrunk:", limits.seed);
        match sides.compare(&case, &mut Counts::off()) {
            Some(difference) => show::show(&case, &difference),
            None => println!("it didn't come again: the port's answers depend on more than its arguments"),
        }
        return ExitCode::FAILURE;
    }
    counts.print();
    let seconds = start.elapsed().as_secs_f64();
    println!("no difference; seed {}, {seconds:.1} s, {:.0} calls a second", limits.seed, counts.calls() as f64 / seconds);
    ExitCode::SUCCESS
}

fn say_who_answers(sides: &Sides) {
    if let Some(plant) = sides.port.plant {
        println!("a difference is planted: {plant:?}");
    }
    if !port::LINKED {
        println!("libcontroller.a, libcapi.a or libcapi_bench.a was not found when this was built: the source stands in for the port, so only the oracle is tried");
    }
}

/// The functions of hci.rs first, then short inputs, all of them, then runs made at random; the first case that differs, and
/// which it was.
fn run_all(sides: &mut Sides, counts: &mut Counts, limits: &Limits) -> Option<(Case, String)> {
    let times = (limits.calls / CALLS_FOR_EACH).clamp(1_000, MOST_TIMES);
    for (at, octets) in hci::short().chain(hci::made(limits.seed, times)) {
        let case = Case::Function(at, octets);
        if sides.compare(&case, counts).is_some() {
            return Some((case, "functions".to_string()));
        }
    }
    let short = exhaust::cases().map(|case| ("with short inputs", case));
    let made = (0..).map(|run| made(&mut Random::of_run(limits.seed, run), run));
    for (run, (name, case)) in short.chain(made).enumerate() {
        if counts.calls() >= limits.calls || Instant::now() >= limits.end {
            break;
        }
        counts.run(name);
        if sides.compare(&case, counts).is_some() {
            return Some((case, format!("run {run}, {name}")));
        }
    }
    None
}

/// A run at random, of a kind by its number.
fn made(random: &mut Random, run: u64) -> (&'static str, Case) {
    // the state after each call in every second run, else now and then, or at the end alone
    let shown_once_in = &[1, 1, 4, 1_000];
    let size = Size { records: random.pick(&[400, 120, 120, 120]), long_packets: true, shown_once_in };
    match run % 16 {
        0..=6 => ("at random", Case::Trial(generate::trial(random, size))),
        7..=10 => ("with strange states", Case::Trial(generate::strange(random, size))),
        11..=13 => ("damaged", Case::Trial(generate::damaged(random, size))),
        _ => {
            let (input, room) = generate::bench_input(random, size.records);
            ("of bench lines", Case::Lines(input, room))
        }
    }
}
