//! A fixed sample of runs with the source's answers, for a replay without the source: `crates/replay` reads the runs from its
//! file `stdin`, and its file `stdout` has the answers. README.md has the form.
use crate::counts::Counts;
use crate::generate::{trial, Size};
use crate::octets::hex;
use crate::random::Random;
use crate::setup::is_replayed;
use crate::source;
use crate::trial::Trial;
use std::io::{self, Write};

/// With this seed each opcode that can succeed does so in the sample.
const SEED: u64 = 4;
const TRIALS: u64 = 400;
const SIZE: Size = Size { records: 24, long_packets: false, shown_once_in: &[8, 1_000] };

pub fn write(runs: &mut dyn Write, answers: &mut dyn Write) -> io::Result<Counts> {
    let mut counts = Counts::new();
    let mut octets = Vec::new();
    for run in 0..TRIALS {
        let trial = trial(&mut Random::of_run(SEED, run), SIZE);
        octets.clear();
        if is_replayed(&trial) {
            source::run(&trial, &mut octets, &mut counts);
        }
        counts.run("sampled");
        write_run(runs, &trial)?;
        writeln!(answers, "{}", hex(&octets))?;
    }
    Ok(counts)
}

/// Six numbers of four octets, low first, then the setup and the records.
fn write_run(out: &mut dyn Write, trial: &Trial) -> io::Result<()> {
    let Trial { setup, pool, events, packets, room, input } = trial;
    for number in [setup.len(), *pool, *events, *packets, *room, input.len()] {
        out.write_all(&(number as u32).to_le_bytes())?;
    }
    out.write_all(setup)?;
    out.write_all(input)
}

#[cfg(test)]
mod tests {
    #[test]
    fn every_opcode_succeeds() {
        let counts = super::write(&mut std::io::sink(), &mut std::io::sink()).expect("a sink takes all");
        let (fewest, opcode) = counts.fewest_succeeded();
        assert!(fewest > 0, "{opcode:#06x}");
    }
}
