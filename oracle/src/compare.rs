//! One run on both sides.
use crate::counts::Counts;
use crate::hci;
use crate::lines;
use crate::port::Port;
use crate::source;
use crate::trial::Trial;

/// What is handed to both sides.
#[derive(Clone, Debug, PartialEq, Eq)]
pub enum Case {
    Trial(Trial),
    /// Bench lines, and the room for what is printed.
    Lines(Vec<u8>, usize),
    /// A function of hci.rs by its place in the table, and the octets that its arguments are read from.
    Function(usize, Vec<u8>),
}

/// Both answers, where they differ; the port's is in words where it did what no call may do.
pub struct Difference {
    pub source: Vec<u8>,
    pub port: Vec<u8>,
    pub words: Option<String>,
}

/// Both sides, with the buffers that runs share.
#[derive(Default)]
pub struct Sides {
    pub port: Port,
    source_answers: Vec<u8>,
    port_answers: Vec<u8>,
}

impl Sides {
    pub fn compare(&mut self, case: &Case, counts: &mut Counts) -> Option<Difference> {
        let done = match case {
            Case::Trial(trial) => {
                source::run(trial, &mut self.source_answers, counts);
                self.port.trials(trial, &mut self.port_answers, counts)
            }
            Case::Lines(input, room) => {
                lines::run(input, *room, &mut self.source_answers, counts);
                self.port.bench(input, *room, &mut self.port_answers)
            }
            Case::Function(at, octets) => {
                self.source_answers.clear();
                self.port_answers.clear();
                hci::compare(self.port.plant, *at, octets).map(|compared| counts.function(*at, compared))
            }
        };
        if done.is_ok() && self.source_answers == self.port_answers {
            return None;
        }
        Some(Difference { source: self.source_answers.clone(), port: self.port_answers.clone(), words: done.err() })
    }

    pub fn differs(&mut self, case: &Case) -> bool {
        self.compare(case, &mut Counts::off()).is_some()
    }
}
