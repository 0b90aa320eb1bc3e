//! One run of the original `HydraulicSolver::solve` over a sheet, and document
//! 01's listing of it.

use crate::cause::{cause, number as cause_number};
use crate::error::SolverError;
use crate::network::{code_of, network_of, state_of};
use crate::sheet::{Refusal, Sheet};
use crate::solver::hydraulicsolver::HydraulicSolver;
use crate::solver::state::SolverState;
use simplelog::trace::{self, Event};
use std::fmt::{self, Write};

type Record = Vec<(&'static str, usize)>;

/// What document 01's desk is told; `events` is the whole trace.
pub struct Answer {
    pub number: u32,
    pub place: usize,
    pub record: Record,
    pub result: Option<SolverState>,
    /// demand, supply, error
    pub totals: [f64; 3],
    pub events: Vec<Event>,
}

impl Answer {
    fn refused(refusal: Refusal) -> Answer {
        Answer {
            number: refusal.number,
            place: refusal.place,
            record: vec![],
            result: None,
            totals: [0.0; 3],
            events: vec![],
        }
    }

    fn count(&self, mark: &str) -> usize {
        self.record.iter().filter(|(m, _)| *m == mark).count()
    }

    pub fn listing(&self) -> String {
        let mut text = String::new();
        self.list(&mut text).expect("a string takes every line");
        text
    }

    fn list(&self, out: &mut String) -> fmt::Result {
        let (trials, freed, grounded) = (self.record.len(), self.count("VF"), self.count("GN"));
        let (number, place) = (self.number, self.place);
        writeln!(out, "A {number} {place} {trials} {freed} {grounded}")?;
        for (mark, number) in &self.record {
            writeln!(out, "T {mark} {number}")?;
        }
        let Some(state) = &self.result else {
            return Ok(());
        };
        for (i, (&head, &demand)) in state.heads.iter().zip(&state.demands).enumerate() {
            writeln!(out, "N {i} {} {}", hex(head), hex(demand))?;
        }
        for (i, (&flow, &status)) in state.flows.iter().zip(&state.statuses).enumerate() {
            writeln!(out, "L {i} {} {}", hex(flow), code_of(status))?;
        }
        let [demand, supply, error] = self.totals.map(hex);
        writeln!(out, "B {demand} {supply} {error}")
    }
}

/// All NaNs count as equal: one pattern stands for them.
pub fn hex(x: f64) -> String {
    if x.is_nan() {
        "7ff8000000000000".into()
    } else {
        format!("{:016x}", x.to_bits())
    }
}

/// Rust's `sum`, which `plain` keeps, starts at -0.0; document 01's starts at +0.0
/// and so never ends at -0.0.
fn positive_zero(x: f64) -> f64 {
    if x == 0.0 { 0.0 } else { x }
}

pub fn run(bytes: &[u8]) -> Answer {
    let sheet = match Sheet::parse(bytes) {
        Ok(sheet) => sheet,
        Err(refusal) => return Answer::refused(refusal),
    };
    let network = network_of(&sheet);
    let state = state_of(&sheet, &network);
    let solver = HydraulicSolver::new(&network).expect("the stand-in's ordering never fails");
    trace::start();
    let result = solver.solve(&network, &state);
    let kinds: Vec<u8> = sheet.links.iter().map(|l| l.kind).collect();
    told(result, &kinds, trace::take())
}

/// The answer, from what the original gave back and what it logged.
fn told(result: Result<SolverState, SolverError>, kinds: &[u8], events: Vec<Event>) -> Answer {
    let (mut record, totals) = record_of(kinds, &events);
    let (number, place, result) = match result {
        Ok(state) => (0, 0, Some(state)),
        Err(SolverError::SingularMatrix { node_id }) => {
            let node = node_id.parse().unwrap();
            record.push(("SG", node));
            (6, node, None)
        }
        Err(SolverError::MaxIterations { max_trials }) => {
            assert_eq!(record.len(), max_trials);
            (8, max_trials, None)
        }
        Err(error) => match record.last() {
            Some(&("NF", place)) => (7, place, None),
            _ => panic!("the original gave {error:?}"),
        },
    };
    Answer {
        number,
        place,
        record,
        result,
        totals,
        events,
    }
}

/// Document 01's entries but `SG`, and the totals of the converged trial. Links change
/// in ascending order, so a trial's first is its lowest.
fn record_of(kinds: &[u8], events: &[Event]) -> (Record, [f64; 3]) {
    let mut record = Record::new();
    let mut totals = [0.0; 3];
    let mut first = None;
    for event in events {
        match event {
            Event::Freed { link } => record.push(("VF", *link)),
            Event::Grounded { node } => record.push(("GN", node.parse().unwrap())),
            Event::Stepped { .. } => record.push(("ST", cause_number(first.take()))),
            Event::Converged {
                iteration,
                error,
                supply,
                demand,
            } => {
                // the same trial has already logged its statistics
                let Some(("ST", number)) = record.pop() else {
                    panic!("converged without a step");
                };
                record.push(("OK", number));
                assert_eq!(record.len(), *iteration);
                totals = [*demand, *supply, *error].map(positive_zero);
            }
            Event::NotFinite { place } => record.push(("NF", *place)),
            Event::Status { link, from, to } => {
                let link: usize = link.parse().unwrap();
                first.get_or_insert((link, cause(kinds[link], from, to)));
            }
            Event::State { .. } => {}
        }
    }
    (record, totals)
}
