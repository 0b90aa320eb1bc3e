//! The proved solver of `include/desk.h`, called safely. Nothing is decided here: a sheet goes in, and what the
//! library told comes out. Calls may be made from several threads; each needs 32 KiB of stack.
//!
//! ```ignore
//! let (answer, verdict) = ndurabeew::verdict(&sheet, &ndurabeew::Limits::default());
//! if verdict.may_be_sold() { println!("{:?}", answer.heads); }
//! ```

// enough for every sheet (include/desk.h)
const NODES: usize = 64;
const LINKS: usize = 128;
const RECORD: usize = 800;
const SCRATCH: usize = 4096;
// no answer has these: results are finite, and no status has this code
const NOTHING: f64 = f64::NAN;
const NO_STATUS: u8 = 255;

extern "C" {
    fn desk_solve(
        sheet: *const u8, sheet_length: usize,
        heads: *mut f64, heads_length: usize, demands: *mut f64, demands_length: usize,
        flows: *mut f64, flows_length: usize, statuses: *mut u8, statuses_length: usize,
        record: *mut u8, record_length: usize, scratch: *mut f64, scratch_length: usize,
        counts: *mut u64, totals: *mut f64,
    );
    fn desk_verdict(
        sheet: *const u8, sheet_length: usize, lowest_pressure: f64, head: f64, flow: f64,
        heads: *mut f64, heads_length: usize, demands: *mut f64, demands_length: usize,
        flows: *mut f64, flows_length: usize, statuses: *mut u8, statuses_length: usize,
        record: *mut u8, record_length: usize, scratch: *mut f64, scratch_length: usize,
        counts: *mut u64, totals: *mut f64, verdict: *mut u64,
    );
    fn desk_start(
        sheet: *const u8, sheet_length: usize,
        state_heads: *mut f64, state_demands: *mut f64, state_drawn: *mut f64, state_flows: *mut f64,
        state_statuses: *mut u8, state_grounded: *mut u8, state_sums: *mut f64, state_counts: *mut u64,
        told: *mut u64,
    );
    fn desk_trial(
        sheet: *const u8, sheet_length: usize,
        state_heads: *mut f64, state_demands: *mut f64, state_drawn: *mut f64, state_flows: *mut f64,
        state_statuses: *mut u8, state_grounded: *mut u8, state_sums: *mut f64, state_counts: *mut u64,
        heads: *mut f64, heads_length: usize, demands: *mut f64, demands_length: usize,
        flows: *mut f64, flows_length: usize, statuses: *mut u8, statuses_length: usize,
        record: *mut u8, record_length: usize, scratch: *mut f64, scratch_length: usize,
        told: *mut u64,
    );
}

/// What a verdict is asked with: feet, feet, cubic feet per second. The default is what the desk takes.
#[derive(Clone, Copy, Debug, PartialEq)]
pub struct Limits {
    pub lowest_pressure: f64,
    pub head: f64,
    pub flow: f64,
}

impl Default for Limits {
    fn default() -> Limits {
        Limits { lowest_pressure: 0.0, head: 0.1, flow: 0.001 }
    }
}

/// An entry of the record: a mark of two letters and its number.
#[derive(Clone, Copy, Debug, PartialEq, Eq)]
pub struct Entry {
    pub mark: [u8; 2],
    pub number: u16,
}

/// What a solve told. Heads, demands, flows and statuses are empty where the number is not 0.
#[derive(Clone, Debug, PartialEq)]
pub struct Answer {
    pub number: u64,
    pub place: u64,
    pub trials: u64,
    pub freed: u64,
    pub grounded: u64,
    pub heads: Vec<f64>,
    pub demands: Vec<f64>,
    pub flows: Vec<f64>,
    pub statuses: Vec<u8>,
    pub record: Vec<Entry>,
    pub total_demand: f64,
    pub total_supply: f64,
    pub error: f64,
}

#[derive(Clone, Copy, Debug, PartialEq, Eq)]
pub struct Verdict {
    pub number: u64,
    pub place: u64,
}

impl Verdict {
    pub fn may_be_sold(&self) -> bool {
        self.number == 0
    }
}

/// What one call lends.
struct Buffers {
    heads: Vec<f64>,
    demands: Vec<f64>,
    flows: Vec<f64>,
    statuses: Vec<u8>,
    record: Vec<u8>,
    scratch: Vec<f64>,
    counts: [u64; 5],
    totals: [f64; 3],
}

impl Buffers {
    fn new() -> Buffers {
        Buffers {
            heads: vec![NOTHING; NODES],
            demands: vec![NOTHING; NODES],
            flows: vec![NOTHING; LINKS],
            statuses: vec![NO_STATUS; LINKS],
            record: vec![0; RECORD],
            scratch: vec![0.0; SCRATCH],
            counts: [0; 5],
            totals: [0.0; 3],
        }
    }

    fn entries(&self, trials: u64) -> Vec<Entry> {
        let entries = self.record.chunks_exact(4).take(trials as usize);
        entries.map(|e| Entry { mark: [e[0], e[1]], number: u16::from_le_bytes([e[2], e[3]]) }).collect()
    }

    fn answer(self) -> Answer {
        let [number, place, trials, freed, grounded] = self.counts;
        let solved = number == 0;
        let told = |column: Vec<f64>| column.into_iter().filter(|x| solved && !x.is_nan()).collect();
        let record = self.entries(trials);
        Answer {
            number, place, trials, freed, grounded,
            heads: told(self.heads),
            demands: told(self.demands),
            flows: told(self.flows),
            statuses: self.statuses.into_iter().filter(|&code| solved && code != NO_STATUS).collect(),
            record,
            total_demand: self.totals[0],
            total_supply: self.totals[1],
            error: self.totals[2],
        }
    }
}

/// Solves the network of a sheet. Any bytes are taken; a sheet that is not good has its refusal as the answer.
pub fn solve(sheet: &[u8]) -> Answer {
    let mut lent = Buffers::new();
    // SAFETY: every buffer is its start and its length, none overlaps another, and nothing is kept after the call
    unsafe {
        desk_solve(
            sheet.as_ptr(), sheet.len(),
            lent.heads.as_mut_ptr(), lent.heads.len(), lent.demands.as_mut_ptr(), lent.demands.len(),
            lent.flows.as_mut_ptr(), lent.flows.len(), lent.statuses.as_mut_ptr(), lent.statuses.len(),
            lent.record.as_mut_ptr(), lent.record.len(), lent.scratch.as_mut_ptr(), lent.scratch.len(),
            lent.counts.as_mut_ptr(), lent.totals.as_mut_ptr(),
        );
    }
    lent.answer()
}

/// The same solve, and whether its answer may be sold under these limits.
pub fn verdict(sheet: &[u8], limits: &Limits) -> (Answer, Verdict) {
    let mut lent = Buffers::new();
    let mut told = [0; 2];
    // SAFETY: as in `solve`
    unsafe {
        desk_verdict(
            sheet.as_ptr(), sheet.len(), limits.lowest_pressure, limits.head, limits.flow,
            lent.heads.as_mut_ptr(), lent.heads.len(), lent.demands.as_mut_ptr(), lent.demands.len(),
            lent.flows.as_mut_ptr(), lent.flows.len(), lent.statuses.as_mut_ptr(), lent.statuses.len(),
            lent.record.as_mut_ptr(), lent.record.len(), lent.scratch.as_mut_ptr(), lent.scratch.len(),
            lent.counts.as_mut_ptr(), lent.totals.as_mut_ptr(), told.as_mut_ptr(),
        );
    }
    (lent.answer(), Verdict { number: told[0], place: told[1] })
}

/// What a start or a trial tells first.
#[derive(Clone, Copy, Debug, PartialEq, Eq)]
pub enum How {
    /// a trial may follow
    More,
    /// this is the answer
    Done,
    /// the call was refused, and nothing changed
    Refused,
}

/// What a start or a trial told.
#[derive(Clone, Copy, Debug, PartialEq, Eq)]
pub struct Told {
    pub how: How,
    pub number: u64,
    pub place: u64,
    pub trials: u64,
    pub freed: u64,
    pub grounded: u64,
}

impl Told {
    fn from(counts: [u64; 6]) -> Told {
        let [how, number, place, trials, freed, grounded] = counts;
        let how = [How::More, How::Done, How::Refused][how as usize];
        Told { how, number, place, trials, freed, grounded }
    }
}

/// What the next trial starts from. Entries behind the sheet's nodes and links are 0.
#[derive(Clone, Debug, PartialEq)]
pub struct State {
    pub heads: [f64; NODES],
    pub demands: [f64; NODES],
    pub drawn: [f64; NODES],
    pub flows: [f64; LINKS],
    pub statuses: [u8; LINKS],
    pub grounded: [u8; NODES],
    sums: [f64; 5],
    counts: [u64; 6],
}

/// A solve taken one trial at a time.
pub struct Trials<'a> {
    sheet: &'a [u8],
    state: State,
    lent: Buffers,
    told: Told,
}

impl<'a> Trials<'a> {
    /// Starts the solve of a sheet.
    pub fn start(sheet: &'a [u8]) -> Trials<'a> {
        let mut state = State {
            heads: [0.0; NODES], demands: [0.0; NODES], drawn: [0.0; NODES], flows: [0.0; LINKS],
            statuses: [0; LINKS], grounded: [0; NODES], sums: [0.0; 5], counts: [0; 6],
        };
        let mut counts = [0; 6];
        // SAFETY: as in `solve`; the columns have the sizes of include/desk.h
        unsafe {
            desk_start(
                sheet.as_ptr(), sheet.len(),
                state.heads.as_mut_ptr(), state.demands.as_mut_ptr(), state.drawn.as_mut_ptr(), state.flows.as_mut_ptr(),
                state.statuses.as_mut_ptr(), state.grounded.as_mut_ptr(), state.sums.as_mut_ptr(), state.counts.as_mut_ptr(),
                counts.as_mut_ptr(),
            );
        }
        Trials { sheet, state, lent: Buffers::new(), told: Told::from(counts) }
    }

    pub fn told(&self) -> Told {
        self.told
    }

    pub fn state(&self) -> &State {
        &self.state
    }

    /// The record's entries so far.
    pub fn record(&self) -> Vec<Entry> {
        self.lent.entries(self.told.trials)
    }

    /// One trial. After the answer nothing changes, and none follows a sheet that was refused.
    pub fn take(&mut self) -> Told {
        if self.told.how != How::Refused {
            let (state, lent) = (&mut self.state, &mut self.lent);
            let mut counts = [0; 6];
            // SAFETY: as in `start`
            unsafe {
                desk_trial(
                    self.sheet.as_ptr(), self.sheet.len(),
                    state.heads.as_mut_ptr(), state.demands.as_mut_ptr(), state.drawn.as_mut_ptr(), state.flows.as_mut_ptr(),
                    state.statuses.as_mut_ptr(), state.grounded.as_mut_ptr(), state.sums.as_mut_ptr(), state.counts.as_mut_ptr(),
                    lent.heads.as_mut_ptr(), lent.heads.len(), lent.demands.as_mut_ptr(), lent.demands.len(),
                    lent.flows.as_mut_ptr(), lent.flows.len(), lent.statuses.as_mut_ptr(), lent.statuses.len(),
                    lent.record.as_mut_ptr(), lent.record.len(), lent.scratch.as_mut_ptr(), lent.scratch.len(),
                    counts.as_mut_ptr(),
                );
            }
            self.told = Told::from(counts);
        }
        self.told
    }

    /// What a whole solve answers, once it is there; else what was started.
    pub fn answer(mut self) -> Result<Answer, Trials<'a>> {
        if self.told.how == How::More {
            return Err(self);
        }
        let Told { number, place, trials, freed, grounded, .. } = self.told;
        self.lent.counts = [number, place, trials, freed, grounded];
        self.lent.totals.copy_from_slice(&self.state.sums[2..]);
        Ok(self.lent.answer())
    }
}
