//! What the substitutions call: S2 the test for refusal 7 and the deep trace, S5
//! the total demand.

use crate::error::SolverError;
use crate::model::network::Network;
use crate::model::node::NodeType;
use crate::model::options::DemandModel;
use crate::solver::state::SolverState;
use simplelog::trace::{self, Event};
use std::cell::Cell;

thread_local! {
    static DEEP: Cell<bool> = const { Cell::new(false) };
}

/// Also put heads, flows and drawn flows of each stepped trial on the trace.
pub fn deep(on: bool) {
    DEEP.with(|d| d.set(on));
}

/// Refusal 7: a head, flow or drawn flow that is NaN, infinite or at least 2^64 in
/// magnitude; the first such node, else 64 + the first such link, else 256 + the
/// first node that draws so.
pub fn place_of_seven(heads: &[f64], flows: &[f64], drawn: &[f64]) -> Option<usize> {
    let limit = 18_446_744_073_709_551_616.0;
    let bad = |x: &f64| x.is_nan() || x.abs() >= limit;
    let columns = [(0, heads), (64, flows), (256, drawn)];
    let mut places = columns
        .iter()
        .filter_map(|(first, column)| Some(first + column.iter().position(bad)?));
    places.next()
}

/// The drawn flows where they count, else none.
fn drawn_of<'a>(network: &Network, state: &'a SolverState) -> &'a [f64] {
    match network.options.demand_model {
        DemandModel::PDA => &state.demand_flows,
        _ => &[],
    }
}

/// Called where documents 01 and 02 put the test: after the tank links and the drawn
/// update, before damping.
pub fn stepped(network: &Network, state: &SolverState) -> Result<(), SolverError> {
    let drawn = drawn_of(network, state);
    if trace::on() && DEEP.with(|d| d.get()) {
        trace::push(Event::State {
            heads: state.heads.clone(),
            flows: state.flows.clone(),
            drawn: drawn.to_vec(),
        });
    }
    if cfg!(feature = "seven")
        && let Some(place) = place_of_seven(&state.heads, &state.flows, drawn)
    {
        if trace::on() {
            trace::push(Event::NotFinite { place });
        }
        // the original's enum has no such case; the driver goes by the trace
        return Err(SolverError::Factorization(format!("refusal 7 at {place}")));
    }
    Ok(())
}

/// Document 02, [3]: over junctions in service, in node order from +0.0.
pub fn total_demand(network: &Network, demands: &[f64]) -> f64 {
    let counts = |i: usize| {
        let node = &network.nodes[i];
        !node.disabled && matches!(node.node_type, NodeType::Junction(_))
    };
    let of_junctions = (0..demands.len()).filter(|&i| counts(i));
    of_junctions.fold(0.0, |sum, i| sum + demands[i])
}

#[cfg(test)]
mod tests {
    use super::place_of_seven as place;

    #[test]
    fn heads_then_flows_then_drawn_flows() {
        let limit = 18_446_744_073_709_551_616.0;
        let under = f64::from_bits(f64::to_bits(limit) - 1);
        assert_eq!(place(&[0.0, under], &[-under], &[under, 0.0]), None);
        assert_eq!(place(&[0.0, -limit], &[f64::NAN], &[limit]), Some(1));
        assert_eq!(place(&[0.0], &[1.0, f64::INFINITY], &[limit]), Some(65));
        assert_eq!(place(&[0.0], &[1.0], &[0.0, limit]), Some(257));
        assert_eq!(place(&[], &[], &[]), None);
    }
}
