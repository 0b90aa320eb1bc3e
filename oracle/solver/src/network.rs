//! A sheet as the original's own network and starting state.

use crate::model::junction::Junction;
use crate::model::link::{Link, LinkStatus, LinkType};
use crate::model::network::Network;
use crate::model::node::{Node, NodeType};
use crate::model::options::{DemandModel, HeadlossFormula};
use crate::model::pipe::Pipe;
use crate::model::reservoir::Reservoir;
use crate::model::tank::Tank;
use crate::model::units::FlowUnits;
use crate::model::valve::{Valve, ValveType};
use crate::sheet::{Sheet, SheetLink, SheetNode};
use crate::solver::state::SolverState;

/// Flow units and statuses in the order of the sheet's codes.
const UNITS: [FlowUnits; 11] = [
    FlowUnits::CFS,
    FlowUnits::GPM,
    FlowUnits::MGD,
    FlowUnits::IMGD,
    FlowUnits::AFD,
    FlowUnits::LPS,
    FlowUnits::LPM,
    FlowUnits::MLD,
    FlowUnits::CMS,
    FlowUnits::CMH,
    FlowUnits::CMD,
];
const STATUSES: [LinkStatus; 8] = [
    LinkStatus::Closed,
    LinkStatus::Open,
    LinkStatus::Active,
    LinkStatus::TempClosed,
    LinkStatus::FixedClosed,
    LinkStatus::FixedOpen,
    LinkStatus::XPressure,
    LinkStatus::Xhead,
];

pub fn status_of(code: u8) -> LinkStatus {
    STATUSES[code as usize]
}

/// The other statuses of the original are for pumps and never arise.
pub fn code_of(status: LinkStatus) -> usize {
    let code = STATUSES.iter().position(|&s| s == status);
    code.expect("a status of the sheet")
}

/// Built by the original's own add_node and add_link, which keep the lists of a
/// tank's links.
pub fn network_of(sheet: &Sheet) -> Network {
    let unit = UNITS[sheet.unit as usize];
    let mut network = Network::new(unit, HeadlossFormula::HazenWilliams);
    network.options.accuracy = sheet.accuracy;
    network.options.damping_limit = sheet.damping_limit;
    // None: the original takes BIG_VALUE
    network.options.max_flow_change =
        (sheet.max_flow_change != 0.0).then_some(sheet.max_flow_change);
    network.options.max_trials = sheet.trials as usize;
    if let Some(pressures) = sheet.pressures {
        network.options.demand_model = DemandModel::PDA;
        network.options.minimum_pressure = pressures.minimum;
        network.options.required_pressure = pressures.required;
        network.options.pressure_exponent = 0.5;
    }
    // what the original's reading of a file would set
    network.contains_pressure_control_valve =
        sheet.links.iter().any(|l| l.kind == 1 || l.kind == 2);

    for (i, n) in sheet.nodes.iter().enumerate() {
        let node = Node {
            id: i.to_string().into(),
            node_type: node_type(n),
            elevation: n.elevation,
            coordinates: None,
            disabled: n.disabled == 1,
        };
        network.add_node(node).unwrap();
    }
    for (i, l) in sheet.links.iter().enumerate() {
        let link = Link {
            id: i.to_string().into(),
            link_type: link_type(l),
            start_node_id: l.start.to_string().into(),
            end_node_id: l.end.to_string().into(),
            initial_status: status_of(l.status),
            vertices: None,
            start_node: l.start,
            end_node: l.end,
        };
        network.add_link(link).unwrap();
    }
    network
}

fn node_type(n: &SheetNode) -> NodeType {
    match n.kind {
        0 => NodeType::Junction(Junction {
            emitter_coefficient: 0.0,
            demands: vec![],
        }),
        1 => NodeType::Reservoir(Reservoir {
            head_pattern: None,
            head_pattern_index: None,
        }),
        _ => NodeType::Tank(Tank {
            elevation: n.elevation,
            initial_level: 0.0,
            min_level: n.min_level,
            max_level: n.max_level,
            diameter: 0.0,
            min_volume: 0.0,
            volume_curve_id: None,
            overflow: n.overflow == 1,
            volume_curve: None,
            links_to: vec![],
            links_from: vec![],
        }),
    }
}

pub fn link_type(l: &SheetLink) -> LinkType {
    let valve_type = match l.kind {
        0 => {
            return LinkType::Pipe(Pipe {
                diameter: l.diameter,
                length: 0.0,
                roughness: 0.0,
                minor_loss: l.minor_loss,
                check_valve: l.check_valve == 1,
                headloss_formula: HeadlossFormula::HazenWilliams,
            });
        }
        1 => ValveType::PRV,
        2 => ValveType::PSV,
        3 => ValveType::PBV,
        4 => ValveType::FCV,
        5 => ValveType::TCV,
        _ => ValveType::PCV,
    };
    LinkType::Valve(Valve {
        diameter: l.diameter,
        setting: l.setting,
        curve_id: None,
        valve_type,
        minor_loss: l.minor_loss,
        gpv_curve: None,
        pcv_curve: None,
    })
}

/// Everything straight from the sheet; the solver takes any state. Drawn flows start
/// as the demands, as `apply_patterns` leaves them; without `PD` nothing reads them.
pub fn state_of(sheet: &Sheet, network: &Network) -> SolverState {
    let demands: Vec<f64> = sheet.nodes.iter().map(|n| n.demand).collect();
    SolverState {
        flows: sheet.links.iter().map(|l| l.flow).collect(),
        heads: sheet.nodes.iter().map(|n| n.head).collect(),
        demand_flows: demands.clone(),
        demands,
        emitter_flows: vec![0.0; sheet.nodes.len()],
        statuses: sheet.links.iter().map(|l| status_of(l.status)).collect(),
        settings: sheet.links.iter().map(|l| l.setting).collect(),
        resistances: sheet.links.iter().map(|l| l.resistance).collect(),
        topology_version: network.topology_version,
        properties_version: network.properties_version,
    }
}
